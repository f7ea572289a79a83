--  The train of brake.c in Ada, over sectors in memory, which a maker's own driver would stand for. It prints the same.
with Ada.Command_Line;
with Ada.Exceptions;
with Ada.Text_IO; use Ada.Text_IO;
with Etcs_C;
with Etcs_Unit;   use Etcs_Unit;
with Interfaces;  use Interfaces;
with Memory;

procedure Brake is
   use type Etcs_C.Brake, Etcs_C.Mode;

   Slots       : constant := 64;
   Cycle_Ms    : constant := 500;
   Most_Cycles : constant := 1_000;

   Train_Of : aliased Memory.Ram (6 * Slots);
   Our      : Unit (Train_Of'Access);

   --  The train: its speed in m/h, and what is left of a movement, in 1/36,000 cm, which is carried over to the next one.
   Speed  : Speed_M_Per_H := 0;
   Rest   : Integer_64 := 0;
   Moment : Moment_Ms := 0;
   Obeyed : Output := (0, 0, Etcs_C.Stand_By, Etcs_C.Invalid, Etcs_C.Emergency, 0);

   --  How far it goes in a cycle, in whole centimetres: 0.5 m/s^2 forward, 0.7 and 1 m/s^2 against it.
   function Go_On return Movement_Cm is
      Gained : constant array (Etcs_C.Brake) of Integer := (900, -1_260, -1_800);
      Way    : Integer_64;
   begin
      Speed  := Speed_M_Per_H (Integer'Max (0, Integer'Min (100_000, Integer (Speed) + Gained (Obeyed.Brake))));
      Moment := Moment + Cycle_Ms;
      Way    := Integer_64 (Speed) * Cycle_Ms + Rest;
      Rest   := Way mod 36_000;
      return Movement_Cm (Way / 36_000);
   end Go_On;

   function Shown (Image : String) return String is (if Image (Image'First) = ' ' then Image (Image'First + 1 .. Image'Last) else Image);

   procedure Obey (Given : Output) is
   begin
      if Given.Brake /= Obeyed.Brake or else Given.Mode /= Obeyed.Mode then
         Put_Line ("event " & Shown (Given.Event'Image) & ": mode " & Name (Given.Mode) & ", brake " & Name (Given.Brake) & ", limit"
                   & Given.Limit_M_Per_H'Image & " m/h, speed" & Speed'Image & " m/h");
      end if;
      Obeyed := Given;
   end Obey;

   procedure Make_Ready is
   begin
      Telegram (Our,
        (16#90#, 16#00#, 16#7F#, 16#80#, 16#20#, 16#01#, 16#43#, 16#20#, 16#24#, 16#A8#, 16#00#, 16#7F#, 16#E0#, 16#07#, 16#D0#, 16#02#,
         16#B0#, 16#0D#, 16#90#, 16#00#, 16#10#, 16#00#, 16#0D#, 16#C0#, 16#3A#, 16#40#, 16#00#, 16#20#, 16#80#, 16#1F#, 16#E0#));
      Identity (Our, "IC 704");
      Act (Our, Etcs_C.Choose_Level_1);
      --  (the reaction time is 0 only here: no real brakes act at once)
      Data (Our, (20_000, 160_000, 70, Reaction_Ms => 0, Category => Etcs_C.Category_None));
      Act (Our, Etcs_C.Start);
   end Make_Ready;

   Movement : Movement_Cm;
begin
   Format (Train_Of, Slots);
   if Open (Our, Etcs_C.Unknown)'Length > 0 then
      raise Program_Error with "a power-up on an empty journal releases no output";
   end if;
   Make_Ready;
   for Cycle in 1 .. Most_Cycles loop
      declare
         Released : constant Outputs := Flush (Our);
      begin
         if Released'Length > 0 then
            Obey (Command (Released));
         end if;
      end;
      Movement := Go_On;
      exit when Speed = 0 and then Cycle > 1;
      Odometer (Our, Movement, Speed);
      Clock (Our, Moment);
   end loop;
   Put_Line ("the train stands after" & Moment'Image & " ms");
exception
   when Problem : others =>
      Put_Line ("emergency brake: " & Ada.Exceptions.Exception_Information (Problem));
      Ada.Command_Line.Set_Exit_Status (1);
end Brake;
