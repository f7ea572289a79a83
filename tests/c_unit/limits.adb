--  What the package for Ada refuses: by its ranges, by its preconditions, and by the library's answer. It prints how many were tried.
with Ada.Assertions;  use Ada.Assertions;
with Ada.Command_Line;
with Ada.Text_IO;     use Ada.Text_IO;
with Etcs_C;
with Etcs_Unit;       use Etcs_Unit;
with Memory;

procedure Limits is
   use type Etcs_C.Brake, Etcs_C.Proof;

   Slots : constant := 4;
   Ram   : aliased Memory.Ram (6 * Slots);
   Our   : Unit (Ram'Access);
   Tried, Wrong : Natural := 0;

   procedure Is_Right (What : String; Holds : Boolean) is
   begin
      Tried := Tried + 1;
      if not Holds then
         Wrong := Wrong + 1;
         Put_Line (What & " is wrong");
      end if;
   end Is_Right;

   generic
      with procedure Call;
   procedure Fails (What : String; Is_Answer : Boolean := False; Is_Range : Boolean := False);
   procedure Fails (What : String; Is_Answer : Boolean := False; Is_Range : Boolean := False) is
   begin
      Call;
      Is_Right (What & ", which passes,", False);
   exception
      when Assertion_Error => Is_Right (What & ", by a precondition,", not Is_Answer and not Is_Range);
      when Refused => Is_Right (What & ", by an answer,", Is_Answer);
      when Constraint_Error => Is_Right (What & ", by a range,", Is_Range);
   end Fails;

   --  (the compiler can't know it)
   function Beyond (Most : Integer) return Integer is (Most + Ada.Command_Line.Argument_Count);

   procedure Moment is begin Clock (Our, 5); end Moment;
   procedure Earlier is begin Clock (Our, 4); end Earlier;
   procedure Open_Again is begin Put_Line (Integer'Image (Open (Our, Etcs_C.Unknown)'Length)); end Open_Again;
   procedure No_Bytes is begin Telegram (Our, (1 .. 0 => 0)); end No_Bytes;
   procedure Too_Long is begin Telegram (Our, (1 .. 105 => 0)); end Too_Long;
   procedure No_Letter is begin Identity (Our, ""); end No_Letter;
   procedure Unprinted is begin Identity (Our, "A" & ASCII.DEL); end Unprinted;
   procedure Letters is begin Identity (Our, "ABCDEFGHIJKLMNOPQ"); end Letters;
   procedure Fast is begin Odometer (Our, 0, Speed_M_Per_H (Beyond (600_000))); end Fast;
   procedure Far is begin Odometer (Our, Movement_Cm (Beyond (10_000)), 1); end Far;
   procedure Category is begin Data (Our, (20_000, 160_000, 70, 0, Beyond (15))); end Category;
   procedure Other_Ring is begin Format (Ram, Slots + 1); end Other_Ring;
   procedure Other_Wipe is begin Wipe (Ram, Slots + 1); end Other_Wipe;

   --  The number of the first event after the next power-up: 1 of an empty journal.
   function Next_Event return Natural is
   begin
      if Open (Our, Etcs_C.Unknown)'Length > 0 then
         return 0;
      end if;
      Clock (Our, 5);
      return Event : constant Natural := Natural (Flush (Our) (1).Event) do
         Close (Our);
      end return;
   end Next_Event;

   function Keeps_Journal return Boolean is
   begin
      Format (Ram, Slots);
      return False;
   exception
      when Has_Journal => return True;
   end Keeps_Journal;

   procedure Not_Open is new Fails (Moment);
   procedure Is_Earlier is new Fails (Earlier);
   procedure Is_Opened is new Fails (Open_Again);
   procedure Is_Empty is new Fails (No_Bytes);
   procedure Is_Too_Long is new Fails (Too_Long);
   procedure Is_Nameless is new Fails (No_Letter);
   procedure Is_Unprinted is new Fails (Unprinted);
   procedure Has_17_Letters is new Fails (Letters);
   procedure Is_Fast is new Fails (Fast);
   procedure Is_Far is new Fails (Far);
   procedure Has_Category is new Fails (Category);
   procedure Is_Of_Others is new Fails (Other_Ring);
   procedure Is_Wipe_Of_Others is new Fails (Other_Wipe);
   procedure Is_Unformatted is new Fails (Open_Again);

   Two : constant Outputs :=
     ((1, 5, Etcs_C.Trip, Etcs_C.Level_1, Etcs_C.Emergency, 0), (2, 7, Etcs_C.Post_Trip, Etcs_C.Level_1, Etcs_C.Service, 0));
begin
   Not_Open ("an input before the power-up");
   Is_Of_Others ("a ring of another size");
   Is_Wipe_Of_Others ("a wipe of a ring of another size");
   Is_Unformatted ("a power-up on zeros", Is_Answer => True);
   Is_Right ("closed after a refusal", not Is_Open (Our));
   Format (Ram, Slots);
   Is_Right ("its first event", Next_Event = 1);
   Is_Right ("a format of a journal", Keeps_Journal);
   Is_Right ("it goes on", Next_Event = 3);
   Wipe (Ram, Slots);
   Is_Right ("its first event after a wipe", Next_Event = 1);
   Is_Right ("a power-up", Open (Our, Etcs_C.Unknown)'Length = 0 and then Is_Open (Our));
   Is_Opened ("a power-up while it is open");
   Is_Empty ("a telegram of no bytes");
   Is_Too_Long ("a telegram of 105 bytes");
   Is_Nameless ("an identity of no letter");
   Is_Unprinted ("an identity with DEL");
   Has_17_Letters ("an identity of 17 letters");
   Is_Fast ("600,001 m/h", Is_Range => True);
   Is_Far ("10,001 cm", Is_Range => True);
   Has_Category ("category 16", Is_Range => True);
   Clock (Our, 5);
   Is_Earlier ("a moment before the last one", Is_Answer => True);
   Is_Right ("the brake of two outputs", Command (Two) = (2, 7, Etcs_C.Post_Trip, Etcs_C.Level_1, Etcs_C.Emergency, 0));
   Close (Our);
   Is_Right ("closed", not Is_Open (Our));
   Is_Right ("the build", Build_Info (1 .. 9) = "Gaknifur " and then (Build_Proof = Etcs_C.Proved) = (Build_Info (Build_Info'Last - 7 .. Build_Info'Last) = ", proved"));
   Put_Line ("Ada:" & Tried'Image & " tried," & Wrong'Image & " of them wrong");
   if Wrong > 0 then
      Ada.Command_Line.Set_Exit_Status (1);
   end if;
end Limits;
