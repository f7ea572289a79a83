with System; use System;

package body Etcs_Unit is

   use type Etcs_C.Unit_Status;

   function Status (Answer : Unsigned_32) return Etcs_C.Unit_Status is
     (Etcs_C.Unit_Status'Enum_Val (Integer (Answer)));

   procedure Check (Answer : Unsigned_32) is
   begin
      if Answer /= 0 then
         raise Refused with Status (Answer)'Image;
      end if;
   end Check;

   function Text (At_Address : Address) return String is
      Letters : String (1 .. 64) with Import, Address => At_Address;
      Last    : Natural := 0;
   begin
      while Last < Letters'Last and then Letters (Last + 1) /= ASCII.NUL loop
         Last := Last + 1;
      end loop;
      return Letters (1 .. Last);
   end Text;

   function Name (Of_Mode : Mode) return String is (Text (Etcs_C.Mode_Name (Mode'Enum_Rep (Of_Mode))));
   function Name (Of_Brake : Brake) return String is (Text (Etcs_C.Brake_Name (Brake'Enum_Rep (Of_Brake))));

   function Build_Info return String is
      Letters : String (1 .. Etcs_C.Build_Info_Bytes) := (others => ' ');
      Length  : aliased Unsigned_32 := 0;
   begin
      Check (Etcs_C.Build_Info (Letters'Address, Letters'Length, Length'Address));
      return Letters (1 .. Natural (Length));
   end Build_Info;

   function Build_Proof return Proof is (Proof'Enum_Val (Integer (Etcs_C.Build_Proof)));

   function Command (Released : Outputs) return Output is
      Found : Output := Released (Released'Last);
   begin
      for One of Released loop
         Found.Brake := Brake'Max (Found.Brake, One.Brake);
      end loop;
      return Found;
   end Command;

   procedure Carry_Out (On : in out Medium'Class; Request : Etcs_C.Unit_Request_Info_Struct; Content : Bytes) is
      use type Etcs_C.Request_Kind;
   begin
      if Etcs_C.Request_Kind'Enum_Val (Integer (Request.Kind)) = Etcs_C.Write then
         On.Write (Sector_Number (Request.Sector), Content (1 .. Etcs_C.Unit_Sector * Natural (Request.Sectors)));
      else
         On.Sync;
      end if;
   end Carry_Out;

   procedure Format (On : in out Medium'Class; Slots : Slot_Count) is
      First  : Sector;
      Facts  : aliased Etcs_C.Image_Struct;
      Answer : Etcs_C.Unit_Status;
   begin
      On.Read (0, First);
      Answer := Status (Etcs_C.Image_Facts (First'Address, First'Length, Etcs_C.Unit_Abi, Facts'Address));
      if Answer = Etcs_C.Ok then
         raise Has_Journal;
      elsif Answer /= Etcs_C.Image_Not_Formatted then
         raise Refused with Answer'Image;
      end if;
      Wipe (On, Slots);
   end Format;

   procedure Wipe (On : in out Medium'Class; Slots : Slot_Count) is
      Request : aliased Etcs_C.Unit_Request_Info_Struct;
      Content : Sector;
      Answer  : Unsigned_32;
   begin
      for Index in Unsigned_32 loop
         Answer := Etcs_C.Unit_Format_Request (Unsigned_32 (Slots), Index, Request'Address, Content'Address, Content'Length);
         exit when Status (Answer) = Etcs_C.No_Such_Request;
         Check (Answer);
         Carry_Out (On, Request, Content);
      end loop;
   end Wipe;

   --  Carries out a request of the unit: hands in a sector that is to be read, or says that it is done.
   procedure Serve (To : in out Unit; Request : Etcs_C.Unit_Request_Info_Struct; Content : Bytes) is
      use type Etcs_C.Request_Kind;
      Read : Sector;
   begin
      if Etcs_C.Request_Kind'Enum_Val (Integer (Request.Kind)) = Etcs_C.Read then
         To.On.Read (Sector_Number (Request.Sector), Read);
         Check (Etcs_C.Unit_Provide (To.Handle'Address, Request.Sector, Read'Address, Read'Length));
      else
         Carry_Out (To.On.all, Request, Content);
         Check (Etcs_C.Unit_Done (To.Handle'Address));
      end if;
   end Serve;

   --  Carries out all requests, and returns the outputs. An exception of the medium makes the unit fail: it releases nothing more.
   function Release (To : in out Unit) return Outputs is
      Request : aliased Etcs_C.Unit_Request_Info_Struct;
      Content : Bytes (1 .. Etcs_C.Unit_Request_Bytes);
      Raw     : array (1 .. Etcs_C.Unit_Outputs) of aliased Etcs_C.Unit_Output_Struct with Convention => C;
      Count   : aliased Unsigned_32 := 0;
      Answer  : Unsigned_32;
   begin
      loop
         Answer := Etcs_C.Unit_Request (To.Handle'Address, Request'Address, Content'Address, Content'Length);
         exit when Status (Answer) = Etcs_C.No_Such_Request;
         Check (Answer);
         begin
            Serve (To, Request, Content);
         exception
            when others =>
               Answer := Etcs_C.Unit_Fail (To.Handle'Address);
               raise;
         end;
      end loop;
      Check (Etcs_C.Unit_Release (To.Handle'Address, Raw'Address, Raw'Length, Count'Address));
      return Found : Outputs (1 .. Natural (Count)) do
         for Index in Found'Range loop
            Found (Index) :=
              (Event         => Raw (Index).Event,
               Limit_M_Per_H => Raw (Index).Limit_M_Per_H,
               Mode          => Mode'Enum_Val (Integer (Raw (Index).Mode)),
               Level         => Level'Enum_Val (Integer (Raw (Index).Level)),
               Brake         => Brake'Enum_Val (Integer (Raw (Index).Brake)),
               Indications   => Raw (Index).Indications);
         end loop;
      end return;
   end Release;

   function Open (To : in out Unit; Moved : Cold) return Outputs is
   begin
      Check (Etcs_C.Unit_Begin
        (To.Handle'Address, Unsigned_64 (To.On.Sectors), Cold'Enum_Rep (Moved), Etcs_C.Unit_Abi));
      return Release (To);
   exception
      when others =>
         Close (To);
         raise;
   end Open;

   function Flush (To : in out Unit) return Outputs is
   begin
      Check (Etcs_C.Unit_Prepare (To.Handle'Address));
      return Release (To);
   end Flush;

   procedure Close (To : in out Unit) is
   begin
      if Is_Open (To) then
         Check (Etcs_C.Unit_Close (To.Handle'Address));
      end if;
   end Close;

   overriding procedure Finalize (To : in out Unit) is
   begin
      Close (To);
   end Finalize;

   procedure Telegram (To : in out Unit; Content : Bytes) is
   begin
      Check (Etcs_C.Unit_Telegram (To.Handle'Address, Content'Address, Content'Length));
   end Telegram;

   procedure Odometer (To : in out Unit; Movement : Movement_Cm; Speed : Speed_M_Per_H) is
   begin
      Check (Etcs_C.Unit_Odometer (To.Handle'Address, Integer_64 (Movement), Unsigned_32 (Speed)));
   end Odometer;

   procedure Clock (To : in out Unit; Moment : Moment_Ms) is
   begin
      Check (Etcs_C.Unit_Clock (To.Handle'Address, Unsigned_64 (Moment)));
   end Clock;

   procedure Act (To : in out Unit; By_Driver : Action) is
   begin
      Check (Etcs_C.Unit_Action (To.Handle'Address, Action'Enum_Rep (By_Driver)));
   end Act;

   procedure Identity (To : in out Unit; Text : String) is
   begin
      Check (Etcs_C.Unit_Identity (To.Handle'Address, Text'Address, Text'Length));
   end Identity;

   procedure Number (To : in out Unit; Running : Running_Number) is
   begin
      Check (Etcs_C.Unit_Running_Number (To.Handle'Address, Unsigned_32 (Running)));
   end Number;

   procedure Data (To : in out Unit; Of_Train : Train_Data) is
      Raw : aliased constant Etcs_C.Train_Data_Struct :=
        (Length_Cm              => Unsigned_32 (Of_Train.Length_Cm),
         Maximum_M_Per_H        => Unsigned_32 (Of_Train.Maximum_M_Per_H),
         Deceleration_Cm_Per_S2 => Unsigned_32 (Of_Train.Deceleration_Cm_Per_S2),
         Reaction_Ms            => Unsigned_32 (Of_Train.Reaction_Ms),
         Category               => Unsigned_32 (Of_Train.Category));
   begin
      Check (Etcs_C.Unit_Train_Data (To.Handle'Address, Raw'Address));
   end Data;

end Etcs_Unit;
