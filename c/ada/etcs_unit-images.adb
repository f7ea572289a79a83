with System; use System;

package body Etcs_Unit.Images is

   use type Etcs_C.Unit_Status;

   procedure Open (To : in out Image) is
   begin
      Check (Etcs_C.Image_Facts (To.Content.all'Address, To.Content'Length, Etcs_C.Unit_Abi, To.Facts'Address));
   end Open;

   function Sectors (Of_Image : Image) return Unsigned_64 is (Of_Image.Facts.Sectors);
   function Slots (Of_Image : Image) return Slot_Count is (Slot_Count (Of_Image.Facts.Slots));
   function Whole (Of_Image : Image) return Whole_Slots is (Whole_Slots (Of_Image.Facts.Whole));
   function Newest (Of_Image : Image) return Block_Number is (Block_Number (Of_Image.Facts.Newest));

   function Slot_At (Of_Image : Image; Index : Slot_Index) return Slot is
      Raw : aliased Etcs_C.Slot_Struct;
   begin
      Check (Etcs_C.Image_Slot
        (Of_Image.Content.all'Address, Of_Image.Content'Length, Etcs_C.Unit_Abi, Of_Image.Facts.Newest, Unsigned_64 (Index), Raw'Address));
      return (Slot_State'Enum_Val (Integer (Raw.State)), Block_Number (Raw.Number), Raw.Is_Sound /= 0);
   end Slot_At;

   function Head (Of_Image : Image; Number : Block_Number; Found : Address) return Unsigned_32 is
     (Etcs_C.Image_Block (Of_Image.Content.all'Address, Of_Image.Content'Length, Etcs_C.Unit_Abi, Unsigned_64 (Number), Found));

   function Holds (Of_Image : Image; Number : Block_Number) return Boolean is
      Found : aliased Etcs_C.Block_Struct;
   begin
      return Status (Head (Of_Image, Number, Found'Address)) = Etcs_C.Ok;
   end Holds;

   function Block_At (Of_Image : Image; Number : Real_Block) return Etcs_C.Block_Struct is
      Found : aliased Etcs_C.Block_Struct;
   begin
      Check (Head (Of_Image, Number, Found'Address));
      return Found;
   end Block_At;

   function Recorded_Of (Raw : Etcs_C.Record_It_Struct) return Recorded is
   begin
      return Found : Recorded (Payload_Length (Raw.Payload_Len)) do
         Found.Event          := Raw.Event;
         Found.Block          := Block_Number (Raw.Block);
         Found.Moment_Ms      := Raw.Moment_Ms;
         Found.Front_Cm       := Raw.Front_Cm;
         Found.Uncertainty_Cm := Raw.Uncertainty_Cm;
         Found.Limit_M_Per_H  := Raw.Limit_M_Per_H;
         Found.Life           := Raw.Life;
         Found.Kind           := Kind'Enum_Val (Integer (Raw.Kind));
         Found.Mode           := Mode'Enum_Val (Integer (Raw.Mode));
         Found.Level          := Level'Enum_Val (Integer (Raw.Level));
         Found.Brake          := Brake'Enum_Val (Integer (Raw.Brake));
         Found.Indications    := Raw.Indications;
         Found.Has_Place      := Raw.Has_Place /= 0;
         for Index in Found.Payload'Range loop
            Found.Payload (Index) := Raw.Payload (Index - 1);
         end loop;
      end return;
   end Recorded_Of;

   function Record_At (Of_Image : Image; Number : Real_Block; Index : Record_Index) return Recorded is
      Raw : aliased Etcs_C.Record_It_Struct;
   begin
      Check (Etcs_C.Image_Record
        (Of_Image.Content.all'Address, Of_Image.Content'Length, Etcs_C.Unit_Abi, Unsigned_64 (Number), Unsigned_32 (Index), Raw'Address));
      return Recorded_Of (Raw);
   end Record_At;

   procedure Start (To : in out Journal) is
      Content : Bytes renames To.Of_Image.Content.all;
   begin
      Check (Etcs_C.Journal_Open (Content'Address, Content'Length, Etcs_C.Unit_Abi, To.At_Place'Address));
      To.Started := True;
   end Start;

   procedure Next (From : in out Journal; Found : in out Recorded; Has_Ended : out Boolean) is
      Content : Bytes renames From.Of_Image.Content.all;
      Raw     : aliased Etcs_C.Record_It_Struct;
      Answer  : constant Unsigned_32 := Etcs_C.Journal_Next (Content'Address, Content'Length, From.At_Place'Address, Raw'Address);
   begin
      Has_Ended := Status (Answer) = Etcs_C.End_It;
      if not Has_Ended then
         Check (Answer);
         Found := Recorded_Of (Raw);
      end if;
   end Next;

   function Replayed_Of (Raw : Etcs_C.Replay_Struct) return Replayed is
      Field : constant Integer := Integer (Raw.Field);
   begin
      return Found : Replayed (Verdict'Enum_Val (Integer (Raw.Verdict))) do
         if Found.Verdict = Etcs_C.Head_Differs then
            Found.Block      := Block_Number (Raw.Block);
            Found.Kept_Field := Kept_Field'Enum_Val (Field);
         else
            Found.Life        := Raw.Life;
            Found.First_Event := Raw.First_Event;
            Found.Last_Event  := Raw.Last_Event;
         end if;
         if Found.Verdict = Etcs_C.Record_Differs then
            Found.Record_Field := Record_Field'Enum_Val (Field);
         end if;
      end return;
   end Replayed_Of;

   procedure Replay (From : in out Journal; Found : in out Replayed; Has_Ended : out Boolean) is
      Content : Bytes renames From.Of_Image.Content.all;
      Raw     : aliased Etcs_C.Replay_Struct;
      Answer  : constant Unsigned_32 :=
        Etcs_C.Image_Replay (Content'Address, Content'Length, Etcs_C.Unit_Abi, From.At_Place'Address, Raw'Address);
   begin
      Has_Ended := Status (Answer) = Etcs_C.End_It;
      if not Has_Ended then
         Check (Answer);
         Found := Replayed_Of (Raw);
      end if;
   end Replay;

   function Why (Of_Image : Image; Number : Real_Block; Event : Unsigned_64) return Reason is
      Content : Bytes renames Of_Image.Content.all;
      Raw     : aliased Etcs_C.Why_Struct;
   begin
      Check (Etcs_C.Image_Why (Content'Address, Content'Length, Etcs_C.Unit_Abi, Unsigned_64 (Number), Event, Raw'Address));
      return Found : Reason do
         for Which in Brake_Cause loop
            Found.Causes (Which) := (Raw.Holds (Which'Enum_Rep) /= 0, Raw.Since (Which'Enum_Rep));
         end loop;
         Found.Brake         := Brake'Enum_Val (Integer (Raw.Brake));
         Found.Limit_Cause   := Limit_Cause'Enum_Val (Integer (Raw.Limit_Cause));
         Found.Trip_Cause    := Trip_Cause'Enum_Val (Integer (Raw.Trip_Cause));
         Found.Limit_M_Per_H := Raw.Limit_M_Per_H;
         Found.Speed_M_Per_H := Raw.Speed_M_Per_H;
      end return;
   end Why;

   function Name (Of_State : Slot_State) return String is (Text (Etcs_C.Slot_State_Name (Of_State'Enum_Rep)));
   function Name (Of_Kind : Kind) return String is (Text (Etcs_C.Kind_Name (Of_Kind'Enum_Rep)));
   function Name (Of_Level : Level) return String is (Text (Etcs_C.Level_Name (Of_Level'Enum_Rep)));
   function Name (Of_Verdict : Verdict) return String is (Text (Etcs_C.Verdict_Name (Of_Verdict'Enum_Rep)));
   function Name (Of_Field : Record_Field) return String is (Text (Etcs_C.Record_Field_Name (Of_Field'Enum_Rep)));
   function Name (Of_Field : Kept_Field) return String is (Text (Etcs_C.Kept_Field_Name (Of_Field'Enum_Rep)));
   function Name (Of_Cause : Brake_Cause) return String is (Text (Etcs_C.Brake_Cause_Name (Of_Cause'Enum_Rep)));
   function Name (Of_Cause : Limit_Cause) return String is (Text (Etcs_C.Limit_Cause_Name (Of_Cause'Enum_Rep)));
   function Name (Of_Cause : Trip_Cause) return String is (Text (Etcs_C.Trip_Cause_Name (Of_Cause'Enum_Rep)));

end Etcs_Unit.Images;
