--  Reads a journal image: its slots, blocks and records, whether the kernel agrees, and why each brake command was given.
--
--      read_image IMAGE
with Ada.Command_Line;
with Ada.Exceptions;      use Ada.Exceptions;
with Ada.Streams.Stream_IO;
with Ada.Text_IO;         use Ada.Text_IO;
with Etcs_C;
with Etcs_Unit;           use Etcs_Unit;
with Etcs_Unit.Images;    use Etcs_Unit.Images;
with Interfaces;          use Interfaces;

procedure Read_Image is
   use type Etcs_C.Brake;

   type Bytes_Access is access Bytes;

   function Content_Of (Path : String) return Bytes_Access is
      use Ada.Streams.Stream_IO;
      File : Ada.Streams.Stream_IO.File_Type;
   begin
      Open (File, In_File, Path);
      return Found : constant Bytes_Access := new Bytes (1 .. Natural (Size (File))) do
         Bytes'Read (Stream (File), Found.all);
         Close (File);
      end return;
   end Content_Of;

   --  A number without the blank before it.
   function "+" (Number : String) return String is (if Number (Number'First) = ' ' then Number (Number'First + 1 .. Number'Last) else Number);

   function Letters (Of_Bytes : Bytes) return String is
      Digit : constant array (Unsigned_8 range 0 .. 15) of Character := "0123456789abcdef";
   begin
      return Found : String (1 .. 2 * Of_Bytes'Length) do
         for Index in Of_Bytes'Range loop
            Found (2 * Index - 1) := Digit (Of_Bytes (Index) / 16);
            Found (2 * Index) := Digit (Of_Bytes (Index) mod 16);
         end loop;
      end return;
   end Letters;

   --  Prints an error that is about one block or life only; raises any other one again.
   procedure Print_Refusal (Problem : Exception_Occurrence) is
   begin
      if Exception_Message (Problem) not in "IMAGE_DAMAGED" | "NOT_REPLAYED" then
         Reraise_Occurrence (Problem);
      end if;
      Put_Line ("  " & Exception_Message (Problem));
   end Print_Refusal;

   Content : constant Bytes_Access := Content_Of (Ada.Command_Line.Argument (1));
   Our     : aliased Image (Content);

   procedure Print_Slots_And_Blocks is
      Oldest : constant Block_Number := Block_Number'Max (1, Newest (Our) - Block_Number'Min (Newest (Our), Block_Number (Slots (Our)) - 1));
   begin
      Put_Line (+Sectors (Our)'Image & " sectors," & Slots (Our)'Image & " slots, newest block" & Newest (Our)'Image);
      for Index in 1 .. Whole (Our) loop
         declare
            Found : constant Slot := Slot_At (Our, Index - 1);
         begin
            Put_Line ("slot" & Whole_Slots'Image (Index - 1) & ": " & Name (Found.State) & Found.Number'Image & (if Found.Is_Sound then "" else " not sound"));
         end;
      end loop;
      for Number in Oldest .. Newest (Our) loop
         if Holds (Our, Number) then
            declare
               Head : constant Etcs_C.Block_Struct := Block_At (Our, Number);
            begin
               Put_Line ("block" & Number'Image & " format" & Head.Format'Image & " events" & Head.First_Event'Image & ".."
                         & (+Unsigned_64'Image (Head.Events - 1)) & " lives" & Head.Lives'Image);
            end;
         end if;
      end loop;
   end Print_Slots_And_Blocks;

   procedure Print_Reason (Found : Recorded) is
      Because : constant Reason := Why (Our, Found.Block, Found.Event);
   begin
      Put_Line ("why" & Found.Event'Image & ": brake " & Name (Because.Brake) & ", limit" & Because.Limit_M_Per_H'Image & " m/h by "
                & Name (Because.Limit_Cause) & ", trip " & Name (Because.Trip_Cause));
      for Which in Brake_Cause loop
         if Because.Causes (Which).Holds then
            Put_Line ("  " & Name (Which) & " since" & Because.Causes (Which).Since'Image);
         end if;
      end loop;
   exception
      when Problem : Refused => Print_Refusal (Problem);
   end Print_Reason;

   procedure Print (Found : Recorded) is
   begin
      Put_Line ("event" & Found.Event'Image & " block" & Found.Block'Image & " life" & Found.Life'Image & " at" & Found.Moment_Ms'Image & " ms: "
                & Name (Found.Kind) & " " & Letters (Found.Payload) & ": mode " & Name (Found.Mode) & " level " & Name (Found.Level)
                & " brake " & Name (Found.Brake) & " indications" & Found.Indications'Image);
      if Found.Has_Place then
         Put_Line ("  front " & (+Found.Front_Cm'Image) & " cm, uncertainty" & Found.Uncertainty_Cm'Image & " cm, limit" & Found.Limit_M_Per_H'Image & " m/h");
      end if;
      if Found.Brake /= Etcs_C.None then
         Print_Reason (Found);
      end if;
   end Print;

   procedure Print (Found : Replayed) is
   begin
      case Found.Verdict is
         when Etcs_C.Head_Differs =>
            Put_Line ("head of block" & Found.Block'Image & ": " & Name (Found.Verdict) & " in " & Name (Found.Kept_Field));
         when others =>
            Put ("life" & Found.Life'Image & " events" & Found.First_Event'Image & ".." & (+Found.Last_Event'Image) & ": " & Name (Found.Verdict));
            Put_Line (case Found.Verdict is when Etcs_C.Record_Differs => " in " & Name (Found.Record_Field), when others => "");
      end case;
   end Print;

   generic
      type Line is private;
      with procedure Read (From : in out Journal; Found : in out Line; Has_Ended : out Boolean);
      with procedure Print (Found : Line);
   procedure Print_All;
   procedure Print_All is
      Place : Journal (Our'Access);
      Found : Line;
      Ended : Boolean := False;
   begin
      Start (Place);
      while not Ended loop
         begin
            Read (Place, Found, Ended);
            if not Ended then
               Print (Found);
            end if;
         exception
            when Problem : Refused => Print_Refusal (Problem);
         end;
      end loop;
   end Print_All;

   procedure Print_Records is new Print_All (Recorded, Next, Print);
   procedure Print_Replay is new Print_All (Replayed, Replay, Print);
begin
   Open (Our);
   Print_Slots_And_Blocks;
   Print_Records;
   Print_Replay;
exception
   when Problem : Refused =>
      Put_Line ("the unit answered " & Exception_Message (Problem));
      Ada.Command_Line.Set_Exit_Status (1);
end Read_Image;
