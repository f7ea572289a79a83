--  What the package for images in Ada refuses: by its ranges, by its preconditions, and by the library's answer. It prints how many were tried.
with Ada.Assertions;   use Ada.Assertions;
with Ada.Command_Line;
with Ada.Text_IO;      use Ada.Text_IO;
with Etcs_C;
with Etcs_Unit;        use Etcs_Unit;
with Etcs_Unit.Images; use Etcs_Unit.Images;
with Interfaces;       use Interfaces;
with Memory;

procedure Image_Limits is
   use type Etcs_C.Slot_State;

   Slots_Of_Ring : constant := 4;
   Ram     : aliased Memory.Ram (6 * Slots_Of_Ring);
   Content : aliased Bytes := (1 .. 512 * (1 + 6 * Slots_Of_Ring) => 0);
   Our     : aliased Image (Content'Access);
   Place   : Journal (Our'Access);
   Found   : Recorded;
   Line    : Replayed;
   Ended   : Boolean;
   Tried, Wrong : Natural := 0;

   procedure Is_Right (What : String; Holds : Boolean) is
   begin
      Tried := Tried + 1;
      if not Holds then
         Wrong := Wrong + 1;
         Put_Line (What & " is wrong");
      end if;
   end Is_Right;

   generic
      with procedure Call;
   procedure Fails (What : String; Is_Answer : Boolean := False);
   procedure Fails (What : String; Is_Answer : Boolean := False) is
   begin
      Call;
      Is_Right (What & ", which passes,", False);
   exception
      when Assertion_Error => Is_Right (What & ", by a precondition,", not Is_Answer);
      when Refused => Is_Right (What & ", by an answer,", Is_Answer);
   end Fails;

   --  The bytes of the medium: a power-up, and two moments after it.
   procedure Live is
      Train : Unit (Ram'Access);
   begin
      Format (Ram, Slots_Of_Ring);
      Is_Right ("a power-up", Open (Train, Etcs_C.Unknown)'Length = 0);
      Clock (Train, 5);
      Clock (Train, 6);
      Is_Right ("a flush", Flush (Train)'Length = 2);
      for Number in Ram.Content'Range loop
         Content (512 * Natural (Number) + 1 .. 512 * Natural (Number) + 512) := Ram.Content (Number);
      end loop;
   end Live;

   procedure Open_It is begin Open (Our); end Open_It;
   procedure No_Sectors is begin Put_Line (Sectors (Our)'Image); end No_Sectors;
   procedure Not_Started is begin Next (Place, Found, Ended); end Not_Started;
   procedure No_Replay is begin Replay (Place, Line, Ended); end No_Replay;
   procedure Start_It is begin Start (Place); end Start_It;
   procedure Slot_4 is begin Put_Line (Slot_At (Our, 4).Number'Image); end Slot_4;
   procedure Block_3 is begin Put_Line (Block_At (Our, 3).Events'Image); end Block_3;
   procedure Record_Of_Block_3 is begin Put_Line (Record_At (Our, 3, 0).Event'Image); end Record_Of_Block_3;
   procedure Why_Of_Block_3 is begin Put_Line (Why (Our, 3, 0).Brake'Image); end Why_Of_Block_3;

   procedure Is_Unread is new Fails (No_Sectors);
   procedure Is_Unstarted is new Fails (Start_It);
   procedure Is_Unopened is new Fails (Open_It);
   procedure Is_Before_Start is new Fails (Not_Started);
   procedure Is_Not_Replayed is new Fails (No_Replay);
   procedure Has_4_Slots is new Fails (Slot_4);
   procedure Has_2_Blocks is new Fails (Block_3);
   procedure Has_No_Record is new Fails (Record_Of_Block_3);
   procedure Has_No_Reason is new Fails (Why_Of_Block_3);

   Events : Unsigned_64 := 0;
begin
   Is_Unread ("an image that isn't open");
   Is_Unstarted ("a journal of an image that isn't open");
   Is_Unopened ("zeros", Is_Answer => True);
   Is_Right ("zeros are no image", not Is_Open (Our));
   Live;
   Open (Our);
   Is_Right ("its figures", Is_Open (Our) and then Sectors (Our) = 25 and then Slots (Our) = 4 and then Whole (Our) = 4 and then Newest (Our) = 2);
   Is_Right ("its slots", Slot_At (Our, 2) = (Etcs_C.Block, 2, True) and then Slot_At (Our, 3) = (Etcs_C.Empty, 0, True));
   Is_Right ("its blocks", Holds (Our, 1) and then Holds (Our, 2) and then not Holds (Our, 3) and then Block_At (Our, 2).First_Event = 1);
   Has_4_Slots ("a fifth slot");
   Has_2_Blocks ("a third block");
   Has_No_Record ("a record of it");
   Has_No_Reason ("a reason of it");
   Is_Before_Start ("a record before the start");
   Is_Not_Replayed ("a line before the start");
   Start (Place);
   loop
      Next (Place, Found, Ended);
      exit when Ended;
      Is_Right ("a record", Found.Event = Events and then Found.Life = 1);
      Events := Events + 1;
   end loop;
   Is_Right ("its records", Events = 3 and then Found.Moment_Ms = 6);
   Start (Place);
   Replay (Place, Line, Ended);
   Is_Right ("its replay", not Ended and then Line.Verdict'Image = "AGREES" and then Line.Last_Event = 2);
   Replay (Place, Line, Ended);
   Is_Right ("its end", Ended);
   Put_Line ("Ada, images:" & Tried'Image & " tried," & Wrong'Image & " of them wrong");
   if Wrong > 0 then
      Ada.Command_Line.Set_Exit_Status (1);
   end if;
end Image_Limits;
