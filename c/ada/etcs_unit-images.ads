--  A journal image: the bytes of a unit's medium (c/include/etcs_image.h). It may be cut off, or damaged at any place.
--
--  Where the library answers something else than OK, Refused is raised with the name of that status.
package Etcs_Unit.Images is

   subtype Slot_State is Etcs_C.Slot_State;
   subtype Kind is Etcs_C.Kind;
   subtype Verdict is Etcs_C.Verdict;
   subtype Record_Field is Etcs_C.Record_Field;
   subtype Kept_Field is Etcs_C.Kept_Field;
   subtype Brake_Cause is Etcs_C.Brake_Cause;
   subtype Limit_Cause is Etcs_C.Limit_Cause;
   subtype Trip_Cause is Etcs_C.Trip_Cause;
   use type Etcs_C.Verdict;

   type Whole_Slots is range 0 .. 1_048_576;
   subtype Slot_Index is Whole_Slots range 0 .. 1_048_575;
   type Block_Number is range 0 .. 2 ** 40;
   subtype Real_Block is Block_Number range 1 .. Block_Number'Last;
   type Record_Index is range 0 .. 15;

   type Image (Content : not null access constant Bytes) is limited private;
   --  Nobody writes to its content while it is in use.

   function Is_Open (Of_Image : Image) return Boolean;

   procedure Open (To : in out Image) with Post => Is_Open (To);
   --  Reads the first sector, each gate, and the head after each open one.

   function Sectors (Of_Image : Image) return Unsigned_64 with Pre => Is_Open (Of_Image);
   --  How many whole sectors it has.

   function Slots (Of_Image : Image) return Slot_Count with Pre => Is_Open (Of_Image);
   --  The number of slots in its first sector.

   function Whole (Of_Image : Image) return Whole_Slots with
     Pre  => Is_Open (Of_Image),
     Post => Whole'Result <= Whole_Slots (Slots (Of_Image));
   --  How many slots are there with all their sectors.

   function Newest (Of_Image : Image) return Block_Number with Pre => Is_Open (Of_Image);
   --  The number of the newest block; 0 where no slot holds one.

   type Slot is record
      State    : Slot_State;
      Number   : Block_Number;
      Is_Sound : Boolean;
   end record;
   --  What a slot holds, with the number that belongs to its state. It is sound where it is as a unit leaves it.

   function Slot_At (Of_Image : Image; Index : Slot_Index) return Slot with
     Pre => Is_Open (Of_Image) and then Index < Whole (Of_Image);

   function Holds (Of_Image : Image; Number : Block_Number) return Boolean with Pre => Is_Open (Of_Image);
   --  Whether the block's slot holds it with an open gate.

   function Block_At (Of_Image : Image; Number : Real_Block) return Etcs_C.Block_Struct with
     Pre => Is_Open (Of_Image) and then Holds (Of_Image, Number);
   --  Its head.

   subtype Payload_Length is Natural range 0 .. Etcs_C.Payload_Bytes;
   type Recorded (Length : Payload_Length := 0) is record
      Event          : Unsigned_64;
      Block          : Real_Block;
      Moment_Ms      : Unsigned_64;
      Front_Cm       : Integer_64;
      Uncertainty_Cm : Unsigned_64;
      Limit_M_Per_H  : Unsigned_32;
      Life           : Unsigned_32;
      Kind           : Etcs_C.Kind;
      Mode           : Etcs_C.Mode;
      Level          : Etcs_C.Level;
      Brake          : Etcs_C.Brake;
      Indications    : Unsigned_8;
      Has_Place      : Boolean;
      Payload        : Bytes (1 .. Length);
   end record;
   --  A record of the journal. It has front, uncertainty and limit where Has_Place.

   function Record_At (Of_Image : Image; Number : Real_Block; Index : Record_Index) return Recorded with
     Pre => Is_Open (Of_Image) and then Holds (Of_Image, Number);

   type Replayed (Verdict : Etcs_C.Verdict := Etcs_C.Agrees) is record
      case Verdict is
         when Etcs_C.Head_Differs =>
            Block      : Real_Block;
            Kept_Field : Etcs_C.Kept_Field;
         when others =>
            Life                    : Unsigned_32;
            First_Event, Last_Event : Unsigned_64;
            case Verdict is
               when Etcs_C.Record_Differs => Record_Field : Etcs_C.Record_Field;
               when others => null;
            end case;
      end case;
   end record;
   --  A line of a replay, and what differs first.

   type Journal (Of_Image : not null access constant Image) is limited private;
   --  How far an image was read.

   function Has_Started (At_Place : Journal) return Boolean;

   procedure Start (To : in out Journal) with
     Pre  => Is_Open (To.Of_Image.all),
     Post => Has_Started (To);
   --  Goes to the oldest record.

   procedure Next (From : in out Journal; Found : in out Recorded; Has_Ended : out Boolean) with
     Pre => Has_Started (From) and then not Found'Constrained;
   --  Reads the next record. After the exception IMAGE_DAMAGED the next call goes on after the damaged block.

   procedure Replay (From : in out Journal; Found : in out Replayed; Has_Ended : out Boolean) with
     Pre => Has_Started (From) and then not Found'Constrained;
   --  Replays the life of the next record through the kernel, up to the next line. It allocates memory. After the exception IMAGE_DAMAGED
   --  the next call goes on after the damaged block; after NO_MEMORY it tries again.

   type Cause is record
      Holds : Boolean;
      Since : Unsigned_64;
   end record;
   type Causes is array (Etcs_C.Brake_Cause) of Cause;
   type Reason is record
      Causes        : Images.Causes;
      Brake         : Etcs_C.Brake;
      Limit_Cause   : Etcs_C.Limit_Cause;
      Trip_Cause    : Etcs_C.Trip_Cause;
      Limit_M_Per_H : Unsigned_32;
      Speed_M_Per_H : Unsigned_32;
   end record;
   --  Why an event was answered as it was. Each cause that holds has the first event of the unbroken run after which it has held.

   function Why (Of_Image : Image; Number : Real_Block; Event : Unsigned_64) return Reason with
     Pre => Is_Open (Of_Image) and then Holds (Of_Image, Number);
   --  Explains an event of a block. It allocates memory.

   function Name (Of_State : Slot_State) return String;
   function Name (Of_Kind : Kind) return String;
   function Name (Of_Level : Level) return String;
   function Name (Of_Verdict : Verdict) return String;
   function Name (Of_Field : Record_Field) return String;
   function Name (Of_Field : Kept_Field) return String;
   function Name (Of_Cause : Brake_Cause) return String;
   function Name (Of_Cause : Limit_Cause) return String;
   function Name (Of_Cause : Trip_Cause) return String;

private

   type Image (Content : not null access constant Bytes) is limited record
      Facts   : aliased Etcs_C.Image_Struct := (0, 0, 0, 0);
   end record;

   type Journal (Of_Image : not null access constant Image) is limited record
      At_Place : aliased Etcs_C.Journal_Struct := (0, 0, 0);
      Started  : Boolean := False;
   end record;

   function Is_Open (Of_Image : Image) return Boolean is (Of_Image.Facts.Slots > 0);
   function Has_Started (At_Place : Journal) return Boolean is (At_Place.Started);

end Etcs_Unit.Images;
