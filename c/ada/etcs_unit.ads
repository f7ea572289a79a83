--  The onboard unit of ETCS level 1, over a medium of your own.
--
--  Any exception means the emergency brake until the unit was closed and opened again. Only Open and Flush return outputs, and only after
--  all of them are on the medium. Obey the Command of them until the next one. What else the program has to guarantee is in
--  c/include/etcs_unit.h and docs/explain/integration.md.
--
--  Ranges and preconditions are the limits of the inputs. Compile with -gnata to have the preconditions checked; without it the library
--  refuses what is beyond them.
with Etcs_C;
with Interfaces; use Interfaces;

private with Ada.Finalization;
private with System;

package Etcs_Unit is

   Refused : exception;
   --  The library answered something else than OK; the message is the name of that status.

   Has_Journal : exception;
   --  The medium has a journal, and a format left it as it is.

   subtype Mode is Etcs_C.Mode;
   subtype Level is Etcs_C.Level;
   subtype Brake is Etcs_C.Brake;
   subtype Action is Etcs_C.Action;
   subtype Cold is Etcs_C.Cold;
   subtype Proof is Etcs_C.Proof;
   use type Etcs_C.Brake;

   type Bytes is array (Positive range <>) of Unsigned_8 with Convention => C;
   subtype Sector is Bytes (1 .. Etcs_C.Unit_Sector);
   type Sector_Number is range 0 .. 2 ** 40;
   type Slot_Count is range 2 .. 1_048_576;

   type Movement_Cm is range -10_000 .. 10_000;
   type Speed_M_Per_H is range 0 .. 600_000;
   type Moment_Ms is range 0 .. 2 ** 40 - 1;
   type Running_Number is range 0 .. 99_999_999;

   type Train_Data is record
      Length_Cm              : Positive range 1 .. 409_500;
      Maximum_M_Per_H        : Speed_M_Per_H range 1 .. 600_000;
      Deceleration_Cm_Per_S2 : Positive range 1 .. 300;
      Reaction_Ms            : Natural range 0 .. 10_000;
      --  (0, brakes that act at once, is the least safe)
      Category               : Natural range 0 .. 15;
      --  (0 is a category; a train of none has Etcs_C.Category_None)
   end record;

   type Output is record
      Event         : Unsigned_64;
      Limit_M_Per_H : Unsigned_32;
      Mode          : Etcs_C.Mode;
      Level         : Etcs_C.Level;
      Brake         : Etcs_C.Brake;
      Indications   : Unsigned_8;
   end record;
   type Outputs is array (Positive range <>) of Output;

   function Command (Released : Outputs) return Output with
     Pre  => Released'Length > 0,
     Post => (for all One of Released => Command'Result.Brake >= One.Brake);
   --  What is obeyed until the next release: the newest output, with the most restrictive brake of all.

   type Medium is limited interface;
   --  Sectors. Each call returns only when it is done, and raises an exception where it fails.
   function Sectors (On : Medium) return Sector_Number is abstract;
   procedure Read (On : in out Medium; From : Sector_Number; Into : out Sector) is abstract;
   procedure Write (On : in out Medium; To : Sector_Number; Content : Bytes) is abstract;
   procedure Sync (On : in out Medium) is abstract;

   procedure Format (On : in out Medium'Class; Slots : Slot_Count) with
     Pre => Sectors (On) = 1 + 6 * Sector_Number (Slots);
   --  Makes an empty journal. Where the first sector is that of a journal it raises Has_Journal, and nothing was changed: so it may be
   --  called before each power-up.

   procedure Wipe (On : in out Medium'Class; Slots : Slot_Count) with
     Pre => Sectors (On) = 1 + 6 * Sector_Number (Slots);
   --  The same, whatever the medium holds: all events of a journal there are lost. Never call it at a power-up.

   type Unit (On : not null access Medium'Class) is limited private;
   --  It holds 16 sectors of its medium, and is closed where its scope ends.

   function Is_Open (Of_Unit : Unit) return Boolean;

   function Open (To : in out Unit; Moved : Cold) return Outputs with
     Pre  => not Is_Open (To),
     Post => Is_Open (To);
   --  Powers up. In doubt whether the train was moved without power: Unknown.

   procedure Close (To : in out Unit) with Post => not Is_Open (To);

   procedure Telegram (To : in out Unit; Content : Bytes) with
     Pre => Is_Open (To) and then Content'Length in 1 .. Etcs_C.Telegram_Bytes;

   procedure Odometer (To : in out Unit; Movement : Movement_Cm; Speed : Speed_M_Per_H) with
     Pre => Is_Open (To);

   procedure Clock (To : in out Unit; Moment : Moment_Ms) with
     Pre => Is_Open (To);

   procedure Act (To : in out Unit; By_Driver : Action) with
     Pre => Is_Open (To);

   procedure Identity (To : in out Unit; Text : String) with
     Pre => Is_Open (To) and then Text'Length in 1 .. 16 and then (for all Letter of Text => Letter in ' ' .. '~');

   procedure Number (To : in out Unit; Running : Running_Number) with
     Pre => Is_Open (To);

   procedure Data (To : in out Unit; Of_Train : Train_Data) with
     Pre => Is_Open (To);

   function Flush (To : in out Unit) return Outputs with
     Pre => Is_Open (To);
   --  Writes the pending events to the medium, and returns what may reach the train.

   function Name (Of_Mode : Mode) return String;
   function Name (Of_Brake : Brake) return String;

   function Build_Info return String;
   --  Version, commit and digest of the sources of the library, and whether it is proved.

   function Build_Proof return Proof;

private

   function Status (Answer : Unsigned_32) return Etcs_C.Unit_Status;
   procedure Check (Answer : Unsigned_32);
   --  Raises Refused unless it is OK.
   function Text (At_Address : System.Address) return String;
   --  The text of C at an address: it ends with a zero.

   type Unit (On : not null access Medium'Class) is new Ada.Finalization.Limited_Controlled with record
      Handle : aliased Etcs_C.Unit_Struct := (System.Null_Address, 0);
   end record;
   overriding procedure Finalize (To : in out Unit);

   function Is_Open (Of_Unit : Unit) return Boolean is (Of_Unit.Handle.Is_Open /= 0);

end Etcs_Unit;
