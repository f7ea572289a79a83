--  A medium: here sectors in memory, which need no sync.
with Etcs_Unit; use Etcs_Unit;

package Memory is

   type Sector_Array is array (Sector_Number range <>) of Sector;

   type Ram (Last : Sector_Number) is limited new Medium with record
      Content : Sector_Array (0 .. Last) := (others => (others => 0));
   end record;

   overriding function Sectors (On : Ram) return Sector_Number is (On.Last + 1);
   overriding procedure Read (On : in out Ram; From : Sector_Number; Into : out Sector);
   overriding procedure Write (On : in out Ram; To : Sector_Number; Content : Bytes);
   overriding procedure Sync (On : in out Ram) is null;

end Memory;
