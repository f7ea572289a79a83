package body Memory is

   overriding procedure Read (On : in out Ram; From : Sector_Number; Into : out Sector) is
   begin
      Into := On.Content (From);
   end Read;

   overriding procedure Write (On : in out Ram; To : Sector_Number; Content : Bytes) is
      First : Positive := Content'First;
      Next  : Sector_Number := To;
   begin
      while First <= Content'Last loop
         On.Content (Next) := Content (First .. First + Sector'Length - 1);
         First := First + Sector'Length;
         Next := Next + 1;
      end loop;
   end Write;

end Memory;
