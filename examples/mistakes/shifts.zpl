-- A read past the edge: nothing in the text makes room on the left of the rod, so that there is no element
-- to the left of the first. A statement `[left of Rod] Heat := 800;` makes room for one.
-- Command: mean
-- Traps:
--   0 0 0 0 0
--   trap: reference outside storage, line 14
program shifts;
region Rod = [1..5];
direction left = [-1];
var Heat : [Rod] integer;
procedure shifts();
[Rod] begin
  writeln(Heat);
  Heat := Heat@left;
  writeln(Heat);
end;
