-- All 64 processors in one factor of the grid, an element for each.
--
-- Words: grid=64
-- Prints:
--   2080 4032
--   61 62 63 64 1
program processors;
region R = [1..64];
direction east = [1];
var A : [R] integer;
    s, m : integer;
procedure processors();
begin
  [R] A := Index1;
  [R] s := +<<A;
  [R] A := A@^east;
  [R] m := max<<(A * Index1);
  writeln(s, " ", m);
  [60..64] writeln(A);
end;
