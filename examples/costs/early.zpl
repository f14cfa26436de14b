-- Work stands between where an edge is ready and where it is wanted: with `e` it is on its way meanwhile.
-- Prints:
program early;
config var n : integer = 16;
region R = [1..n];
direction right = [1];
var A, B, C : [R] integer;
procedure early();
[R] begin
  [right of R] A := 0;
  A := Index1;
  B := Index1 * Index1;
  C := A@right;
end;
