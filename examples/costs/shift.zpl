-- A read with a shift: each processor sends its edge to one neighbour.
-- Prints:
program shift;
config var n : integer = 16;
region R = [1..n];
direction right = [1];
var A, B : [R] integer;
procedure shift();
begin
  [R] A := Index1;
  [1..n - 1] B := A@right;
end;
