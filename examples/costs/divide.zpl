-- A division: all processors learn together whether one of them met a zero divisor.
-- Prints:
program divide;
config var n : integer = 16;
region R = [1..n];
var A, B : [R] integer;
procedure divide();
[R] begin
  A := Index1;
  B := 100 / A;
end;
