-- A flood: the processors that own the row send it to all that want it.
-- Prints:
program flood;
config var n : integer = 4;
region R = [1..n, 1..n];
var A, B : [R] integer;
procedure flood();
[R] begin
  A := Index1 + Index2;
  B := >>[1, ] A;
end;
