-- A print of an array: all processors send what they own to processor 0.
-- Prints:
--   1 2 3 4 5 6 7 8 9 10 11 12 13 14 15 16
program print;
config var n : integer = 16;
region R = [1..n];
var A : [R] integer;
procedure print();
[R] begin
  A := Index1;
  writeln(A);
end;
