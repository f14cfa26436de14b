-- `f` makes one loop of two, and then no other statement names `Square`: with `c` it is a cell, and no array.
-- Prints:
--   17 20 25 32
program contract;
config var n : integer = 4;
region R = [1..n];
var A, Square : [R] integer;
procedure contract();
[R] begin
  Square := Index1 * Index1;
  A := Square + 16;
  writeln(A);
end;
