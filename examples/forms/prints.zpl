-- Prints: all values are computed before the first is written.
program prints;
region R = [1..4];
var A : [R] integer;
    P : [R] boolean;
    x : integer;
procedure prints();
[R] begin
  A := Index1;
  P := A > 2;
  writeln("x ", x + 1, true, A);
  write(P, +<<A);
end;
-- Command: list
-- Prints:
--   zplnode 1
--   grid 1
--   scalars 5
--   slots 1
--   cells 0
--   array 1..4:0,0
--   array 1..4:0,0
--   array -
--   array -
--   text 7820
--   text 0a
--   expr i1
--   expr a0 n2 >
--   expr s0 n1 +
--   expr n1
--   expr a0
--   expr s1
--   expr s2
--   expr n0
--   expr a0
--   expr a1
--   expr s3
--   expr s4
--   group
--   put 0 0 - 9
--   group
--   put 1 1 - 10
--   group
--   put 2 4 - 11
--   group
--   acc 3 sum 8 - 12
--   group
--   put 3 9 - 12
--   code
--   fix 0 1..4:1:1
--   loop 0 0
--   loop 0 1
--   set 1 2 11
--   set 2 3 11
--   room 2 0
--   loop 0 2
--   print 0
--   number 5
--   truth 6
--   gather number 2 0
--   print 1
--   set 3 7 12
--   loop 0 3
--   fold 3 sum
--   room 3 0
--   loop 0 4
--   set 4 10 12
--   gather truth 3 0
--   number 11
--   end
