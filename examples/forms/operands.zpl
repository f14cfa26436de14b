-- Operators over regions in one another: inner before outer, left before right.
program operands;
region S = [1..3, 1..4];
var A, B : [S] integer;
    s : integer;
procedure operands();
[S] begin
  A := Index1;
  B := +<<A * (max<<(A - min<<A)) + +||[1] (A + >>[1..1, ] A);
end;
-- Command: list
-- Prints:
--   zplnode 1
--   grid 1
--   scalars 4
--   slots 2 2
--   cells 0
--   array 1..3:0,0 1..4:0,0
--   array 1..3:0,0 1..4:0,0
--   array - -
--   array - -
--   array - -
--   array - -
--   expr i1
--   expr n1
--   expr n1
--   expr n0
--   expr a0
--   expr n9223372036854775807
--   expr a0
--   expr n-9223372036854775808
--   expr a0 s2 -
--   expr a0
--   expr a0 a3 +
--   expr s1 s3 * a5 +
--   group
--   put 0 0 - 8
--   group
--   acc 1 sum 4 - 9
--   group
--   acc 2 min 6 - 9
--   group
--   acc 3 max 8 - 9
--   group
--   put 2 9 - 9
--   group
--   put 4 10 - 9
--   group
--   put 1 11 - 9
--   code
--   fix 0 1..3:1:1 1..4:1:1
--   loop 0 0
--   dims 1 1..2 ^0 9
--   same 0 1 flood 9
--   need 1 0 0,0 9
--   set 1 3 9
--   loop 0 1
--   fold 1 sum
--   set 2 5 9
--   loop 0 2
--   fold 2 min
--   set 3 7 9
--   loop 0 3
--   fold 3 max
--   room 2 1
--   loop 1 4
--   room 3 0
--   flood 3 0 2 1
--   room 4 0
--   loop 0 5
--   room 5 0
--   scan 5 0 sum 1 4 -
--   loop 0 6
--   end
