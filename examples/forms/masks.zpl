-- Masks: of an assignment, and of a reduction.
program masks;
region R = [1..6];
var A : [R] integer;
    P : [R] boolean;
    s : integer;
procedure masks();
[R] begin
  P := Index1 % 2 = 0;
  [R with P] A := 7;
  [R without P] A += Index1;
  [R with P] s := max<<A;
end;
-- Command: list
-- Prints:
--   zplnode 1
--   grid 1
--   scalars 2
--   slots 1
--   cells 0
--   array 1..6:0,0
--   array 1..6:0,0
--   expr i1 n2 % n0 =
--   expr n7
--   expr a1
--   expr a0 i1 +
--   expr a1 not
--   expr n-9223372036854775808
--   expr a0
--   expr a1
--   expr s1
--   group
--   put 1 0 - 9
--   group
--   put 0 1 2 10
--   group
--   put 0 3 4 11
--   group
--   acc 1 max 6 7 12
--   code
--   fix 0 1..6:1:1
--   loop 0 0
--   vote 0
--   loop 0 1
--   loop 0 2
--   set 1 5 12
--   loop 0 3
--   fold 1 max
--   set 0 8 12
--   end
