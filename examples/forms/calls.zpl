-- Calls: values, copies of arrays, references, a result, and local variables, which begin as zeros.
program calls;
region R = [1..4];
var A, B : [R] integer;
    x, y : integer;
procedure total(X : [R] integer; factor : integer) : integer;
var s : integer;
    Y : [R] integer;
begin
  Y := X * factor;
  s := +<<Y;
  return s;
end;
procedure change(var Z : [R] integer; var z : integer);
begin
  Z += z;
  z := 0;
end;
procedure calls();
[R] begin
  A := Index1;
  x := total(A, 2);
  change(B, x);
  [1..2] y := total(B, x + 1);
end;
-- Command: list
-- Prints:
--   zplnode 1
--   grid 1
--   scalars 8
--   slots 1 1 1 1
--   cells 0
--   array 1..4:0,0
--   array 1..4:0,0
--   array 1..4:0,0
--   array 1..4:0,0
--   array 1..4:0,0
--   array 1..4:0,0
--   expr i1
--   expr n2
--   expr a0
--   expr n0
--   expr a2 s2 *
--   expr n0
--   expr a3
--   expr s4
--   expr s3
--   expr a1 s0 +
--   expr n0
--   expr s0 n1 +
--   expr a1
--   expr n0
--   expr a4 s5 *
--   expr n0
--   expr a5
--   expr s7
--   expr s6
--   group
--   put 0 0 - 21
--   group
--   put 2 2 - 22
--   group
--   put 3 4 - 10
--   group
--   acc 4 sum 6 - 11
--   group
--   put 1 9 - 16
--   group
--   put 4 12 - 24
--   group
--   put 5 14 - 10
--   group
--   acc 7 sum 16 - 11
--   code
--   fix 0 1..4:1:1
--   loop 0 0
--   set 2 1 22
--   fix 1 1..4:1:1
--   loop 1 1
--   set 3 3 22
--   clear 3
--   loop 0 2
--   set 4 5 11
--   loop 0 3
--   fold 4 sum
--   set 3 7 11
--   set 0 8 12
--   loop 0 4
--   set 0 10 17
--   fix 2 1..2:1:1
--   set 5 11 24
--   fix 3 1..4:1:1
--   loop 3 5
--   set 6 13 24
--   clear 5
--   loop 2 6
--   set 7 15 11
--   loop 2 7
--   fold 7 sum
--   set 6 17 11
--   set 1 18 12
--   end
