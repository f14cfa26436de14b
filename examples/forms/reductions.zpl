-- Reductions: of all to a scalar, of each line, and two in one statement.
program reductions;
region S = [1..3, 1..4];
       Sums = [1..3, 1];
var A, B : [S] integer;
    s : integer;
procedure reductions();
begin
  [S] A := Index1 * Index2;
  [S] s := +<<A - min<<A;
  [Sums] B := max<<[S] A;
end;
-- Command: list
-- Prints:
--   zplnode 1
--   grid 1
--   scalars 3
--   slots 2 2
--   cells 0
--   array 1..3:0,0 1..4:0,0
--   array 1..3:0,0 1..4:0,0
--   array - -
--   array - -
--   expr i1 i2 *
--   expr n0
--   expr a0
--   expr n9223372036854775807
--   expr a0
--   expr s1 s2 -
--   expr a0
--   expr a3
--   group
--   put 0 0 - 9
--   group
--   acc 1 sum 2 - 10
--   group
--   acc 2 min 4 - 10
--   group
--   put 2 6 - 11
--   group
--   put 1 7 - 11
--   code
--   fix 0 1..3:1:1 1..4:1:1
--   fix 1 1..3:1:1 1..1:1:1
--   loop 0 0
--   set 1 1 10
--   loop 0 1
--   fold 1 sum
--   set 2 3 10
--   loop 0 2
--   fold 2 min
--   set 0 5 10
--   same 1 0 part 11
--   room 2 0
--   loop 0 3
--   room 3 1
--   part 3 1 max 2 0
--   loop 1 4
--   end
