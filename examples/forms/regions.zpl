-- Brackets of constants, and what is computed of regions when the program runs.
program regions;
region Big = [0..9, 0..9];
       In = [1..8, 1..8];
direction north = [-1, 0];
var A : [Big] integer;
    k : integer;
procedure regions();
begin
  k := 3;
  [Big] A := 0;
  [1..k, 2] A := 1;
  [In] begin
    [north of "] A := 2;
    [north in "] A := 3;
    [" at north] A := 4;
    [" by [2, 1]] A := 5;
    [ , k] A := 6;
  end;
end;
-- Command: list
-- Prints:
--   zplnode 1
--   grid 1
--   scalars 1
--   slots 2 2 2 2 2 2 2 2
--   cells 0
--   array 0..9:0,0 0..9:0,0
--   expr n3
--   expr n0
--   expr n1
--   expr s0
--   expr n2
--   expr n2
--   expr n1
--   expr n2
--   expr n3
--   expr n4
--   expr n5
--   expr s0
--   expr s0
--   expr n6
--   group
--   put 0 1 - 11
--   group
--   put 0 6 - 12
--   group
--   put 0 7 - 14
--   group
--   put 0 8 - 15
--   group
--   put 0 9 - 16
--   group
--   put 0 10 - 17
--   group
--   put 0 13 - 18
--   code
--   fix 0 0..9:1:0 0..9:1:0
--   fix 1 1..8:1:1 1..8:1:1
--   set 0 0 10
--   loop 0 0
--   dims 2 2..3 4..5 12
--   need 2 0 0,0 12
--   loop 2 1
--   of 3 1 -1,0 14
--   need 3 0 0,0 14
--   loop 3 2
--   in 4 1 -1,0 15
--   need 4 0 0,0 15
--   loop 4 3
--   at 5 1 -1,0 16
--   need 5 0 0,0 16
--   loop 5 4
--   by 6 1 2,1 17
--   need 6 0 0,0 17
--   loop 6 5
--   dims 7 ^1 11..12 18
--   need 7 0 0,0 18
--   loop 7 6
--   end
