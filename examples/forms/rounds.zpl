-- A read that wraps round.
program rounds;
region S = [1..3, 1..4];
direction se = [1, 1];
var A, B : [S] integer;
procedure rounds();
[S] begin
  A := Index1 * Index2;
  B := A@^se;
end;
-- Command: list
-- Prints:
--   zplnode 1
--   grid 1
--   scalars 0
--   slots 2 2 2 2 2 2 2 2
--   cells 0
--   array 1..3:0,0 1..4:0,0
--   array 1..3:0,0 1..4:0,0
--   array 1..4:0,1 1..5:0,1
--   expr i1 i2 *
--   expr a0
--   expr a2@1,1
--   group
--   put 0 0 - 8
--   group
--   put 2 1 - 9
--   group
--   put 1 2 - 9
--   exchange
--   item 2 0 1,1
--   code
--   fix 0 1..3:1:1 1..4:1:1
--   loop 0 0
--   fix 1 1..3:1:1 1..4:1:1
--   loop 1 1
--   of 2 1 1,0 9
--   in 3 1 -1,0 9
--   wrap 2 1 1,0
--   of 4 1 0,1 9
--   in 5 1 0,-1 9
--   wrap 2 1 0,1
--   of 6 1 1,1 9
--   in 7 1 -1,-1 9
--   wrap 2 1 1,1
--   start 0
--   finish 0
--   loop 0 2
--   end
