-- Borders: one goes round, the other reflects.
program borders;
region S = [1..3, 1..4];
       Big = [0..4, 0..5];
direction east = [0, 1];
          north = [-1, 0];
var A, B : [Big] integer;
procedure borders();
begin
  [S] A := Index1;
  [S] B := Index2;
  [east of S] wrap A, B;
  [north of S] reflect A;
end;
-- Command: list
-- Prints:
--   zplnode 1
--   grid 1
--   scalars 0
--   slots 2 2 2 2 2 2
--   cells 0
--   array 0..4:0,0 0..5:0,0
--   array 0..4:0,0 0..5:0,0
--   expr i1
--   expr i2
--   group
--   put 0 0 - 10
--   group
--   put 1 1 - 11
--   code
--   fix 0 1..3:1:1 1..4:1:1
--   fix 1 0..4:1:0 0..5:1:0
--   loop 0 0
--   loop 0 1
--   of 2 0 0,1 12
--   fits 0 0,1 12
--   in 3 0 0,-1 12
--   need 2 0 0,0 12
--   need 3 0 0,0 12
--   wrap 0 0 0,1
--   need 2 1 0,0 12
--   need 3 1 0,0 12
--   wrap 1 0 0,1
--   of 4 0 -1,0 13
--   fits 0 -1,0 13
--   in 5 0 -1,0 13
--   need 4 0 0,0 13
--   need 5 0 0,0 13
--   reflect 0 0 -1,0
--   end
