-- Scans, with a mask and without.
program scans;
region S = [1..3, 1..4];
var A, B : [S] integer;
    P : [S] boolean;
procedure scans();
[S] begin
  A := Index1 + Index2;
  P := A > 3;
  B := +||[2] A;
  [S with P] B := max||[1] A;
end;
-- Command: list
-- Prints:
--   zplnode 1
--   grid 1
--   scalars 0
--   slots 2
--   cells 0
--   array 1..3:0,0 1..4:0,0
--   array 1..3:0,0 1..4:0,0
--   array 1..3:0,0 1..4:0,0
--   array - -
--   array - -
--   array - -
--   array - -
--   expr i1 i2 +
--   expr a0 n3 >
--   expr a0
--   expr a4
--   expr a0
--   expr a2
--   expr a6
--   expr a2
--   group
--   put 0 0 - 8
--   group
--   put 2 1 - 9
--   group
--   put 3 2 - 10
--   group
--   put 1 3 - 10
--   group
--   put 5 4 5 11
--   group
--   put 1 6 7 11
--   code
--   fix 0 1..3:1:1 1..4:1:1
--   loop 0 0
--   loop 0 1
--   room 3 0
--   loop 0 2
--   room 4 0
--   scan 4 0 sum 2 3 -
--   loop 0 3
--   room 5 0
--   loop 0 4
--   room 6 0
--   scan 6 0 max 1 5 2
--   loop 0 5
--   end
