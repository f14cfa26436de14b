-- A remap read: an element wherever the indices point to.
program remaps;
region S = [1..3, 1..3];
var A, B : [S] integer;
procedure remaps();
[S] begin
  A := 10 * Index1 + Index2;
  B := A#[Index2, Index1];
end;
-- Command: list
-- Prints:
--   zplnode 1
--   grid 1
--   scalars 1
--   slots 2
--   cells 0
--   array 1..3:0,0 1..3:0,0
--   array 1..3:0,0 1..3:0,0
--   array - -
--   array - -
--   array - -
--   expr n10 i1 * i2 +
--   expr i2
--   expr i1
--   expr n0
--   expr a2 n1 < a2 n3 > | a3 n1 < | a3 n3 > |
--   expr s0
--   expr a4
--   group
--   put 0 0 - 7
--   group
--   put 2 1 - 8
--   put 3 2 - 8
--   group
--   acc 0 any 4 - 8
--   group
--   put 1 6 - 8
--   code
--   fix 0 1..3:1:1 1..3:1:1
--   loop 0 0
--   room 2 0
--   room 3 0
--   loop 0 1
--   set 0 3 8
--   loop 0 2
--   fold 0 any
--   unless 5 10 8
--   trap 2 8
--   room 4 0
--   remap 4 0 0 2 3
--   loop 0 3
--   end
