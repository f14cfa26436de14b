-- Reads beside the index: of another array, and of the one that is put.
program shifts;
region R = [1..6];
       Big = [0..7];
direction right = [1];
var A, B : [Big] integer;
procedure shifts();
begin
  [Big] A := Index1;
  [R] B := A@right - A@[-1];
  [R] A := A@right;
end;
-- Command: list
-- Prints:
--   zplnode 1
--   grid 1
--   scalars 0
--   slots 1 1
--   cells 0
--   array 0..7:1,1
--   array 0..7:0,0
--   array -
--   expr i1
--   expr a0@1 a0@-1 -
--   expr a0@1
--   expr a2
--   group
--   put 0 0 - 9
--   group
--   put 1 1 - 10
--   group
--   put 2 2 - 11
--   group
--   put 0 3 - 11
--   exchange
--   item 0 0 1
--   exchange
--   item 0 0 -1
--   exchange
--   item 0 0 1
--   code
--   fix 0 1..6:1:1
--   fix 1 0..7:1:0
--   loop 1 0
--   start 0
--   finish 0
--   start 1
--   finish 1
--   loop 0 1
--   room 2 0
--   start 2
--   finish 2
--   loop 0 2
--   loop 0 3
--   end
