-- A column spread over its rows, by a flood.
program floods;
region S = [1..3, 1..4];
       Column = [1..3, *];
var A, B : [S] integer;
    D : [Column] integer;
procedure floods();
begin
  [S] A := Index2;
  [Column] D := >>[ , 2] A;
  [S] B := >>[1, ] A + D;
end;
-- Command: list
-- Prints:
--   zplnode 1
--   grid 1
--   scalars 0
--   slots 2 2 2 2
--   cells 0
--   array 1..3:0,0 1..4:0,0
--   array 1..3:0,0 1..4:0,0
--   array 1..3:0,0 *
--   array - -
--   array - -*
--   array - -
--   array - -
--   expr i2
--   expr n2
--   expr n2
--   expr a0
--   expr a4
--   expr n1
--   expr n1
--   expr a0
--   expr a6 a2 +
--   group
--   put 0 0 - 9
--   group
--   put 3 3 - 10
--   group
--   put 2 4 - 10
--   group
--   put 5 7 - 11
--   group
--   put 1 8 - 11
--   code
--   fix 0 1..3:1:1 1..4:1:1
--   fix 1 1..3:1:1 *
--   loop 0 0
--   dims 2 ^1 1..2 10
--   same 1 2 flood 10
--   need 2 0 0,0 10
--   room 3 2
--   loop 2 1
--   room 4 1
--   flood 4 1 3 2
--   loop 1 2
--   dims 3 5..6 ^0 11
--   same 0 3 flood 11
--   need 3 0 0,0 11
--   room 5 3
--   loop 3 3
--   room 6 0
--   flood 6 0 5 3
--   loop 0 4
--   end
