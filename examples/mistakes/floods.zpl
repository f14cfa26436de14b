-- A plain array has an element for each column, and can't be written where a column is any: the array that
-- is written has to be flood there too, `var Down : [Column] integer;`.
-- Command: mean
-- Refused:
--   refused: FloodClash, line 13, byte 434
program floods;
region Square = [1..3, 1..3];
       Column = [1..3, *];
var A, Down : [Square] integer;
procedure floods();
begin
  [Square] A := 10 * Index1 + Index2;
  [Column] Down := >>[ , 2] A;
  [Square] write(Down);
end;
