-- A column of a matrix spread out by a flood; and the product of two matrices, by a flood of a column and
-- of a row at each step.
-- Command: mean
-- Prints:
--   11 12 13
--   21 22 23
--   31 32 33
--   column 2, flooded:
--   12 12 12
--   22 22 22
--   32 32 32
--   product:
--   38 2 -34
--   68 2 -64
--   98 2 -94
program floods;
region Square = [1..3, 1..3];
       Column = [1..3, *];
       Row = [*, 1..3];
var A, B, C : [Square] integer;
    Down : [Column] integer;
    Across : [Row] integer;
    k : integer;
procedure floods();
[Square] begin
  A := 10 * Index1 + Index2;
  B := Index1 - Index2;
  write(A);
  [Column] Down := >>[ , 2] A;
  writeln("column 2, flooded:");
  write(Down);
  for k := 1 to 3 do
    [Column] Down := >>[ , k] A;
    [Row] Across := >>[k, ] B;
    C += Down * Across;
  end;
  writeln("product:");
  write(C);
end;
