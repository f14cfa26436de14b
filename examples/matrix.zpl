-- A product of matrices: column k of the one and row k of the other are spread out by floods, and their
-- products are added up over k.
-- Command: mean
-- Prints:
--   20 40 60 80
--   26 52 78 104
program matrix;
config var rows : integer = 2;
           inner : integer = 3;
           columns : integer = 4;
region Left = [1..rows, 1..inner];
       Right = [1..inner, 1..columns];
       Product = [1..rows, 1..columns];
       Column = [1..rows, *];
       Row = [*, 1..columns];
var A : [Left] integer;
    B : [Right] integer;
    C : [Product] integer;
    Down : [Column] integer;
    Across : [Row] integer;
    k : integer;
procedure matrix();
begin
  [Left] A := Index1 + Index2;
  [Right] B := Index1 * Index2;
  for k := 1 to inner do
    [Column] Down := >>[ , k] A;
    [Row] Across := >>[k, ] B;
    [Product] C += Down * Across;
  end;
  [Product] write(C);
end;
