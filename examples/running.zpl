-- Running sums and greatest values, by scans; and binomial coefficients, each row the running sums of
-- the one before.
-- Command: mean
-- Prints:
--   2 -1 4 1 -2 3 0 -3
--   2 1 5 6 4 7 7 4
--   2 2 4 4 4 4 4 4
--   1 1 1 1 1 1
--   1 2 3 4 5 6
--   1 3 6 10 15 21
--   1 4 10 20 35 56
--   1 5 15 35 70 126
--   1 6 21 56 126 252
program running;
region All = [1..8];
       Six = [1..6];
var A, B : [All] integer;
    row : integer;
procedure running();
begin
  [All] A := Index1 * 5 % 8 - 3;
  [All] writeln(A);
  [All] writeln(+||A);
  [All] writeln(max||A);
  [Six] B := 1;
  for row := 1 to 6 do
    [Six] writeln(B);
    [Six] B := +||B;
  end;
end;
