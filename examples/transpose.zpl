-- A matrix with its rows and columns changed about, by one remap read.
-- Command: mean
-- Prints:
--   11 12 13
--   21 22 23
--   11 21
--   12 22
--   13 23
program transpose;
region Wide = [1..2, 1..3];
       High = [1..3, 1..2];
var A : [Wide] integer;
    B : [High] integer;
procedure transpose();
begin
  [Wide] A := 10 * Index1 + Index2;
  [High] B := A#[Index2, Index1];
  [Wide] write(A);
  [High] write(B);
end;
