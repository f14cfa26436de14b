-- Borders of every second row: the step is in a dimension without a border.
--
-- Words: grid=2x2
-- Prints:
--   11 12 11
--   21 22 0
--   31 32 31
--   41 42 0
--   11 11 12 11
--   0 21 22 0
--   31 31 32 31
--   0 41 42 0
program rows_by;
region R = [1..4, 1..2];
       Big = [1..4, 0..3];
       S = R by [2, 1];
direction east = [0, 1];
          west = [0, -1];
var A : [Big] integer;
procedure rows_by();
begin
  [R] A := 10 * Index1 + Index2;
  [east of S] wrap A;
  [1..4, 1..3] write(A);
  [west of S] reflect A;
  [Big] write(A);
end;
