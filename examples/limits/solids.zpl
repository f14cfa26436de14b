-- Borders of rank 3: corners go round, and reflect.
--
-- Words: grid=2x2
-- Prints:
--   111
--   121
--
--   112
--
--   212
--
program solids;
region R = [1..2, 1..2, 1..2];
       Big = [0..3, 0..3, 0..3];
direction corner = [1, 0, 1];
          other = [0, -1, 1];
var A : [Big] integer;
procedure solids();
begin
  [R] A := 100 * Index1 + 10 * Index2 + Index3;
  [corner of R] wrap A;
  [3, 1..2, 3] write(A);
  [other of R] reflect A;
  [1..2, 0, 3] write(A);
end;
