-- A table of products, and parts of it changed: regions, arrays, coordinates and blanks.
-- Command: mean
-- Prints:
--   1 2 3 4
--   2 4 6 8
--   3 6 9 12
--   4 8 12 16
--   and parts of it changed:
--   101 102 103 -104
--   2 0 0 -8
--   3 0 0 -12
--   4 8 12 -16
--   every second column of the first two rows:
--   101 103
--   2 0
program regions;
config var n : integer = 4;
region Table = [1..n, 1..n];
       Inner = [2..n - 1, 2..n - 1];
       Odd = [1..2, 1..n] by [1, 2];
var T : [Table] integer;
procedure regions();
[Table] begin
  T := Index1 * Index2;
  write(T);
  [Inner] T := 0;
  [1, ] T += 100;
  [ , n] T := -T;
  writeln("and parts of it changed:");
  write(T);
  writeln("every second column of the first two rows:");
  [Odd] write(T);
end;
