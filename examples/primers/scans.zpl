-- An account: what is paid in and out, the balance after each, and the greatest balance so far; then a
-- table scanned as a whole and along its rows.
-- Command: mean
-- Prints:
--   paid     0 3 -1 2 -2 1 -3 0
--   balance  0 3 2 4 2 3 0 0
--   greatest 0 3 3 4 4 4 4 4
--   payments 0 1 1 2 2 3 3 3
--   1 2 3
--   5 7 9
--   1 2 3
--   2 4 6
program scans;
region Days = [1..8];
       Table = [1..2, 1..3];
var Paid, Balance : [Days] integer;
    T : [Table] integer;
procedure scans();
[Days] begin
  Paid := Index1 * 3 % 7 - 3;
  Balance := +||Paid;
  writeln("paid     ", Paid);
  writeln("balance  ", Balance);
  writeln("greatest ", max||Balance);
  writeln("payments ", +||(Paid > 0));
  [Table] T := Index1;
  [Table] write(+||T);
  [Table] write(+||[2] T);
end;
