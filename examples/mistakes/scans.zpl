-- A table has no third dimension to scan along: `+||[2] T` goes along its rows.
-- Command: mean
-- Refused:
--   refused: RankClash, line 11, byte 285
program scans;
region Table = [1..2, 1..3];
var T : [Table] integer;
procedure scans();
[Table] begin
  T := Index1;
  write(+||[3] T);
end;
