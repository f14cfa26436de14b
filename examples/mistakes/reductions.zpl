-- An array isn't a scalar: an operator makes one of it, `total := +<<A;`.
-- Command: mean
-- Refused:
--   refused: RankClash, line 12, byte 294
program reductions;
region Row = [1..4];
var A : [Row] integer;
    total : integer;
procedure reductions();
[Row] begin
  A := Index1;
  total := A;
  writeln(total);
end;
