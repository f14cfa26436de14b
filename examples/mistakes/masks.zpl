-- An array isn't printed under a mask: set what isn't wanted to 0, and print under the region alone.
-- Command: mean
-- Refused:
--   refused: MaskPlace, line 13, byte 374
program masks;
region Numbers = [1..9];
var Odd : [Numbers] boolean;
    Shown : [Numbers] integer;
procedure masks();
[Numbers] begin
  Odd := Index1 % 2 = 1;
  Shown := Index1;
  [Numbers with Odd] writeln(Shown);
end;
