-- Under a test on an array each element goes its own way, and can't change a scalar that all share:
-- count behind it, `count := +<<(X > 3);`.
-- Command: mean
-- Refused:
--   refused: ShatterBody, line 14, byte 373
program shattered;
region All = [1..6];
var X : [All] integer;
    count : integer;
procedure shattered();
[All] begin
  X := Index1;
  if X > 3 then
    count += 1;
  end;
  writeln(count);
end;
