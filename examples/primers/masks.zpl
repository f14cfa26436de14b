-- Leap years: those that 4 divides, but of the years that 100 divides only those that 400 divides.
-- Command: mean
-- Words: first:=1896
-- Prints:
--   3 leap years, the last 1908; days in all: 4748
--   1896 0 0 0 0 0 0 0 1904 0 0 0 1908
program masks;
config var first : integer = 1996;
region Years = [first..first + 12];
var Leap, Century : [Years] boolean;
    Days, Shown : [Years] integer;
    count, last : integer;
procedure masks();
[Years] begin
  Leap := Index1 % 4 = 0;
  Century := Index1 % 100 = 0;
  [Years with Century] Leap := Index1 % 400 = 0;
  Days := 365;
  [Years with Leap] Days += 1;
  [Years with Leap] count := +<<1;
  [Years with Leap] last := max<<Index1;
  writeln(count, " leap years, the last ", last, "; days in all: ", +<<Days);
  Shown := Index1;
  [Years without Leap] Shown := 0;
  writeln(Shown);
end;
