-- Collatz: halve an even number, else take three times it and one more, until it is 1. Each element makes
-- as many turns as it needs.
-- Command: mean
-- Prints:
--   steps 0 1 7 2 5 8 16 3 19 6
--   peaks 1 2 16 4 16 16 52 8 52 16
program shattered;
region All = [1..10];
var X, Steps, Peak : [All] integer;
procedure shattered();
[All] begin
  X := Index1;
  Peak := X;
  while X != 1 do
    if X % 2 = 0 then
      X := X / 2;
    else
      X := 3 * X + 1;
    end;
    Peak := max(Peak, X);
    Steps += 1;
  end;
  writeln("steps ", Steps);
  writeln("peaks ", Peak);
end;
