-- Heat in a rod. At each step a place becomes the mean of its two neighbours; beyond its left end the rod
-- is kept at 800, and beyond its right end at 0.
-- Command: mean
-- Prints:
--   400 0 0 0 0
--   400 200 0 0 0
--   500 200 100 0 0
--   500 300 100 50 0
program shifts;
config var length : integer = 5;
           steps : integer = 4;
region Rod = [1..length];
direction left = [-1];
          right = [1];
var Heat : [Rod] integer;
    step : integer;
procedure shifts();
[Rod] begin
  [left of Rod] Heat := 800;
  [right of Rod] Heat := 0;
  for step := 1 to steps do
    Heat := (Heat@left + Heat@right) / 2;
    writeln(Heat);
  end;
end;
