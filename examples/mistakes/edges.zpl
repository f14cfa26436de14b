-- A border statement stands directly under the border that it sets: `[back of Row] wrap A;`.
-- Command: mean
-- Refused:
--   refused: BorderForm, line 12, byte 303
program edges;
region Row = [1..5];
direction back = [-1];
var A : [Row] integer;
procedure edges();
begin
  [Row] A := Index1;
  [Row] wrap A;
  [back of Row] writeln(A);
end;
