-- A border of a region with a step doesn't conform, in the dimension of the step.
--
-- Traps:
--   1 2 3 4 5 6
--   trap: regions do not conform, line 13
program steps;
region R = [1..6];
       Big = [0..8];
       S = R by [2];
direction east = [2];
var A : [Big] integer;
procedure steps(); begin [R] A := Index1; [R] writeln(A);
  [east of S] reflect A; end;
