-- What lies beyond the ends of an array: borders set by `wrap` and by `reflect`, and reads that wrap round.
-- Command: mean
-- Prints:
--   wrapped:   50 10 20 30 40 50 10 20
--   reflected: 10 10 20 30 40 50 50 40
--   one back:  50 10 20 30 40
--   two on:    30 40 50 10 20
program edges;
region Row = [1..5];
direction back = [-1];
          on = [2];
var A : [Row] integer;
procedure edges();
begin
  [Row] A := 10 * Index1;
  [back of Row] wrap A;
  [on of Row] wrap A;
  [0..7] writeln("wrapped:   ", A);
  [back of Row] reflect A;
  [on of Row] reflect A;
  [0..7] writeln("reflected: ", A);
  [Row] writeln("one back:  ", A@^back);
  [Row] writeln("two on:    ", A@^on);
end;
