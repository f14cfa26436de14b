-- A statement on whole arrays wants a region: `[Row] A := Index1;`.
-- Command: mean
-- Refused:
--   refused: NoRegion, line 10, byte 230
program regions;
region Row = [1..4];
var A : [Row] integer;
procedure regions();
begin
  A := 7;
  [Row] writeln(A);
end;
