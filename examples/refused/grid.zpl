-- A grid has a factor from 1 on in each of its dimensions, and at most 64 processors.
-- Words: grid=2x0
-- Refused:
--   settings refused: BadShape
program grid;
region R = [1..4];
var A : [R] integer;
procedure grid();
begin
  [R] A := Index1;
  [R] writeln(A);
end;
