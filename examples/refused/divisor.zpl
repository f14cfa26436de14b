-- A constant is computed before the run, and has no value here.
-- Refused:
--   settings refused: BadConstant
program divisor;
constant half : integer = 1 / 0;
procedure divisor(); begin
  writeln(half);
end;
