-- A statement ends with a semicolon: the `end` can't stand where it does.
-- Refused:
--   refused: Syntax, line 8, byte 200
program semicolon;
var x : integer;
procedure semicolon(); begin
  x := 1
end;
