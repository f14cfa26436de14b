-- The `while` has no `end;` of its own.
-- Refused:
--   refused: Syntax, line 12, byte 245
-- Hint: the `while` in line 9 has no `end;` yet
program end_of_loop;
var x : integer;
procedure end_of_loop();
begin
  while x < 3 do
    x += 1;
end;
