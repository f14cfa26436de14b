-- `=` compares, and `:=` assigns.
-- Refused:
--   refused: Syntax, line 9, byte 200
-- Hint: `:=` assigns, and `=` compares: `x := ..`
program assign;
var x : integer;
procedure assign();
begin
  x = 1;
  writeln(x);
end;
