-- A `;` stands behind each statement.
-- Refused:
--   refused: Syntax, line 10, byte 259
-- Hint: a `;` may be missing behind `1` in line 9: each statement, and each `end`, has one
program semicolon;
var x : integer;
procedure semicolon();
begin
  x := 1
  writeln(x);
end;
