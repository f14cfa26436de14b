-- A `:` stands in front of a type.
-- Refused:
--   refused: Syntax, line 6, byte 180
-- Hint: a `:` stands between the names and the type: `var x : integer;`
program type;
var x integer;
procedure type();
begin
  writeln(x);
end;
