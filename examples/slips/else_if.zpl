-- `elsif` is one word; an `if` behind `else` wants an `end;` of its own.
-- Refused:
--   refused: Syntax, line 15, byte 323
-- Hint: the `if` in line 9 has no `end;` yet
program else_if;
var x : integer;
procedure else_if();
begin
  if x = 0 then
    writeln("none");
  else if x = 1 then
    writeln("one");
  end;
end;
