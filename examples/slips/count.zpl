-- A loop that counts has `to`, and no range.
-- Refused:
--   refused: Syntax, line 9, byte 219
-- Hint: a loop that counts is `for i := 1 to 10 do`
program count;
var i : integer;
procedure count();
begin
  for i := 1..3 do
    writeln(i);
  end;
end;
