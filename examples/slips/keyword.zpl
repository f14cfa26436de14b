-- A word with two letters exchanged: `while`.
-- Refused:
--   refused: Syntax, line 9, byte 199
-- Hint: `whlie` may be `while`
program keyword;
var x : integer;
procedure keyword();
begin
  whlie x < 3 do
    x += 1;
  end;
  writeln(x);
end;
