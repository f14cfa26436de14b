-- `&` is "and".
-- Refused:
--   refused: Syntax, line 9, byte 215
-- Hint: `&` is "and", `|` is "or"; `||` stands behind an operator, in a scan
program both;
var x : integer;
procedure both();
begin
  if x = 0 && x < 9 then
    writeln("both");
  end;
end;
