-- One `=` compares.
-- Refused:
--   refused: Syntax, line 9, byte 185
-- Hint: one `=` compares, and `:=` assigns
program compare;
var x : integer;
procedure compare();
begin
  if x == 0 then
    writeln("none");
  end;
end;
