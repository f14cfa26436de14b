-- Two values that differ are compared by `!=`.
-- Refused:
--   refused: Syntax, line 9, byte 210
-- Hint: `!=` says that two values differ
program unequal;
var x : integer;
procedure unequal();
begin
  if x <> 0 then
    writeln("some");
  end;
end;
