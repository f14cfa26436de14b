-- A name that is one letter off.
-- Refused:
--   refused: UnknownName, line 9, byte 182
-- Hint: `totl` may be `total`
program name;
var total : integer;
procedure name();
begin
  totl := 1;
  writeln(total);
end;
