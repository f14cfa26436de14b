-- A procedure's variables are its own: `total` isn't in reach of the other one.
-- Refused:
--   refused: UnknownName, line 11, byte 257
program name;
procedure add();
var total : integer;
begin
  total := total + 1;
end;
procedure name(); begin
  writeln(total);
end;
