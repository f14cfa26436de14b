-- A string ends on its line.
-- Refused:
--   refused: OpenString, line 6, byte 137
program string;
procedure string(); begin
  writeln("it never ends);
end;
