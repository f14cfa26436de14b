-- Local variables stand in front of `begin`.
-- Refused:
--   refused: Syntax, line 8, byte 220
-- Hint: local variables stand between the head of the procedure and its `begin`
program local;
procedure local();
begin
  var x : integer;
  x := 1;
  writeln(x);
end;
