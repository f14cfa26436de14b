-- The last `end` has a semicolon as all others.
-- Refused:
--   refused: BadByte, line 9, byte 219
-- Hint: the last `end` has a `;` behind it too, and no dot
program dot;
procedure dot();
begin
  writeln("done");
end.
