-- Case counts: `writeln`.
-- Refused:
--   refused: UnknownName, line 8, byte 159
-- Hint: `WriteLn` may be `writeln`
program case;
procedure case();
begin
  WriteLn(1);
end;
