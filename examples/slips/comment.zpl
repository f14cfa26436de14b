-- A comment begins with `--`.
-- Refused:
--   refused: Syntax, line 9, byte 245
-- Hint: a comment begins with `--`, or stands between `/*` and `*/`; a quotient is one `/`
program comment;
var x : integer;
procedure comment();
begin
  x := 1; // the first
  writeln(x);
end;
