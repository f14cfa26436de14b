-- The remainder is `x % 2`.
-- Refused:
--   refused: Syntax, line 9, byte 212
-- Hint: `mod` is no word of the language: `%` is the remainder
program modulo;
var x : integer;
procedure modulo();
begin
  x := 7 mod 2;
  writeln(x);
end;
