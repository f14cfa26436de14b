-- A `then` stands behind the test of an `if`.
-- Refused:
--   refused: Syntax, line 10, byte 226
-- Hint: a `then` is missing in front of `x`
program then_of_if;
var x : integer;
procedure then_of_if();
begin
  if x < 3
    x += 1;
  end;
  writeln(x);
end;
