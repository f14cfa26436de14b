-- A `do` stands behind the test of a loop.
-- Refused:
--   refused: Syntax, line 9, byte 223
-- Hint: a `do` is missing in front of `begin`
program do_of_loop;
var x : integer;
procedure do_of_loop();
begin
  while x < 3 begin
    x += 1;
  end;
  writeln(x);
end;
