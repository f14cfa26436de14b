-- What prints is called `writeln`.
-- Refused:
--   refused: UnknownName, line 8, byte 209
-- Hint: `println` is no word of the language: `writeln(..)` prints a line
program print;
procedure print();
begin
  println(1);
end;
