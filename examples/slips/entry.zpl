-- The procedure that is run has the program's name.
-- Refused:
--   refused: NoEntry, line 5, byte 155
-- Hint: procedures of this program: main
program entry;
procedure main();
begin
  writeln(1);
end;
