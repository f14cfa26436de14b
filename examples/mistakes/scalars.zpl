-- A config isn't assigned in the program: its value is set by a word of the command, `n:=5`.
-- Command: mean
-- Refused:
--   refused: NotAssignable, line 9, byte 243
program scalars;
config var n : integer = 4;
procedure scalars();
begin
  n := n + 1;
  writeln(n);
end;
