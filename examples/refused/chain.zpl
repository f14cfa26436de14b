-- Comparisons don't follow one another: (0 < x) & (x < 9) says what is meant.
-- Refused:
--   refused: Syntax, line 7, byte 201
program chain;
var x : integer;
procedure chain(); begin
  while 0 < x < 9 do x := x + 1; end;
end;
