-- A vector stands in square brackets.
-- Refused:
--   refused: Syntax, line 11, byte 305
-- Hint: a direction's name stands behind `@`, or a vector in brackets: `A@[1]`, `A@[-1, 0]`
program vector;
region R = [1..4];
direction left = [-1];
var A : [R] integer;
procedure vector();
begin
  [2..4] A := A@(-1);
  [R] writeln(A);
end;
