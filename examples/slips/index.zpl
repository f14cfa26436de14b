-- One place is said in front of the statement: `[1] A := 0;`.
-- Refused:
--   refused: Syntax, line 10, byte 334
-- Hint: a place is said in front of the statement: `[1] A := 0;` sets one, `[1] x := +<<A;` reads one, and `A@[1]` reads the neighbour
program index;
region R = [1..4];
var A : [R] integer;
procedure index();
begin
  A[1] := 0;
  [R] writeln(A);
end;
