-- A second coordinate where there is one dimension.
-- Refused:
--   refused: RankClash, line 10, byte 262
-- Hint: `Index2` wants two dimensions, and there are fewer here
program rank;
region R = [1..4];
var A : [R] integer;
procedure rank();
begin
  [R] A := Index2;
  [R] writeln(A);
end;
