-- A call that has a result is the whole right side of an assignment to a scalar, and stands nowhere else:
-- `most := greatest(A);`, and then `writeln(most);`.
-- Command: mean
-- Refused:
--   refused: CallPlace, line 16, byte 435
program procedures;
region Row = [1..6];
var A : [Row] integer;
procedure greatest(X : [Row] integer) : integer;
begin
  return max<<X;
end;
procedure procedures();
[Row] begin
  A := Index1;
  writeln(greatest(A));
end;
