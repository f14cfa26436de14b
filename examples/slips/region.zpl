-- A region has square brackets.
-- Refused:
--   refused: Syntax, line 6, byte 202
-- Hint: what is meant stands in brackets: `region R = [1..n];`, `direction e = [1];`
program region_bare;
region R = 1..4;
var A : [R] integer;
procedure region_bare();
begin
  [R] writeln(A);
end;
