-- A name of a region where a variable is wanted.
-- Refused:
--   refused: UnknownName, line 10, byte 257
-- Hint: `R` is a region (line 6), which can't stand here
program declared;
region R = [1..4];
var A : [R] integer;
procedure declared();
begin
  [R] R := 1;
end;
