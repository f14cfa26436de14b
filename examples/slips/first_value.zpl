-- Variables begin as 0; another first value is assigned.
-- Refused:
--   refused: Syntax, line 6, byte 274
-- Hint: variables begin as 0 or false; a first value is assigned in the procedure, and a config or constant has its value here
program first_value;
var x : integer = 5;
procedure first_value();
begin
  writeln(x);
end;
