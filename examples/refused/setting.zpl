-- A config can be set by a word of the command, to a value of its type.
-- Words: n:=x
-- Refused:
--   settings refused: ConfigType
program setting;
config var n : integer = 4;
region R = [1..n];
var A : [R] integer;
procedure setting();
begin
  [R] A := Index1;
  [R] writeln(A);
end;
