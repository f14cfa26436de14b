-- Whole numbers are `integer`.
-- Refused:
--   refused: UnknownType, line 6, byte 146
-- Hint: `int` may be `integer`
program int_type;
var x : int;
procedure int_type();
begin
  writeln(x);
end;
