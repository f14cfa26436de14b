-- A byte that begins no token of the language.
-- Refused:
--   refused: BadByte, line 7, byte 170
program byte;
var price : integer;
procedure byte(); begin
  price := $5;
end;
