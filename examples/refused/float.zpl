-- There are whole numbers alone.
-- Refused:
--   refused: FloatText, line 7, byte 158
program float;
var half : integer;
procedure float(); begin
  half := 0.5;
end;
