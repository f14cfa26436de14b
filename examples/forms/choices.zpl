-- A choice of three ways.
program choices;
var x, y : integer;
procedure choices();
begin
  if x > 1 then
    y := 1;
  elsif x < -1 then
    y := 2;
  else
    y := 3;
  end;
  if y = 1 then
    x := 0;
  end;
end;
-- Command: list
-- Prints:
--   zplnode 1
--   grid 1
--   scalars 2
--   slots
--   cells 0
--   expr s0 n1 >
--   expr n1
--   expr s0 n1 neg <
--   expr n2
--   expr n3
--   expr s1 n1 =
--   expr n0
--   code
--   unless 0 3 6
--   set 1 1 7
--   jump 7
--   unless 2 6 8
--   set 1 3 9
--   jump 7
--   set 1 4 11
--   unless 5 9 13
--   set 0 6 14
--   end
