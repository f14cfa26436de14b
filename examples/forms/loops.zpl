-- Loops; a counter never wraps.
program loops;
var i, s : integer;
procedure loops();
begin
  while s < 10 do
    s := s + 3;
  end;
  repeat
    s := s - 1;
  until s = 0;
  for i := 1 to 9 by 2 do
    s += i;
  end;
  for i := 3 downto s do
    s -= 1;
  end;
end;
-- Command: list
-- Prints:
--   zplnode 1
--   grid 1
--   scalars 8
--   slots
--   cells 0
--   expr s1 n10 <
--   expr s1 n3 +
--   expr s1 n1 -
--   expr s1 n0 =
--   expr n1
--   expr n9
--   expr n2
--   expr s4 n1 >= s2 s3 <= &
--   expr s2
--   expr s1 s0 +
--   expr s2 s4 +
--   expr s2 s4 - s2 >= s2 s3 > |
--   expr n3
--   expr s1
--   expr n1
--   expr s7 n1 >= s5 s6 >= &
--   expr s5
--   expr s1 n1 -
--   expr s5 s7 -
--   expr s5 s7 + s5 <= s5 s6 < |
--   code
--   unless 0 3 6
--   set 1 1 7
--   jump 0
--   jump 4
--   set 1 2 10
--   unless 3 4 11
--   set 2 4 12
--   set 3 5 12
--   set 4 6 12
--   unless 7 15 12
--   jump 11
--   set 0 8 12
--   set 1 9 13
--   set 2 10 12
--   unless 11 11 12
--   set 5 12 15
--   set 6 13 15
--   set 7 14 15
--   unless 15 24 15
--   jump 20
--   set 0 16 15
--   set 1 17 16
--   set 5 18 15
--   unless 19 20 15
--   end
