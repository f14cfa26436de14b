-- Scalars: assignments, with operators and without; truth values.
program scalars;
config var n : integer = 4;
constant two : integer = 2;
var x, y : integer;
    p : boolean;
procedure scalars();
begin
  x := n * two - 1;
  y += -x / 2;
  y := max(x, y) % n;
  p := x < y | !(y = 0);
  p &= true;
end;
-- Command: list
-- Prints:
--   zplnode 1
--   grid 1
--   scalars 3
--   slots
--   cells 0
--   expr n4 n2 * n1 -
--   expr s1 s0 neg n2 / +
--   expr s0 s1 max n4 %
--   expr s0 s1 < s1 n0 = not |
--   expr s2 n1 &
--   code
--   set 0 0 9
--   set 1 1 10
--   set 1 2 11
--   set 2 3 12
--   set 2 4 13
--   end
