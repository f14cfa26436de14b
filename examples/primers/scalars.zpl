-- The greatest common divisor of two numbers: configs, a constant, scalars, a loop and a test.
-- Command: mean
-- Words: b:=36
-- Prints:
--   greatest common divisor of 84 and 36: 12
--   least common multiple: 252
--   36 divides 84: false
program scalars;
config var a : integer = 84;
           b : integer = 60;
constant product : integer = a * b;
var x, y, rest : integer;
    divides : boolean;
procedure scalars();
begin
  x := a;
  y := b;
  while y != 0 do
    rest := x % y;
    x := y;
    y := rest;
  end;
  divides := x = b;
  writeln("greatest common divisor of ", a, " and ", b, ": ", x);
  if product != 0 then
    writeln("least common multiple: ", product / x);
  end;
  writeln(b, " divides ", a, ": ", divides);
end;
