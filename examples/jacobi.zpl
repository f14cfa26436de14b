-- Heat in a plate, by Jacobi's method: its south edge is kept at 1000 and the others at 0, and each place
-- becomes the mean of its four neighbours, until no place changes by `slack` or more.
-- Command: mean
-- Words: size:=5 slack:=10
-- Prints:
--   14 sweeps
--   18 30 35 30 18
--   48 81 92 81 48
--   107 174 195 174 107
--   221 336 371 336 221
--   454 604 640 604 454
program jacobi;
config var size : integer = 8;
           slack : integer = 1;
region Plate = [1..size, 1..size];
direction up = [-1, 0]; down = [1, 0]; left = [0, -1]; right = [0, 1];
var Heat, Next : [Plate] integer;
    sweeps, change : integer;
procedure jacobi();
[Plate] begin
  [up of Plate] Heat := 0;
  [left of Plate] Heat := 0;
  [right of Plate] Heat := 0;
  [down of Plate] Heat := 1000;
  repeat
    Next := (Heat@up + Heat@down + Heat@left + Heat@right) / 4;
    change := max<<abs(Next - Heat);
    Heat := Next;
    sweeps += 1;
  until change < slack;
  writeln(sweeps, " sweeps");
  write(Heat);
end;
