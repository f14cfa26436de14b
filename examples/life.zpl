-- Conway's life on a torus: reads of neighbours wrap round at the edges. A glider goes one step down and
-- to the right in four generations.
-- Command: mean
-- Prints:
--   generation 0
--   0 1 0 0 0 0
--   0 0 1 0 0 0
--   1 1 1 0 0 0
--   0 0 0 0 0 0
--   0 0 0 0 0 0
--   0 0 0 0 0 0
--   generation 12
--   0 0 0 0 0 0
--   0 0 0 0 0 0
--   0 0 0 0 0 0
--   0 0 0 0 1 0
--   0 0 0 0 0 1
--   0 0 0 1 1 1
program life;
config var size : integer = 6;
           generations : integer = 12;
region World = [0..size - 1, 0..size - 1];
var Alive, Near : [World] integer;
    generation : integer;
procedure show();
begin
  writeln("generation ", generation);
  [World] write(Alive);
end;
procedure life();
[World] begin
  [0, 1] Alive := 1;
  [1, 2] Alive := 1;
  [2, 0..2] Alive := 1;
  show();
  while generation < generations do
    Near := Alive@^[-1, -1] + Alive@^[-1, 0] + Alive@^[-1, 1] + Alive@^[0, -1]
          + Alive@^[0, 1] + Alive@^[1, -1] + Alive@^[1, 0] + Alive@^[1, 1];
    Alive := (Near = 3) | (Near = 2) & (Alive = 1);
    generation += 1;
  end;
  show();
end;
