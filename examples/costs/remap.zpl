-- A remap read: each processor asks all others for what it wants of them.
-- Prints:
program remap;
config var n : integer = 16;
region R = [1..n];
var A, B : [R] integer;
procedure remap();
[R] begin
  A := Index1;
  B := A#[n + 1 - Index1];
end;
