-- Two arrays are read of one neighbour, but the second is made of the first: `m` saves nothing.
-- Prints:
program apart;
config var n : integer = 16;
region R = [1..n];
direction right = [1];
var A, B, C : [R] integer;
procedure apart();
begin
  [R] A := Index1;
  [1..n - 1] begin
    B := A@right;
    C := B@right;
  end;
end;
