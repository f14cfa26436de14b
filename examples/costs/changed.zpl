-- The same neighbour is read twice, but changes between: `r` saves nothing.
-- Prints:
program changed;
config var n : integer = 16;
region R = [1..n];
direction right = [1];
var A, B, C : [R] integer;
procedure changed();
begin
  [R] A := Index1;
  [1..n - 1] begin
    B := A@right;
    A := A + 1;
    C := A@right * 2;
  end;
end;
