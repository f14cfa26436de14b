-- A full reduction: each processor folds its own part, and all learn the whole from processor 0.
-- Prints:
program fold;
config var n : integer = 16;
region R = [1..n];
var A : [R] integer;
    total : integer;
procedure fold();
[R] begin
  A := Index1;
  total := +<<A;
end;
