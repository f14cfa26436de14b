-- A scan: each processor tells all others what its part comes to.
-- Prints:
program scan;
config var n : integer = 16;
region R = [1..n];
var A, B : [R] integer;
procedure scan();
[R] begin
  A := Index1;
  B := +||A;
end;
