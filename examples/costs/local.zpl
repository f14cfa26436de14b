-- Statements on one place each: nobody talks to anybody.
-- Prints:
program local;
config var n : integer = 16;
region R = [1..n];
var A, B : [R] integer;
procedure local();
[R] begin
  A := Index1;
  B := 2 * A + 1;
end;
