-- Two statements over one region: `f` makes one loop of them.
-- Prints:
--   136
program fuse;
config var n : integer = 16;
region R = [1..n];
var A, B : [R] integer;
    total : integer;
procedure fuse();
[R] begin
  A := Index1;
  B := 2 * A;
  total := +<<(B - A);
  writeln(total);
end;
