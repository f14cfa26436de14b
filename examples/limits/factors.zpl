-- All 64 processors in the third factor of the grid, for lines, planes and spaces.
--
-- Words: grid=1x1x64
-- Prints:
--   2080 6240 18720
--   1830 1891 1953 2016 2080
--   180 183 186 189 192
program factors;
region Line = [1..64];
       Plane = [1..2, 1..64];
       Space = [1..2, 1..2, 1..64];
var A : [Line] integer;
    B : [Plane] integer;
    C : [Space] integer;
    a, b, c : integer;
procedure factors();
begin
  [Line] A := Index1;
  [Plane] B := Index1 * Index2;
  [Space] C := Index1 * Index2 * Index3;
  [Line] a := +<<A;
  [Plane] b := +<<B;
  [Space] c := +<<C;
  writeln(a, " ", b, " ", c);
  [Line] A := +||A;
  [60..64] writeln(A);
  [1, 1..64] B := +<<[Plane] B;
  [1, 60..64] write(B);
end;
