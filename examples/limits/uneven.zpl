-- 50 elements on 33 processors in one factor: some own one, some two.
--
-- Words: grid=33
-- Prints:
--   1275
--   50 1 2 3 4
--   1176 1225 1275
program uneven;
region R = [1..50];
direction west = [-1];
var A, B : [R] integer;
    s : integer;
procedure uneven();
begin
  [R] A := Index1;
  [R] s := +<<A;
  writeln(s);
  [R] B := A@^west;
  [1..5] writeln(B);
  [R] B := +||A;
  [48..50] writeln(B);
end;
