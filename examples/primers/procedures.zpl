-- Procedures: arrays and scalars handed on, a result; and the current region, which is the caller's.
-- Command: mean
-- Prints:
--   4 8 6 8 10 12
--   greatest 12, of the first three 8
--   greatest 8, of the first three 12
program procedures;
region Row = [1..6];
var A : [Row] integer;
    most, first : integer;
procedure double(var X : [Row] integer);
begin
  X *= 2;
end;
procedure greatest(X : [Row] integer) : integer;
begin
  return max<<X;
end;
procedure swap(var a, b : integer); var old : integer;
begin
  old := a;
  a := b;
  b := old;
end;
procedure procedures();
[Row] begin
  A := Index1;
  double(A);
  [1..2] double(A);
  writeln(A);
  most := greatest(A);
  [1..3] first := greatest(A);
  writeln("greatest ", most, ", of the first three ", first);
  swap(most, first);
  writeln("greatest ", most, ", of the first three ", first);
end;
