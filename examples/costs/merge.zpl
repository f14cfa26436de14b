-- Two arrays are read of one neighbour in one statement: with `m` both go in one message.
-- Prints:
program merge;
config var n : integer = 16;
region R = [1..n];
direction right = [1];
var A, B, C : [R] integer;
procedure merge();
begin
  [R] A := Index1;
  [R] B := Index1 * Index1;
  [1..n - 1] C := A@right + B@right;
end;
