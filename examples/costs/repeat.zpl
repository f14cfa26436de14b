-- The same neighbour is read in two statements, and nothing is written between: `r` sends its places once.
-- Prints:
program repeat_reads;
config var n : integer = 16;
region R = [1..n];
direction right = [1];
var A, B, C : [R] integer;
procedure repeat_reads();
begin
  [R] A := Index1;
  [1..n - 1] begin
    B := A@right;
    C := A@right * 2;
  end;
end;
