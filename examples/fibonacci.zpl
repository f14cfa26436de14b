-- The Fibonacci numbers below 100, each with its place.
-- Prints:
--   0: 0
--   1: 1
--   2: 1
--   3: 2
--   4: 3
--   5: 5
--   6: 8
--   7: 13
--   8: 21
--   9: 34
--   10: 55
--   11: 89
program fibonacci;
var place, this, next, after : integer;
procedure fibonacci();
begin
  next := 1;
  while this < 100 do
    writeln(place, ": ", this);
    after := this + next;
    this := next;
    next := after;
    place := place + 1;
  end;
end;
