-- A shattered statement reads where an array has no room.
--
-- Words: grid=2
-- Traps:
--   trap: reference outside storage, line 12
program outside;
region R = [1..4];
       Q = [1..3];
var A : [R] integer;
    B : [Q] integer;
procedure outside(); begin
[R] if A = 0 then A := B; end; end;
