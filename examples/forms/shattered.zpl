-- Shattered statements: each index goes its own way.
program shattered;
region R = [1..6];
var A, B : [R] integer;
    P : [R] boolean;
procedure shattered();
[R] begin
  A := Index1;
  P := A > 2;
  if A % 2 = 0 then
    B := A;
  elsif A > 3 then
    B := -A;
  else
    B := 0;
  end;
  [R with P] while A > 1 do
    A := A / 2;
  end;
  repeat
    B := B + 1;
  until B > 0;
end;
-- Command: list
-- Prints:
--   zplnode 1
--   grid 1
--   scalars 0
--   slots 1
--   cells 0
--   array 1..6:0,0
--   array 1..6:0,0
--   array 1..6:0,0
--   expr i1
--   expr a0 n2 >
--   expr a0 n2 % n0 =
--   expr a0
--   expr a0 n3 >
--   expr a0 neg
--   expr n0
--   expr a2
--   expr a0 n1 >
--   expr a0 n2 /
--   expr a1 n1 +
--   expr a1 n0 >
--   group
--   put 0 0 - 8
--   group
--   put 2 1 - 9
--   group
--   if 2 - 10
--   put 1 3 - 10
--   else
--   if 4 - 10
--   put 1 5 - 10
--   else
--   put 1 6 - 10
--   fi
--   fi
--   group
--   if 7 - 17
--   while 8 - 17
--   put 0 9 - 17
--   od
--   fi
--   group
--   repeat - 20
--   put 1 10 - 20
--   until 11
--   code
--   fix 0 1..6:1:1
--   loop 0 0
--   loop 0 1
--   loop 0 2
--   vote 2
--   loop 0 3
--   vote 3
--   loop 0 4
--   vote 4
--   end
