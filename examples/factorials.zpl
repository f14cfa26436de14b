/* Factorials. A number has 64 bits, and what passes them wraps round: 20! is the last that fits.
   Prints:
     17! = 355687428096000
     18! = 6402373705728000
     19! = 121645100408832000
     20! = 2432902008176640000
     21! = -4249290049419214848
     22! = -1250660718674968576
*/
program factorials;
var n, product : integer;
procedure factorials();
begin
  product := 1;
  while n < 16 do
    n := n + 1;
    product := product * n;
  end;
  while n < 22 do
    n := n + 1;
    product := product * n;
    writeln(n, "! = ", product);
  end;
end;
