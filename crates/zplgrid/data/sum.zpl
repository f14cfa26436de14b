program sum;
var i, s : integer;
procedure sum();
begin
  i := 1;
  while i <= 10 do
    s := s + i;
    i := i + 1;
  end;
  writeln("sum ", s);
end;
