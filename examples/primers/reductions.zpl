-- Marks added up and counted, and a table added up by rows and by columns.
-- Command: mean
-- Prints:
--   3 2 1 0 3 2 1 0 3 2
--   sum 17, least 0, greatest 3
--   mark 0: 2
--   mark 1: 2
--   mark 2: 3
--   mark 3: 3
--   10
--   20
--   30
--   6 12 18 24
program reductions;
region All = [1..10];
       Table = [1..3, 1..4];
var Marks : [All] integer;
    T : [Table] integer;
    mark : integer;
procedure reductions();
[All] begin
  Marks := Index1 * 7 % 4;
  writeln(Marks);
  writeln("sum ", +<<Marks, ", least ", min<<Marks, ", greatest ", max<<Marks);
  for mark := 0 to max<<Marks do
    writeln("mark ", mark, ": ", +<<(Marks = mark));
  end;
  [Table] T := Index1 * Index2;
  [1..3, 1] write(+<<[Table] T);
  [1, 1..4] write(+<<[Table] T);
end;
