#!/bin/sh
# Measures the built program, as docs/BENCHMARKS.md has it: `benchmarks/measure.sh`, in a clone with Rattle's kit on the path.
top=$(cd "$(dirname "$0")/.." && pwd) || exit 1
program=$top/crates/zplgrid/out/zplgrid
place=$(mktemp -d) || exit 1
trap 'rm -rf "$place"' EXIT
size=1048576

# seconds of processor time that a command takes, what it prints left out
seconds() {
    bash -c 'TIMEFORMAT="%U %S"; time "$@" >/dev/null 2>&1' measure "$@" 2>&1 | awk '{ printf "%.3f", $1 + $2 }'
}

# the time of one run of a text, beside what is told of it
row() {
    told=$("$program" run "$2" turns=0 2>&1 | head -c 60)
    echo "$1: $(seconds "$program" run "$2" turns=0) seconds ($told)"
}

# so many bytes of a text over and over, between a front and an end
filled() {
    room=$((size - ${#1} - ${#3}))
    printf '%s' "$1"
    yes "$2" | tr -d '\n' | head -c $((room / ${#2} * ${#2}))
    printf '%s' "$3"
}

# a program of so many assignments of six tokens
assignments() {
    echo 'program long; var x : integer; procedure long(); begin'
    awk -v n="$1" 'BEGIN { for (i = 0; i < n; i++) print "x := x + 1;" }'
    echo 'end;'
}

# builds the program, where it isn't there
[ -x "$program" ] || "$top/build" || exit 1

echo "-- turns"
cat >"$place/turns.zpl" <<'END'
program turns;
var i, s : integer;
procedure turns();
begin
  while i < 2500000 do
    s := s + i;
    i := i + 1;
  end;
  writeln(s);
end;
END
echo "ten million turns: $(seconds "$program" run "$place/turns.zpl") seconds"

echo "-- compiling, a hundred runs without a turn"
for count in 200 400 800 1600; do
    assignments "$count" >"$place/long.zpl"
    echo "$count assignments: $(seconds sh -c 'for i in $(seq 100); do "$1" run "$2" turns=0; done' loop "$program" "$place/long.zpl") seconds"
done

echo "-- texts of $size bytes: read, cut into tokens, and refused at the first of them"
filled '' '+' '' >"$place/text.zpl"
row 'plus signs' "$place/text.zpl"
filled '' '..' '' >"$place/text.zpl"
row 'pairs of points' "$place/text.zpl"
filled '' 'a ' '' >"$place/text.zpl"
row 'names of one byte' "$place/text.zpl"
filled '' '0' '' >"$place/text.zpl"
row 'one number of zeros' "$place/text.zpl"
filled '' 'a' '' >"$place/text.zpl"
row 'one name' "$place/text.zpl"
filled '/*' ' ' '*/' >"$place/text.zpl"
row 'one comment' "$place/text.zpl"
filled '"' 'a' '"' >"$place/text.zpl"
row 'one string' "$place/text.zpl"

echo "-- programs of $size bytes: read, cut into tokens, and parsed"
front='program t; var x : integer; procedure t(); begin '
filled "$front" 'x := x + 1; ' 'end;' >"$place/text.zpl"
row 'assignments' "$place/text.zpl"
filled "$front t(1" ',1' '); end;' >"$place/text.zpl"
row 'one call with many actuals' "$place/text.zpl"
filled "$front" 'x:=((((((((((((((((((((1)))))))))))))))))))); ' 'end;' >"$place/text.zpl"
row 'brackets, twenty deep' "$place/text.zpl"
filled "$front" 'if 1<2 then begin x:=-x*x; end; elsif x=2 then else end; ' 'end;' >"$place/text.zpl"
row 'statements in statements' "$place/text.zpl"
filled 'program t; region ' 'R=[1..2,1..2]; ' 'procedure t(); begin end;' >"$place/text.zpl"
row 'regions' "$place/text.zpl"
filled "$front" '[d of R with M] A:=+<<[R] B@[1,2]; ' 'end;' >"$place/text.zpl"
row 'prefixes, reductions and shifts' "$place/text.zpl"

echo "-- the same at a quarter, a half and the whole of that size"
for size in 262144 524288 1048576; do
    filled "$front" 'x := x + 1; ' 'end;' >"$place/text.zpl"
    row "assignments, $size bytes" "$place/text.zpl"
    filled "$front t(1" ',1' '); end;' >"$place/text.zpl"
    row "one call with many actuals, $size bytes" "$place/text.zpl"
done
