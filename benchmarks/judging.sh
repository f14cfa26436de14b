#!/bin/sh
# Measures how long names, ranks and types take, as docs/BENCHMARKS.md has it: `benchmarks/judging.sh`, in a clone with Rattle's kit on the path.
top=$(cd "$(dirname "$0")/.." && pwd) || exit 1
program=$top/crates/zplgrid/out/zplgrid
place=$(mktemp -d) || exit 1
trap 'rm -rf "$place"' EXIT

# builds the program, where it isn't there
[ -x "$program" ] || (cd "$top/crates/zplgrid" && rt run -- run "$top/examples/sum.zpl") >/dev/null 2>&1
[ -x "$program" ] || exit 1

# the least seconds of processor time of five runs
seconds() {
    for _ in 1 2 3 4 5; do
        bash -c 'TIMEFORMAT="%U"; time "$@" >/dev/null 2>&1' measure "$program" run "$1" 2>&1
    done | sort -n | head -n 1
}

# a program of about a mebibyte: a head, a line over and over, and an end
program_of() {
    awk -v head="$1" -v line="$2" 'BEGIN {
        tail = "end;"
        print head
        for (n = length(head) + 6; n + length(line) < 1048000; n += length(line) + 1) print line
        print tail
    }'
}

# how many procedures or variables, one a line
many() {
    awk -v n="$1" -v front="$2" -v back="$3" 'BEGIN { for (i = 0; i < n; i++) print front i back }'
}

# the time of a whole program, and of one without its last semicolon, which is read, cut into tokens and parsed alone
row() {
    sed '$ s/end;$/end/' "$2" >"$2.cut"
    echo "$1: $(wc -c <"$2") bytes, $(seconds "$2.cut") seconds parsed, $(seconds "$2") seconds judged and bound too ($("$program" run "$2" 2>&1 | head -n 1))"
}

body='procedure t();
begin'
program_of "program t;
var x : integer;
$body" 'x := x + 1;' >"$place/scalars"
row 'assignments of scalars' "$place/scalars"
program_of "program t;
region R = [1..4, 1..4]; direction e = [0,1]; var A, B : [R] integer; P : [R] boolean;
$body" '[R with P] A := A@e + B * 2 + +<< B;' >"$place/arrays"
row 'assignments of arrays' "$place/arrays"
{ printf 'program t;\n'; many 20000 'var v' ' : integer;'; printf '%s\n' "$body"; awk 'BEGIN { for (i = 0; i < 27000; i++) print "v1 := v19999 + v500;" }'; printf 'end;\n'; } >"$place/names"
row '20,000 variables' "$place/names"
{ printf 'program t;\nvar x : integer;\n'; many 24000 'procedure p' '(); begin x := x + 1; end;'; printf 'procedure t(); begin p0(); p23999();\nend;\n'; } >"$place/procedures"
row '24,000 procedures' "$place/procedures"
program_of "program t;
var x : integer;
$(awk 'BEGIN { for (i = 0; i < 30; i++) printf "procedure p%d(); begin p%d(); p%d(); end;\n", i, i + 1, i + 1; print "procedure p30(); begin end;" }')
$body p0(); p0();" 'x := x + 1;' >"$place/calls"
row 'procedures that call the next twice' "$place/calls"
