#!/bin/sh
# Measures how long programs take to be compiled, as docs/BENCHMARKS.md has it: `benchmarks/compiling.sh`, in a clone with Rattle's kit on the path.
top=$(cd "$(dirname "$0")/.." && pwd) || exit 1
program=${PROGRAM:-$top/crates/zplgrid/out/zplgrid}
place=$(mktemp -d) || exit 1
trap 'rm -rf "$place"' EXIT

# builds the program, where it isn't there
[ -x "$program" ] || (cd "$top/crates/zplgrid" && rt run -- run "$top/examples/sum.zpl") >/dev/null 2>&1
[ -x "$program" ] || exit 1

# the least seconds of processor time of seven runs with these words, each cut short behind its first turn
seconds() {
    for _ in 1 2 3 4 5 6 7; do
        bash -c 'TIMEFORMAT="%U"; time "$@" >/dev/null 2>&1' measure "$program" run "$@" turns=1 2>&1
    done | sort -n | head -n 1
}

# a program with so many times two assignments of arrays
arrays() {
    awk -v count="$1" 'BEGIN {
        print "program t; region R = [1..64, 1..64]; W = [0..65, 0..65]; direction e = [0, 1]; w = [0, -1]; var A, B : [W] integer;"
        print "procedure t(); begin [W] A := Index1; [W] B := Index2;"
        for (n = 0; n < count; n += 1) print "[R] A := A@e + B; [R] B := A * 2 - B@w;"
        print "end;"
    }' >"$place/arrays$1.zpl"
    echo "$place/arrays$1.zpl"
}

# a program of so many assignments of scalars
scalars() {
    awk -v count="$1" 'BEGIN {
        printf "program t; var x : integer; procedure t(); begin "
        for (n = 0; n < count; n += 1) printf "x := x + 1; "
        print "end;"
    }' >"$place/scalars$1.zpl"
    echo "$place/scalars$1.zpl"
}

# nearly a mebibyte
long() {
    awk 'BEGIN {
        print "program t; region R = [1..64, 1..64]; W = [0..65, 0..65]; direction east = [0, 1]; var Alpha, Beta : [W] integer;"
        print "procedure t(); begin [W] Alpha := Index1; [W] Beta := Index2;"
        for (n = 0; n < 18000; n += 1) print "[R] Alpha :=   Alpha@east + Beta;   -- a line of 54 bytes"
        print "end;"
    }' >"$place/long.zpl"
    echo "$place/long.zpl"
}

ratio() {
    awk -v one="$1" -v other="$2" 'BEGIN { printf "%.2f", one / other }'
}

half=$(seconds "$(arrays 4998)" grid=1)
whole=$(seconds "$(arrays 9996)" grid=1)
wide=$(seconds "$(arrays 9996)" grid=8x8)
half_lettered=$(seconds "$(arrays 4998)" grid=8x8 opt=fcrmet)
lettered=$(seconds "$(arrays 9996)" grid=8x8 opt=fcrmet)
few=$(seconds "$(scalars 5000)" grid=2)
many=$(seconds "$(scalars 20000)" grid=2)
mebibyte=$(seconds "$(long)" grid=2x2)
echo "9,998 statements over arrays: $half s; 19,994: $whole s, $(ratio "$whole" "$half") times as long; for 64 processors: $wide s, $(ratio "$wide" "$whole") times as long"
echo "with all letters for 64 processors: $half_lettered s; $lettered s, $(ratio "$lettered" "$half_lettered") times as long as the half, $(ratio "$lettered" "$wide") times as long as without letters"
echo "5,000 statements over scalars: $few s; 20,000: $many s, $(ratio "$many" "$few") times as long"
echo "a source of $(wc -c <"$place/long.zpl") bytes: $mebibyte s"
