#!/bin/sh
# Measures how many moves a second are timed, as docs/BENCHMARKS.md has it: `benchmarks/times.sh`, in a clone with Rattle's kit on the path.
top=$(cd "$(dirname "$0")/.." && pwd) || exit 1
program=${PROGRAM:-$top/crates/zplgrid/out/zplgrid}
place=$(mktemp -d) || exit 1
trap 'rm -rf "$place"' EXIT

# builds the program, where it isn't there
[ -x "$program" ] || (cd "$top/crates/zplgrid" && rt run -- run "$top/examples/sum.zpl") >/dev/null 2>&1
[ -x "$program" ] || exit 1

# the least seconds of processor time of five calls
seconds() {
    for _ in 1 2 3 4 5; do
        bash -c 'TIMEFORMAT="%U"; time "$@" >/dev/null 2>&1' measure "$program" "$@" 2>&1
    done | sort -n | head -n 1
}

# the plate of examples/jacobi.zpl on a grid: how long its code runs, and how long that is timed
row() {
    "$program" list "$top/examples/jacobi.zpl" grid="$1" size:="$2" slack:="$3" >"$place/plate.lst"
    moves=$("$program" time "$place/plate.lst" 2>/dev/null | sed -n 's/^moves \([0-9]*\) .*/\1/p')
    run=$(seconds exec "$place/plate.lst")
    timed=$(seconds time "$place/plate.lst")
    echo "$1, size $2: $moves moves; run $run s, timed $timed s" |
        awk -v moves="$moves" -v run="$run" -v timed="$timed" '{ printf "%s: %d moves a second, %.1f times as long as the run\n", $0, moves / timed, timed / run }'
}

row 1 60 3
row 2x2 50 2
row 8x8 100 5
