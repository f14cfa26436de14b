#!/bin/sh
# Measures turns of listings, as docs/BENCHMARKS.md has it: `benchmarks/turns.sh`, in a clone with Rattle's kit and rustc on the path.
# Each listing is run by the proved program and by the plain simulator beside this script, turn about, so that both meet the same machine.
top=$(cd "$(dirname "$0")/.." && pwd) || exit 1
program=$top/crates/zplgrid/out/zplgrid
place=$(mktemp -d) || exit 1
trap 'rm -rf "$place"' EXIT

# builds the programs, where they aren't there
[ -x "$program" ] || "$top/build" || exit 1
rustc -O -o "$place/plain" "$top/benchmarks/plain_turns.rs" 2>/dev/null || exit 1

# seconds of processor time that a command takes, what it prints left out
seconds() {
    bash -c 'TIMEFORMAT="%U %S"; time "$@" >/dev/null 2>&1' measure "$@" 2>&1 | awk '{ printf "%.3f", $1 + $2 }'
}

# the least of some numbers, one a line
least() {
    sort -n | head -n 1
}

# the times of a listing: the least of five runs of each program; their bytes and counts have to agree
row() {
    "$program" exec "$2" report >"$place/out" 2>"$place/counts"
    "$place/plain" "$2" >"$place/plain_out" 2>"$place/plain_counts"
    cmp -s "$place/out" "$place/plain_out" && cmp -s "$place/counts" "$place/plain_counts" || echo "$1: they differ"
    : >"$place/own"
    : >"$place/other"
    for _ in 1 2 3 4 5; do
        echo "$(seconds "$program" exec "$2")" >>"$place/own"
        echo "$(seconds "$place/plain" "$2")" >>"$place/other"
    done
    awk -v name="$1" -v own="$(least <"$place/own")" -v other="$(least <"$place/other")" '{
        printf "%s: %d turns, %.3f seconds, %.1f million a second; plain %.3f, ratio %.2f\n", name, $2, own, $2 / own / 1000000, other, other / own
    }' "$place/counts"
}

# Jacobi's method on n times n, on four processors, until a turn changes nothing by more than `delta`
jacobi() {
    cat <<END
zplnode 1
grid 2 2
scalars 2
slots 2 2 2 2 2
cells 0
array 0..$(($1 + 1)):1,1 0..$(($1 + 1)):1,1
array 0..$(($1 + 1)):0,0 0..$(($1 + 1)):0,0
text 7475726e7320
text 2c206368616e676520
text 0a
expr n0
expr n1000
expr a0@-1,0 a0@1,0 + a0@0,-1 + a0@0,1 + n4 /
expr n-9223372036854775808
expr a0 a1 - a1 a0 - max
expr a1
expr s1 n1 +
expr s0 n$2 <
expr s1
expr s0
group
put 0 0 - 11
group
put 0 1 - 14
group
put 1 2 - 16
acc 0 max 4 - 17
group
put 0 5 - 18
exchange
item 0 0 -1,0
item 0 0 1,0
item 0 0 0,-1
item 0 0 0,1
code
fix 0 1..$1:1:1 1..$1:1:1
fix 1 0..0:1:0 1..$1:1:1
loop 1 0
fix 2 1..$1:1:1 0..0:1:0
loop 2 0
fix 3 1..$1:1:1 $(($1 + 1))..$(($1 + 1)):1:$(($1 + 1))
loop 3 0
fix 4 $(($1 + 1))..$(($1 + 1)):1:$(($1 + 1)) 1..$1:1:1
loop 4 1
start 0
finish 0
set 0 3 17
loop 0 2
fold 0 max
loop 0 3
set 1 6 19
unless 7 9 20
print 0
number 8
print 1
number 9
print 2
gather number 0 0
end
END
}

jacobi 8 1 >"$place/jacobi8.lst"
row 'Jacobi, 8 by 8' "$place/jacobi8.lst"
# the same two hundred times over: the array and the count of sweeps begin anew each time
sed -e 's/^scalars 2$/scalars 3/' -e 's/^expr s0$/&\nexpr s2 n1 +\nexpr n199 s2 </' -e 's/^fix 0 .*$/&\nloop 0 0\nset 1 0 1/' \
    -e 's/^unless 7 9 20$/unless 7 11 20\nset 2 10 21\nunless 11 0 22/' "$place/jacobi8.lst" >"$place/often.lst"
row 'Jacobi, 8 by 8, two hundred times over' "$place/often.lst"
jacobi 64 2 >"$place/jacobi64.lst"
row 'Jacobi, 64 by 64' "$place/jacobi64.lst"
jacobi 256 20 >"$place/jacobi256.lst"
row 'Jacobi, 256 by 256' "$place/jacobi256.lst"

# each of 64 processors sends to the next one, and the last to the first, two thousand times
cat >"$place/ring.lst" <<END
zplnode 1
grid 64
scalars 1
slots 1
cells 0
array 0..64:1,1
expr a0@-1
expr s0 n1 +
expr s0 n2000 <
group
put 0 0 - 1
exchange
item 0 0 -1
code
fix 0 1..64:1:1
wrap 0 0 -1
start 0
finish 0
loop 0 0
set 0 1 1
unless 2 8 1
jump 1
end
END
row 'a ring of 64 processors' "$place/ring.lst"

cat >"$place/scalars.lst" <<END
zplnode 1
grid 1
scalars 1
slots
cells 0
expr s0 n1 +
expr s0 n3333332 <
code
set 0 0 1
unless 1 3 1
jump 0
end
END
row 'a loop of scalars, ten million turns' "$place/scalars.lst"
