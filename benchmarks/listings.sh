#!/bin/sh
# Measures reading and writing of listings, as docs/BENCHMARKS.md has it: `benchmarks/listings.sh`, in a clone with Rattle's kit on the path.
top=$(cd "$(dirname "$0")/.." && pwd) || exit 1
program=$top/crates/relist/out/relist
place=$(mktemp -d) || exit 1
trap 'rm -rf "$place"' EXIT

# builds the program, where it isn't there
[ -x "$program" ] || (cd "$top/crates/relist" && rt run) >/dev/null 2>&1
[ -x "$program" ] || exit 1

# seconds of processor time that reading a listing and writing it again takes
seconds() {
    bash -c 'TIMEFORMAT="%U %S"; time "$@" >/dev/null 2>&1' measure "$program" "$1" 2>&1 | awk '{ printf "%.3f", $1 + $2 }'
}

# the time of one run of a listing, its size, and what is told of it where it is refused
row() {
    told=$("$program" "$2" 2>&1 >/dev/null | head -c 60)
    "$program" "$2" 2>/dev/null | cmp -s - "$2" && told="written back to the byte"
    echo "$1: $(wc -c <"$2") bytes, $(seconds "$2") seconds ($told)"
}

# a head for one processor, with so many slots, and then what is read here
listing() {
    printf 'zplnode 1\ngrid 1\nscalars 1\nslots\ncells 1\n'
    cat
}

# a line over and over
lines() {
    awk -v n="$2" -v line="$1" 'BEGIN { for (i = 0; i < n; i++) print line }'
}

# a word over and over
words() {
    awk -v n="$2" -v word="$1" 'BEGIN { for (i = 0; i < n; i++) printf " %s", word }'
}

for count in 400000 800000 1600000; do
    { printf 'expr s0\ncode\n'; lines 'set 0 0 7' "$count"; } | listing >"$place/code.lst"
    row "$count instructions" "$place/code.lst"
done
{ lines 'expr s0 n1 +' 1000000; printf 'code\nend\n'; } | listing >"$place/exprs.lst"
row 'a million expressions' "$place/exprs.lst"
{ printf 'text '; head -c 8388000 /dev/zero | od -An -v -tx1 | tr -d ' \n'; printf '\ncode\nend\n'; } | listing >"$place/text.lst"
row 'one text' "$place/text.lst"
{ printf 'expr n1'; words 'n1 +' 3300000; printf '\ncode\nend\n'; } | listing >"$place/expr.lst"
row 'one expression' "$place/expr.lst"
{ printf 'expr n1\ngroup\n'; lines 'if 0 - 1' 100000; lines 'fi' 100000; printf 'code\nend\n'; } | listing >"$place/nest.lst"
row 'members, 100,000 deep' "$place/nest.lst"
{ printf 'expr n1\ngroup\n'; lines 'if 0 - 1' 100000; lines 'fi' 99999; printf 'code\nend\n'; } | listing >"$place/open.lst"
row 'one of them left open' "$place/open.lst"
head -c 16777216 /dev/zero | tr '\0' 'a' >"$place/line.lst"
row 'one line without a form' "$place/line.lst"
{ lines 'text' 1000000; } | listing >"$place/formless.lst"
row 'a million lines, the sixth without a form' "$place/formless.lst"
