#!/bin/sh
# Counts what each optimisation saves, as docs/BENCHMARKS.md has it: `benchmarks/letters.sh`, in a clone with Rattle's kit on the path.
top=$(cd "$(dirname "$0")/.." && pwd) || exit 1
program=${PROGRAM:-$top/crates/zplgrid/out/zplgrid}

# builds the program, where it isn't there
[ -x "$program" ] || (cd "$top/crates/zplgrid" && rt run -- run "$top/examples/sum.zpl") >/dev/null 2>&1
[ -x "$program" ] || exit 1

# the counts of a run, as `turns / sends / words`
counts() {
    "$program" run "$@" report 2>&1 >/dev/null | awk '/^turns/ { print $2 " / " $4 " / " $6; found = 1 }
        END { if (!found) print "none" }'
}

letters="f c r m e t fcrmet"
printf '| Program, grid | none |'
for each in $letters; do printf ' `%s` |' "$each"; done
printf '\n|---|---|'
for each in $letters; do printf -- '---|'; done
printf '\n'
for file in "$top"/examples/*.zpl; do
    for grid in 1 2x2 4x4; do
        printf '| `%s`, %s | %s |' "$(basename "$file" .zpl)" "$grid" "$(counts "$file" "grid=$grid")"
        for each in $letters; do
            printf ' %s |' "$(counts "$file" "grid=$grid" "opt=$each")"
        done
        printf '\n'
    done
done
