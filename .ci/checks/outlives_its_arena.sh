#!/bin/sh
# A tree that outlives its arena doesn't compile. No edit in must-fail/ can say so, since an edit there has to compile:
# this script puts two such functions into a copy of the crate, and expects the borrow checker to refuse each.
# Run it at the top of the repository: .ci/checks/outlives_its_arena.sh
set -eu

copy=$(mktemp -d)
trap 'rm -rf "$copy"' EXIT
mkdir "$copy/crates"
for crate in zpl_nums zpl_tokens zpl_tree; do
    mkdir "$copy/crates/$crate"
    (cd "crates/$crate" && tar -cf - --exclude=./out .) | (cd "$copy/crates/$crate" && tar -xf -)
done
grep -E '^(zpl_nums|zpl_tokens|zpl_tree):' crates.txt > "$copy/crates.txt"
placing=crates/zpl_tree/src/placing.rt

# $1 is the error that is wanted; the function is read from standard input
refuses() {
    cat "$placing" - > "$copy/$placing"
    if (cd "$copy/crates/zpl_tree" && rt check --only placing) > "$copy/log" 2>&1; then
        echo "not refused: $1" && exit 1
    fi
    grep -q "error\[$1\]" "$copy/log" || { cat "$copy/log"; exit 1; }
    echo "refused: $1"
}

refuses borrow-e0515 <<'RATTLE'

pub fn returned_without_its_arena<'a>(alloc: Global, node: Expr<'a>) -> Option<&'a Expr<'a>> {
    let arena = Bump::new(alloc);
    place_expr(&arena, node).ok()
}
RATTLE

refuses borrow-e0502 <<'RATTLE'

pub fn read_behind_a_reset<'a>(alloc: Global, node: Expr<'a>) -> Option<Expr<'a>> {
    let mut arena = Bump::new(alloc);
    let placed = place_expr(&arena, node).ok()?;
    let _ = arena.reset();
    Some(*placed)
}
RATTLE
