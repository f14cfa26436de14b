#!/bin/sh
# Tries all edits of the crates that are named, or of every crate: `.ci/all_edits.sh [NAME ..]`. The gate tries those in
# crates/NAME/must-fail alone, which tell most; the others stand in crates/NAME/edits. Each has to be refused.
# It works on a copy of the clone's files, so nothing changes here. Each crate is proved once more first: give names where a few will do.
top=$(cd "$(dirname "$0")/.." && pwd) || exit 1
place=$(mktemp -d) || exit 1
trap 'rm -rf "$place"' EXIT
cd "$top" || exit 1
git ls-files -z --cached --others --exclude-standard | xargs -0 cp --parents -t "$place" || exit 1
cd "$place" || exit 1
for folder in crates/*/edits; do
    [ -d "$folder" ] || continue
    mkdir -p "$(dirname "$folder")/must-fail"
    mv "$folder"/*.edit "$(dirname "$folder")/must-fail/" || exit 1
done
rt must-fail "$@"
