#!/usr/bin/env bash
# Checks README.md and crates.txt against the crates: documents.sh
# Every definition in README's table of RFC sections stands in a file that its row names; every crate with definitions is named in README; every crate has a
# line of its own above it in crates.txt.
set -euo pipefail
cd "$(dirname "$0")/.."
failed=0
fail() {
    echo "documents: $*" >&2
    failed=1
}

# The words of a table's cell that stand between backquotes.
quoted() { grep -o '`[^`]*`' <<< "$1" | tr -d '`'; }

rows=0
while IFS='|' read -r _ section _ names files _; do
    rows=$((rows + 1))
    mapfile -t paths < <(quoted "$files" | sed 's|^|crates/|')
    for name in $(quoted "$names"); do
        grep -qsE "pub (abbrev |unfoldable |data |record )?$name " "${paths[@]}" || fail "RFC$section: $name does not stand in ${paths[*]}"
    done
done < <(sed -n '/^| RFC, section/,/^$/p' README.md | sed '1,2d; /^$/d')
[ "$rows" -gt 0 ] || fail "README.md has no table of RFC sections"

for folder in crates/*/specs; do
    crate=$(basename "$(dirname "$folder")")
    grep -q "\`$crate\`" README.md || fail "README.md does not name $crate, which has definitions"
done
while read -r crate; do
    grep -EB1 "^$crate( staticlib)?:" crates.txt | head -n 1 | grep -q '^# ' || fail "crates.txt has no line on $crate"
done < <(sed -En 's/^([a-z0-9_]+)( staticlib)?:.*/\1/p' crates.txt)

[ "$failed" = 0 ] && echo "documents: $rows rows, all right"
