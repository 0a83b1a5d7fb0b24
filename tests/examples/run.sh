#!/bin/sh
# Checks the examples: run.sh ENCODE PROGRAM
# Each examples/NAME.txt goes through ENCODE into PROGRAM; the output must be NAME.out.

set -u
if [ $# -ne 2 ]; then
    echo "usage: run.sh ENCODE PROGRAM" >&2
    exit 1
fi
encode=$1
program=$2
examples=$(cd "$(dirname "$0")/../../examples" && pwd) || exit 1
work=$(mktemp -d) || exit 1
trap 'rm -rf "$work"' EXIT

count=0
failed=0
for text in "$examples"/*.txt; do
    name=$(basename "$text" .txt)
    count=$((count + 1))
    if ! "$encode" "$text" > "$work/records"; then
        echo "examples: $name cannot be encoded"
        failed=$((failed + 1))
        continue
    fi
    "$program" < "$work/records" > "$work/output"
    if ! diff "$examples/$name.out" "$work/output"; then
        echo "examples: $name DIFFERS (expected <, got >)"
        failed=$((failed + 1))
    fi
done
echo "examples: $count checked, $failed differences"
[ "$count" -gt 0 ] && [ "$failed" -eq 0 ]
