#!/bin/bash
# Compares programs that make a log short: compact.sh [COMPACT [BENCH]]
# COMPACT is the proved program `compact` and BENCH the proved bench program, which plays the logs. The
# reference stands in for one that is left out, so that the tests check themselves. The status is
# not zero if anything fails.

set -euo pipefail

here=$(cd "$(dirname "$0")" && pwd)
release=$here/reference/target/release
compact=${1:-$release/compact_reference}
bench=${2:-$release/bench_reference}

for package in reference differential; do
    cargo build --release --offline --quiet \
        --manifest-path "$here/$package/Cargo.toml" --target-dir "$here/$package/target"
done
for program in "$compact" "$bench"; do
    if [ ! -f "$program" ] || [ ! -x "$program" ]; then
        echo "compact.sh: $program is no program" >&2
        exit 1
    fi
done

timeout 150 "$here/differential/target/release/differential" \
    --compact "$release/compact_reference" "$(realpath "$compact")" "$(realpath "$bench")"
