#!/bin/bash
# Runs the whole independent test side: run.sh [PROGRAM [COMPACT]]
# PROGRAM is the proved bench program and COMPACT the proved program that makes a log short. The
# reference stands in for one that is left out, so that the tests check themselves. The status is
# not zero if anything fails.

set -euo pipefail

here=$(cd "$(dirname "$0")" && pwd)
release=$here/reference/target/release
reference=$release/bench_reference

# Builds a package of this folder into its own target folder.
build() {
    cargo build --release --offline --quiet \
        --manifest-path "$here/$1/Cargo.toml" --target-dir "$here/$1/target"
}

build reference
build differential
cargo test --offline --quiet \
    --manifest-path "$here/reference/Cargo.toml" --target-dir "$here/reference/target"

program=${1:-$reference}
if [ ! -f "$program" ] || [ ! -x "$program" ]; then
    echo "run.sh: $program is no program" >&2
    exit 1
fi
program=$(cd "$(dirname "$program")" && pwd)/$(basename "$program")
compact=${2:-$release/compact_reference}

"$here/examples/run.sh" "$release/encode" "$program"
"$here/compact.sh" "$compact" "$program"
timeout 60 python3 "$here/hrw/check.py" "$program"
timeout 480 "$here/differential/target/release/differential" "$reference" "$program"
echo "run.sh: all passed for $(basename "$program") and $(basename "$compact")"
