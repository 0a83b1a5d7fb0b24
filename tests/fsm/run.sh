#!/bin/bash
# Compares the proved state machine with the second one: run.sh [DRIVER]
# DRIVER is the proved driver, by default the one that `rt run` or `rt ci` built. The status is not zero on a difference.

set -euo pipefail

here=$(cd "$(dirname "$0")" && pwd)
driver=${1:-$here/../../crates/fsm_driver/out/fsm_driver}
if [ ! -f "$driver" ] || [ ! -x "$driver" ]; then
    echo "run.sh: $driver is no program: run 'rt run' in crates/fsm_driver first" >&2
    exit 1
fi

cargo build --release --offline --quiet --manifest-path "$here/Cargo.toml" --target-dir "$here/target"
timeout 150 "$here/target/release/fsm_compare" "$driver"
