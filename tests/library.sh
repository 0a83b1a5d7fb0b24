#!/usr/bin/env bash
# Compares the calls of the library, as the static libraries of crates.txt hand them over, with the reference, call by call: library.sh [--after-ci]
# With --after-ci the archives are built over what `rt ci` has just proved here (`archives.sh`).
# So the calls that no bench record makes are compared too: the returning router, ready lists over 64, with both families, with rows that are no address and
# words that are no row, routes and lists of any length; the Ethernet A-D routes, with the whole state after each call, and the election over both tables; the
# elections by multicast flow, with the whole state after each call, and the numbers set for them; the ranges of tags that override Highest or Lowest, with the
# whole state after each call, and elections of every kind at their ends; the second in line by a ready list and over both tables, with every refusal in its order,
# and that it is the one elected once the forwarder is withdrawn, and by a list of candidates kept as records; searches through two dumps of records, with where the
# record lies; tables written out as records, with the whole buffer.
# The baselines of benchmarks/ are held against the reference in the same way. Elections by flow are also compared with a computation in Python.
set -euo pipefail
cd "$(dirname "$0")/.."
tests/archives.sh "$@"
cargo test --offline --quiet --manifest-path benchmarks/Cargo.toml --target-dir benchmarks/target --test oracle
cargo build --offline --quiet --manifest-path benchmarks/Cargo.toml --target-dir benchmarks/target --bin flow_driver
for side in proved array list; do
    timeout 60 python3 tests/hrw/check_flows.py benchmarks/target/debug/flow_driver "$side"
done
echo "library: all passed"
