#!/usr/bin/env bash
# Builds the archives of the proved calls, which programs in Rust link: archives.sh [--after-ci]
# Each static library of crates.txt is one: NAME is built into crates/NAME/out/libNAME.a, by `rt lib`. That takes the libraries below it from what checks have built here, and proves those that are not
# built. `rt ci` leaves none that `rt lib` takes, but each with its statements and its code. So with --after-ci, just after `rt ci` has passed here, rattle itself builds the archives over those,
# unless some of them are of another command: only what one run left fits together.
set -euo pipefail
cd "$(dirname "$0")/.."
. tools/words.sh

said=$(mktemp)
trap 'rm -f "$said"' EXIT

# Builds an archive over what `rt ci` left, if all of it is there.
over_proved() {
    words_for "$1"
    for dep in "${below[@]}"; do
        [ -d "crates/$dep/out/rlib/$dep.rlib" ] && [ ! -e "crates/$dep/out/rlib/stamp" ] || return 1
    done
    mkdir -p "crates/$1/out"
    (cd "crates/$1" && "$kit/bin/rattle" build "${words[@]}" --toolchain "$kit/toolchain" --backend llvm -o "out/lib$1.a")
}

for crate in $(sed -n 's/^\([a-z0-9_]*\) staticlib:.*/\1/p' crates.txt); do
    rm -f "crates/$crate/out/lib$crate.a"
    if [ "${1:-}" != --after-ci ] || ! over_proved "$crate" > "$said" 2>&1; then
        (cd "crates/$crate" && rt lib) > "$said" 2>&1 || { cat "$said" >&2; echo "archives: $crate was not built" >&2; exit 1; }
    fi
done
echo "archives: all built"
