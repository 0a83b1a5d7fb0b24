#!/usr/bin/env bash
# Checks ./run at the top, with the programs that are built: play.sh
# What it prints, from any directory; what it says when something is wrong; and, in a copy with a prover and a compiler that only hand over what is built,
# that it builds what is missing. The copy makes texts short too, by the reference if the proved program for it is not built.
set -euo pipefail
top=$(cd "$(dirname "$0")/.." && pwd)
work=$(mktemp -d)
trap 'rm -rf "$work"' EXIT
cd "$work"

fail() {
    echo "play: $*" >&2
    cat "$work/err" >&2
    exit 1
}

# Runs a command, its output kept in out and err.
kept() { "$@" > "$work/out" 2> "$work/err"; }

# A command must fail, print nothing, and say something on standard error.
refused() {
    if kept "$@"; then fail "$* succeeds"; fi
    [ ! -s "$work/out" ] || fail "$* prints"
    [ -s "$work/err" ] || fail "$* says nothing"
}

for text in "$top"/examples/*.txt; do
    cp "$text" text
    kept "$top/run" text || fail "$text fails"
    cmp -s out "${text%.txt}.out" || fail "$text prints otherwise"
done
kept "$top/run" || fail "without a file it fails"
cmp -s out "$top/examples/flapping.out" || fail "without a file it prints otherwise"
grep -q usage err || fail "without a file it does not say how it is used"

refused "$top/run" nowhere
refused "$top/run" text text
refused "$top/run" --compact
refused "$top/run" --compact nowhere
refused "$top/run" --compact text text
refused "$top/run" --shorter text
printf 'plate 00:11:22:33:44:55:66:77:88:99\nannounce nobody\n' > wrong
refused "$top/run" wrong
grep -q 'line 2' err || fail "a wrong line is not named"

# a copy in which nothing is built
mkdir -p copy/crates/bench copy/crates/compact copy/tests/reference/src bin
cp -r "$top/run" "$top/crates.txt" "$top/examples" copy
touch copy/tests/reference/Cargo.toml
release=$top/tests/reference/target/release
compact=$top/crates/compact/out/compact
[ -x "$compact" ] || compact=$release/compact_reference
cat > bin/rt <<EOF
#!/bin/sh
mkdir -p out
case "\${PWD##*/} \$*" in
    "bench run") cp "$top/crates/bench/out/bench" out && out/bench ;;
    "compact run") cp "$compact" out/compact && out/compact ;;
    *) exit 1 ;;
esac
EOF
cat > bin/cargo <<EOF
#!/bin/sh
mkdir -p copy/tests/reference/target/release && cp "$release/encode" "$release/decode" copy/tests/reference/target/release
EOF
printf '#!/bin/sh\nexit 1\n' > bin/no
chmod +x bin/*
PATH=$work/bin:$PATH
kept copy/run || fail "a copy in which nothing is built fails"
cmp -s out "$top/examples/flapping.out" || fail "a copy in which nothing is built prints otherwise"
[ "$(grep -c building err)" = 2 ] || fail "it does not say what it builds"
kept copy/run && ! grep -q building err || fail "it builds again what is built"

# a long evening made short: what is printed is a text again, which goes on as the long one does, and made short it is the same
evening=$top/examples/long-evening
kept copy/run --compact "$evening.txt" || fail "a text is not made short"
grep -q building err || fail "it does not say that it builds what makes a text short"
cmp -s out "$evening-short.txt" || fail "a text is made short otherwise"
kept copy/run --compact "$evening.txt" && [ ! -s err ] || fail "it builds again what makes a text short"
kept copy/run --compact "$evening-short.txt" && cmp -s out "$evening-short.txt" || fail "a short text is made shorter"
printf 'query 7\nannounce 10.0.0.1 alg=2 pref=200 dp\nquery 7\nwithdraw 2001:db8::3\nquery 7\n' > more
for name in long-evening long-evening-short; do
    cat "$top/examples/$name.txt" more > text
    kept copy/run text || fail "$name fails where it goes on"
    tail -n +"$(($(wc -l < "$top/examples/$name.out") + 1))" out > "$name"
done
[ "$(wc -l < long-evening)" = 5 ] && cmp -s long-evening long-evening-short || fail "a short text goes on otherwise"
printf '# nothing\n' > nothing
kept copy/run --compact nothing && [ ! -s out ] && [ ! -s err ] || fail "a text without a record is not made short"
refused copy/run --compact "$top/examples/damaged-scan.txt"
grep -q 'not made short' err || fail "a text with a bad record is not told"
refused copy/run --compact "$top/examples/dirty-plate.txt"
grep -q 'not made short' err || fail "a text with a refused plate is not told"
refused copy/run --compact wrong
grep -q 'line 2' err || fail "a wrong line is not named"

touch -d '+1 minute' copy/crates.txt
cp bin/no bin/rt
refused copy/run
refused copy/run --compact "$evening.txt"
echo "play: all passed"
