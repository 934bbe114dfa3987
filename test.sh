#!/bin/sh
# Passes all tests: the second planner, its own tests and the answers that it writes anew; then the proofs, the must-fail edits, the programs, the tests
# and the layout of the crates; and then the program once more, on bad input. It fails where rt ci does, where a must-fail edit no longer fits, and where bad
# input is not met as it should be. The last line is 'N passed, 0 failed'.
set -eu
cd "$(dirname "$(readlink -f "$0")")"

# The second planner needs a Rust compiler, which is no part of Rattle's toolchain.
if ! command -v cargo >/dev/null; then
    apt-get update -q && apt-get install -qy cargo
fi

cargo build --release --offline --quiet --manifest-path second/Cargo.toml
cargo test --offline --quiet --manifest-path second/Cargo.toml
fresh=$(mktemp -d)
trap 'rm -rf "$fresh"' EXIT
second/target/release/scripts >"$fresh/stdin"
cmp "$fresh/stdin" crates/planner/stdin
second/target/release/second <crates/planner/stdin >"$fresh/stdout"
cmp "$fresh/stdout" crates/planner/stdout
echo "the second planner's answers are those that are stored: $(wc -l <crates/planner/stdout) lines"

# A pipe has the status of its last command, so that of rt ci is kept in a file.
{ rt ci 2>&1 && echo passed >"$fresh/passed"; } | tee "$fresh/log"
test -e "$fresh/passed"
# rt ci counts an edit that cannot be applied or read as bad and passes all the same.
if ! grep -q '^rt: ok' "$fresh/log" || grep '^rt: ok.*, [0-9]* bad' "$fresh/log"; then
    echo "a must-fail edit no longer fits the text" >&2
    exit 1
fi

# The programs that rt ci leaves, as LLVM and as Rattle's own compiler built them, are attacked; nothing is printed where all is met.
for program in crates/planner/out/planner crates/planner/out/planner.by-rattle; do
    if ! second/target/release/attack "$program" crates/planner/stdin >"$fresh/attacked" 2>&1; then
        cat "$fresh/attacked" >&2
        exit 1
    fi
done
