#!/bin/sh
# Compares the proved program with the second planner on fresh rows at random: ./compare.sh [--seed N] [--rows N]; --help tells all.
# Without --planner PROGRAM the program is proved and built first, as plan.sh does.
set -eu
top=$(dirname "$(readlink -f "$0")")
cargo build --release --offline --quiet --manifest-path "$top/second/Cargo.toml" >&2
compare() { "$top/second/target/release/compare" --into "$top/second/target" "$@"; }
status=0
compare "$@" || status=$?
# 3: the words are in order, and no program is named.
if [ "$status" = 3 ]; then
    (cd "$top/crates/planner" && rt run </dev/null) >&2
    status=0
    compare --planner "$top/crates/planner/out/planner" "$@" || status=$?
fi
exit "$status"
