#!/bin/sh
# Runs the planner on a site script, or on standard input: ./plan.sh [--help | FILE].
# The program is proved and built first, on no input, which takes some minutes once and seconds later; what that says comes on standard error.
set -eu
top=$(dirname "$(readlink -f "$0")")
if ! command -v rt >/dev/null; then
    echo "plan.sh: there is no command rt: Rattle's toolchain, which proves and builds the planner, is not here" >&2
    exit 1
fi
(cd "$top/crates/planner" && rt run </dev/null) >&2
exec "$top/crates/planner/out/planner" "$@"
