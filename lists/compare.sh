#!/usr/bin/env bash
# Runs the oracle on every list and compares with the kept listing; fails at the first that differs.
set -euo pipefail
cd "$(dirname "$0")"
export LC_ALL=C
oracle=../oracle/target/release/oracle

fail() { echo "lists/compare.sh: $1" >&2; exit 1; }

[ -x "$oracle" ] || fail "the oracle is not built: cargo build --release --offline in oracle/"
[ -f sizes.txt ] || fail "no sizes.txt"

# The oracle's arguments for the sizes of list $1.
sizes() { awk -v name="$1" '$1 == name { print "-s", $2 }' sizes.txt; }

compared=0
for steps in *.steps; do
    [ -f "$steps" ] || fail "no lists"
    name=${steps%.steps}
    "$oracle" $(sizes "$name") < "$steps" | cmp -s - "$name.listing" || fail "the Rust gives another listing for $steps"
    compared=$((compared + 1))
done
echo "lists: $compared listings are what the Rust gives"
