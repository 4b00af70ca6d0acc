#!/usr/bin/env bash
# coverage.sh [-q]: prints how often each step, answer and number occurs over
# all lists, with -q only that all do, and fails where one that can arise is
# missing.
set -euo pipefail
cd "$(dirname "$0")"
export LC_ALL=C
oracle=../oracle/target/release/oracle

fail() { echo "lists/coverage.sh: $1" >&2; exit 1; }

[ $# -eq 0 ] || [ "$*" = -q ] || fail "usage: coverage.sh [-q]"
[ -x "$oracle" ] || fail "the oracle is not built: cargo build --release --offline in oracle/"

counts=$("$oracle" coverage ./*.steps) # says itself what is missing
if [ $# -eq 0 ]; then
    printf '%s\n' "$counts"
else
    echo "lists: every step, answer and number occurs, each number with every step that can meet it"
fi
