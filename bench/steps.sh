#!/usr/bin/env bash
# steps.sh [LINES]: `run` beside r9's own functions on the same lists, and then the program `steps` beside the oracle's program on one generated file
# of LINES lines (a million if none is said), three times each; the two listings must be the same. docs/SPEED.md keeps the figures.
# Needs the Rust (R9_SRC, from the repository's top, by default ../shared/docs/src/port/src) and cargo.
set -euo pipefail
top=$(cd "$(dirname "$0")/.." && pwd)
fail() { echo "bench/steps.sh: $*" >&2; exit 1; }
lines=${1:-1000000}
rust=${R9_SRC:-../shared/docs/src/port/src}
R9_SRC=$(cd "$top" && cd "$rust" && pwd) || fail "no folder $rust"
export R9_SRC
cd "$top"

work=target/bench-steps
mkdir -p "$work"
./archives.sh step run make verify
./programs.sh steps
for program in oracle differential; do
  (cd $program && cargo build --quiet --release --offline) || fail "$program does not build"
done

differential/target/release/differential bench

oracle/target/release/oracle generate 1 "$lines" >"$work/input"
echo
echo "$lines lines, $(wc -c <"$work/input") bytes; seconds:"
TIMEFORMAT=%R
timed() { { time "$1" <"$work/input" >"$work/$2"; } 2>&1; }
for turn in 1 2 3; do
  echo "steps $(timed crates/steps/out/steps ours), oracle $(timed oracle/target/release/oracle theirs)"
done
cmp "$work/ours" "$work/theirs" || fail "the listings differ"
