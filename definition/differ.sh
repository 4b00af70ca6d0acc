#!/usr/bin/env bash
# differ.sh [LISTS [STEPS [SEED]]]: the definition against the Rust, by computation.
#
# Makes LISTS lists (default 320) of STEPS steps (default 80) from seeds SEED, SEED + 1, .. (default 1), over several sizes in turn;
# has the oracle run the real Rust on each; and has the proof checker compute the definition on all of them and compare the
# listings byte by byte. Names each list on which they differ, by its seed and sizes, and fails; fails also where an answer or a
# number that can arise did not arise: then take more lists or longer ones.
set -euo pipefail
here=$(cd "$(dirname "$0")" && pwd)
fail() { echo "definition/differ.sh: $*" >&2; exit 1; }
[ $# -le 3 ] || fail "usage: differ.sh [LISTS [STEPS [SEED]]]"
lists=${1-320}
steps=${2-80}
seed=${3-1}
for number in "$lists" "$steps" "$seed"; do
  [[ $number =~ ^[1-9][0-9]{0,8}$ ]] || fail "LISTS, STEPS and SEED are whole numbers from 1 to 999999999, not '$number'"
done
oracle=$here/../oracle/target/release/oracle
[ -x "$oracle" ] || fail "the oracle is not built: cargo build --release --offline in oracle/"

# the sizes of `steps`; the smallest records and cells; odd sizes at a low, a high and the highest frequency
sizes=(16,16,16,16,256,1000000 2,1,1,2,1,1000000 5,3,2,4,3,1000 4,2,2,3,2,4294967295)
work=$(mktemp -d)
trap 'rm -rf "$work"' EXIT
cd "$work"
pairs=()
for ((i = 0; i < lists; i++)); do
  size=${sizes[$((i % ${#sizes[@]}))]}
  name=seed-$((seed + i))-at-$size
  "$oracle" generate -s "$size" $((seed + i)) "$steps" >"$name.steps" || fail "no list from seed $((seed + i)) at $size"
  "$oracle" -s "$size" <"$name.steps" >"$name.listing" || fail "the oracle failed on seed $((seed + i)) at $size"
  pairs+=(-s "$size" "$name.steps" "$name.listing")
done
"$here/arose.sh" ./*.listing
"$here/check.sh" "${pairs[@]}"
