#!/usr/bin/env bash
# lists/replay.sh: the program `replay` on every fixed list, the listing of docs/STEPS.md (001) and the 129 exits (031, 032) among them: what the
# code does is compared line by line with the listing that is kept. Builds the program, proving what it needs.
set -euo pipefail
cd "$(dirname "$0")/.."
fail() { echo "lists/replay.sh: $1" >&2; exit 1; }

mkdir -p target
./programs.sh replay >&2 || fail "replay is not proved"
words=()
for steps in lists/*.steps; do
  name=$(basename "$steps" .steps)
  size=$(awk -v name="$name" '$1 == name { print $2 }' lists/sizes.txt)
  words+=("${size:-16,16,16,16,256,1000000}" "$steps" "lists/$name.listing")
done
said=$(crates/replay/out/replay "${words[@]}")
echo "$said"
[ "$said" = "replay: listings that agree: $((${#words[@]} / 3))" ] || fail "not every listing agrees"

# says AGREED SENTENCE ARGUMENT..: replay with these arguments must say that sentence, if any, then how many agree, and nothing else
says() {
  local must="${2:+replay: $2
}replay: listings that agree: $1"
  said=$(crates/replay/out/replay "${@:3}" 2>/dev/null)
  [ "$said" = "$must" ] || fail "replay ${*:3} must say '$must' and says '$said'"
}
list=(16,16,16,16,256,1000000 lists/001-listing-example.steps)
kept=lists/001-listing-example.listing
work=target/replay
mkdir -p $work

# a listing with one byte changed, in line 4; files that are missing, empty, a folder or too long; sizes out of range; a rest of arguments
sed '4s/run 1/run 2/' $kept >$work/changed.listing
says 0 "${list[1]}: another listing, from line 4" "${list[@]}" $work/changed.listing
rm -f $work/none
says 0 "$work/none: cannot be read whole" "${list[0]}" $work/none $kept
says 1 "$work/none: cannot be read whole" "${list[@]}" $kept "${list[@]}" $work/none
head -n 1 $kept >$work/header.listing
says 0 "$work/none: cannot be read whole" "${list[0]}" $work/none $work/header.listing
says 0 "$work: cannot be read whole" "${list[0]}" $work $work/header.listing
: >$work/empty
says 1 "" "${list[0]}" $work/empty $work/header.listing
says 0 "$work/empty: another listing, from line 2" "${list[0]}" $work/empty $kept
{ cat $kept; head -c 300000 /dev/zero; } >$work/long
says 0 "$work/long: cannot be read whole" "${list[@]}" $work/long
says 0 "0,16,16,16,256,1000000: no sizes of a state, or too large" 0,16,16,16,256,1000000 "${list[1]}" $kept
says 1 "${list[0]}: arguments come in threes" "${list[@]}" $kept "${list[@]}"
