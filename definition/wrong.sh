#!/usr/bin/env bash
# wrong.sh: whether `Demand3` (docs/MACHINE.md, "Places", "Waiting") rules out each wrong machine in definition/wrong.
#
# For each NAME.txt there, the edit crates/machine/must-fail/NAME.edit is made in a copy of the definition, and the proof checker must accept
# NAME.txt between Head.txt and Tail.txt: that `Demand3`, as it is stated (crates/history/specs/Demand3.antt), fails for the machine so edited at
# a list of steps. The tables of examples and the laws of the definition are left out of the copy. Before that, the checker must not accept
# the same of the machine as it is. Says in one line how many were ruled out; names the first that was not, and fails.
set -euo pipefail
top=$(cd "$(dirname "$0")/.." && pwd)
wrong=$top/definition/wrong
edits=$top/crates/machine/must-fail

fail() { echo "definition/wrong.sh: $*" >&2; exit 1; }
command -v rt >/dev/null 2>&1 || fail "the toolchain's command rt is not installed"

work=$(mktemp -d)
trap 'rm -rf "$work"' EXIT

# the definition and the statement of `Demand3`, alone
prepare() {
  local crate part module
  mkdir -p "$work/crates/history/specs" "$work/crates/history/proofs"
  for crate in memory clock machine; do
    mkdir "$work/crates/$crate"
    for part in src specs proofs; do
      [ ! -d "$top/crates/$crate/$part" ] || cp -r "$top/crates/$crate/$part" "$work/crates/$crate/"
    done
  done
  rm -r "$work/crates/machine/proofs"
  for module in Unlisted Starred; do
    rm "$work/crates/machine/specs/$module.antt"
    sed -i "/^pub mod $module\$/d" "$work/crates/machine/specs/Lib.antt"
  done
  cp -r "$top/crates/history/src" "$work/crates/history/src"
  cp "$top/crates/history/proofs/Stays.antt" "$work/crates/history/proofs/"
  for module in History Demand3; do
    cp "$top/crates/history/specs/$module.antt" "$work/crates/history/specs/"
    echo "pub mod $module" >>"$work/crates/history/specs/Lib.antt"
  done
  printf '%s\n' "memory:" "clock:" "machine: memory clock" "history: machine clock memory" >"$work/crates.txt"
}

# place NAME..: the refutations of these machines stand in the copy, and no other
place() {
  local name
  rm -f "$work"/crates/history/proofs/Wrong_*.antt
  echo "pub mod Stays" >"$work/crates/history/proofs/Lib.antt"
  for name in "$@"; do
    cat "$wrong/Head.txt" "$wrong/$name.txt" "$wrong/Tail.txt" >"$work/crates/history/proofs/Wrong_$name.antt"
    echo "pub mod Wrong_$name" >>"$work/crates/history/proofs/Lib.antt"
  done
}

# change EDIT: the one place that the edit names, which must be there once; `changed` is the file
change() {
  local old new text
  changed=$(sed -n 's/^file: //p' "$1")
  old=$(sed -n 's/^old: //p' "$1")
  new=$(sed -n 's/^new: //p' "$1")
  text=$(cat "$work/crates/machine/$changed")
  [ -n "$old" ] && [ "$(grep -cF -- "$old" <<<"$text")" -eq 1 ] || fail "$(basename "$1"): what it replaces is not there once"
  printf '%s\n' "${text/"$old"/"$new"}" >"$work/crates/machine/$changed"
}

# whether the checker accepts the copy
accepted() { (cd "$work/crates/history" && rt check) >"$work/out" 2>&1; }

names=()
for theorem in "$wrong"/*.txt; do
  name=$(basename "$theorem" .txt)
  [ "$name" != Head ] && [ "$name" != Tail ] || continue
  [ -f "$edits/$name.edit" ] || fail "no edit $name"
  names+=("$name")
done
[ ${#names[@]} -gt 0 ] || fail "no wrong machines in definition/wrong"

prepare
place "${names[@]}"
! accepted || fail "the same is accepted of the machine as it is"
other=$(grep error "$work/out" | grep -vm1 /Wrong_ || true)
[ -z "$other" ] || fail "the copy is not accepted: $other"
for name in "${names[@]}"; do
  grep -q "/Wrong_$name.antt:.*error" "$work/out" || fail "$name: the same is accepted of the machine as it is"
done

for name in "${names[@]}"; do
  place "$name"
  change "$edits/$name.edit"
  accepted || fail "$name is not refuted: $(grep -m1 error "$work/out" || true)"
  cp "$top/crates/machine/$changed" "$work/crates/machine/$changed"
done
echo "definition: Demand3 rules out ${#names[@]} of ${#names[@]} wrong machines"
