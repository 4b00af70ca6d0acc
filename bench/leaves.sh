#!/usr/bin/env bash
# leaves.sh: how long the operations on the lent state take, in a small state and in the largest, side by side.
#
# What is measured: leaves.c has one operation done N times on a state that is as full as the operation leaves room for; the processor time, by N,
# is the time of one operation. Making and filling the state do not count. N is such that this takes 0.2 s or more; it is timed five times, and
# the shortest counts.
#
# Only what is proved is compiled to a file. A static library calls the operations, and its functions require what no call meets (lib.rt.txt), so
# that nothing is left to prove. Its file NAME.rt is kept as NAME.rt.txt, since `rt ci` would refuse it, and it is built in a repository of its
# own in a temporary folder, with the crates that it needs, which are proved there as ever. Needs gcc.
set -euo pipefail
top=$(cd "$(dirname "$0")/.." && pwd)
fail() { echo "bench/leaves.sh: $*" >&2; exit 1; }
command -v rt >/dev/null 2>&1 || fail "the toolchain's command rt is not installed"
command -v gcc >/dev/null 2>&1 || fail "gcc is not installed"

work=$(mktemp -d)
trap 'rm -rf "$work"' EXIT
library=$work/crates/leaves
mkdir -p "$library/src"

# with CRATE: this crate is in the copy, above those that it needs
libraries=()
with() {
  local line crate part
  [ ! -d "$work/crates/$1" ] || return 0
  mkdir "$work/crates/$1"
  for part in src specs proofs; do
    [ ! -d "$top/crates/$1/$part" ] || cp -r "$top/crates/$1/$part" "$work/crates/$1/"
  done
  line=$(grep "^$1:" "$top/crates.txt") || fail "crates.txt has no $1"
  echo "$line" >>"$work/crates.txt"
  for crate in ${line#*:}; do with "$crate"; done
  libraries+=("$1")
}
for crate in make record records dat waitq timer; do with "$crate"; done
echo "leaves staticlib: ${libraries[*]}" >>"$work/crates.txt"
for file in "$top"/bench/*.rt.txt; do cp "$file" "$library/src/$(basename "$file" .txt)"; done

cd "$library"
rt fmt >"$work/out" 2>&1 || { cat "$work/out" >&2; fail "the library is not accepted"; }
for file in "$top"/bench/*.rt.txt; do
  cmp -s "$file" "src/$(basename "$file" .txt)" || fail "bench/$(basename "$file") is not in the formatter's layout"
done
rt lib >"$work/out" 2>&1 || { tail -n 20 "$work/out" >&2; fail "the library is not built"; }
gcc -std=c99 -Wall -Wextra -Wpedantic -Werror -O2 -o "$work/leaves" "$top/bench/leaves.c" -L out -l leaves
"$work/leaves"
