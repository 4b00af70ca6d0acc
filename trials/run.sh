#!/usr/bin/env bash
# run.sh: the operations on the lent state, tried from outside. The program in leaves/ calls them in small scenarios and prints what happened;
# it must print the lines of leaves/expected.txt, which stand there below the rules that they show.
#
# `rt try` runs the program, unproved, on the interpreter, and compiled with checks of each access and each sum. Every crate in crates/ is
# proved, and `rt ci` allows no .rt file elsewhere: so the program's file NAME.rt is kept as NAME.rt.txt, and it runs in a repository of its
# own in a temporary folder, with the sources of the crates. A second run has `check` look at the states too, and fills the largest; it takes
# more steps than the interpreter makes, so there the compiled one counts. `run.sh CRATES` takes another folder of crates. Says in one line
# how many lines came as they must; otherwise prints the first that did not, and fails.
set -euo pipefail
top=$(cd "$(dirname "$0")/.." && pwd)
crates=$(cd "${1:-$top/crates}" && pwd)
fail() { echo "trials/run.sh: $*" >&2; exit 1; }
command -v rt >/dev/null 2>&1 || fail "the toolchain's command rt is not installed"

work=$(mktemp -d)
trap 'rm -rf "$work"' EXIT
program=$work/crates/leaves
mkdir -p "$program/src" "$work/cases"
libraries=()
for crate in $(sed -n 's/^\([a-z][a-z_]*\):.*/\1/p' "$top/crates.txt"); do
  [ -f "$crates/$crate/src/lib.rt" ] || continue # a program
  mkdir "$work/crates/$crate"
  cp -r "$crates/$crate/src" "$work/crates/$crate/"
  grep "^$crate:" "$top/crates.txt" >>"$work/crates.txt"
  libraries+=("$crate")
done
echo "leaves: ${libraries[*]}" >>"$work/crates.txt"
for file in "$top"/trials/leaves/*.rt.txt; do cp "$file" "$program/src/$(basename "$file" .txt)"; done
cd "$program"
rt fmt >"$work/out" 2>&1 || { cat "$work/out" >&2; fail "the program is not accepted"; }
for file in "$top"/trials/leaves/*.rt.txt; do
  cmp -s "$file" "src/$(basename "$file" .txt)" || fail "trials/leaves/$(basename "$file") is not in the formatter's layout"
done

# the two runs: what each reads, and what it must print
cd "$work/cases"
: >few
echo check >all
grep -v -e '^#' -e '^$' "$top/trials/leaves/expected.txt" >all.stdout
grep -v -e '^well formed' -e '^wide' all.stdout >few.stdout

# come NAME RUNNERS: the run NAME came as it must, on as many of the two as RUNNERS has; otherwise the first line that did not come
come() {
  local at line
  ! grep -q "^case=$1 run=ended status=0 runners=[$2] output=expected" "$work/out" || return 0
  cat "$work/out" >&2
  at=$(sed -n "s/^the output differs from \`$1.stdout\`: at byte \([0-9]*\),.*/\1/p" "$work/out")
  [ -n "$at" ] || fail "the program does not run to its end"
  line=$(head -c "$at" "$1.stdout" | wc -l)
  echo "trials/run.sh: the last line as it must be: $(head -n "$line" "$1.stdout" | tail -n 1)" >&2
  fail "not as it must be, first: $(sed -n "$((line + 1))p" "$1.stdout")"
}

(cd "$program" && rt try --steps 200000000 --seconds 600 --cases "$work/cases") >"$work/out" 2>&1 || true
come few 2
come all 12
echo "trials: $(wc -l <all.stdout) lines came as they must, on the interpreter and compiled with checks"
