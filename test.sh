#!/usr/bin/env bash
# test.sh: everything that must hold, ending at the first fault. What it prints last is the last line of `rt ci`, 'N passed, 0 failed'.
#   1. on each fixed list in lists/ the definition computes the kept listing, and every answer and number arises in one of them;
#   2. `Demand3`, as it is stated, does not hold of wrong machines;
#   3. the operations on the lent state do in small scenarios what docs/MACHINE.md says, interpreted and compiled;
#   4. the code gives on each fixed list the kept listing (`replay`), and the program `steps` takes long lines, any bytes and any cut of its input;
#   5. where the Rust is at hand (the folder R9_SRC, from the repository's top, by default ../shared/docs/src/port/src): the kept
#      listings are what the Rust gives today, they hold every step with each number that it can meet, the definition and the
#      Rust give the same on lists that are not kept, made here, `exit_message`, as C callers have it, and the Rust the same messages, and
#      `step` and `run`, as C callers have them, and the Rust the same after every step of generated lists; damaged states are refused;
#   6. where cargo is installed: `size`, `make` and `check`, as C callers have them, on many states against an independent reading, and,
#      where gcc is too, the C and the Rust caller of docs/CALLERS.md;
#   7. every crate is proved and its files are laid out, every must-fail edit is refused and none is bad, and every program writes what it must
#      (`rt ci`, from nothing but for what an earlier run of it passed on this machine).
# What needs nothing but the definition and the Rust runs beside 4 and the building of what C callers have.
set -euo pipefail
cd "$(dirname "$0")"
fail() { echo "test.sh: $*" >&2; exit 1; }

rust=${R9_SRC:-../shared/docs/src/port/src}
command -v rt >/dev/null 2>&1 || fail "the toolchain's command rt is not installed"
has_cargo=$(command -v cargo 2>/dev/null || true)
has_rust=
if [ -d "$rust" ]; then
  [ -n "$has_cargo" ] || fail "the Rust is at hand and cargo is not installed"
  R9_SRC=$(cd "$rust" && pwd) || fail "cannot enter the folder $rust"
  export R9_SRC
  has_rust=yes
fi

# The functions that run at once, each in a process group of its own: their names, by the group's number. They end with this script.
running=()
mkdir -p target
kept=$(mktemp -d)
stop() {
  local group
  for group in "${!running[@]}"; do kill -- "-$group" 2>/dev/null || true; done
  wait
  rm -rf "$kept"
}
trap stop EXIT
trap 'exit 1' INT TERM HUP

# Runs these functions at once, or one. What each prints is kept and shown whole when it ends.
at_once() {
  local name ended status=0
  set -m
  for name in "$@"; do
    "$name" >"$kept/$name" 2>&1 </dev/null &
    running[$!]=$name
  done
  set +m
  while [ ${#running[@]} -gt 0 ]; do
    wait -n -p ended "${!running[@]}" || status=$?
    name=${running[$ended]}
    cat "$kept/$name"
    [ "$status" -eq 0 ] || fail "$name ended with status $status"
    unset "running[$ended]"
  done
}

# The definition, the scenarios and the listings: in copies of the crates.
definition() {
  local pairs=() steps name size
  for steps in lists/*.steps; do
    [ -f "$steps" ] || fail "no lists in lists/"
    name=$(basename "$steps" .steps)
    size=$(awk -v name="$name" '$1 == name { print $2 }' lists/sizes.txt)
    [ -z "$size" ] || pairs+=(-s "$size")
    pairs+=("$steps" "lists/$name.listing")
  done
  definition/check.sh "${pairs[@]}"
  definition/arose.sh lists/*.listing
  definition/wrong.sh
  trials/run.sh
  [ -n "$has_rust" ] || return 0
  lists/compare.sh
  lists/coverage.sh -q
  definition/differ.sh 100 70 1
}

# The program `steps`, and what C callers have, which all programs below link.
programs() {
  lists/replay.sh
  lists/pieces.sh
  [ -z "$has_cargo" ] || ./archives.sh
}

build() { (cd "$1" && cargo build --quiet --release --offline) || fail "$1 does not build"; }

# The same messages, and the same after every step.
beside_the_rust() {
  build messages
  messages/target/release/messages
  build differential
  differential/target/release/differential
}

# The programs that try the functions for C callers.
for_callers() {
  build outside
  outside/target/release/outside
  if command -v gcc >/dev/null 2>&1; then
    callers/run.sh
  else
    echo "test.sh: gcc is not installed: the callers are left out"
  fi
}

[ -z "$has_rust" ] || build oracle
at_once definition programs
if [ -n "$has_rust" ]; then
  at_once beside_the_rust
else
  echo "test.sh: no folder $rust: the runs against the Rust are left out, the fixed lists stand in"
fi

if [ -n "$has_cargo" ]; then
  at_once for_callers
else
  echo "test.sh: cargo is not installed: the outside test of size, make and check and the callers are left out"
fi

rt ci 2>&1 | tee target/ci.log
if grep -Eq '^rt: ok.*, [1-9][0-9]* bad' target/ci.log; then fail "a must-fail edit is bad"; fi
