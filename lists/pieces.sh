#!/usr/bin/env bash
# lists/pieces.sh: the program `steps` on its standard input, however that comes: each fixed list of its sizes, whole and a byte at a time;
# nothing at all; lines that are too long, before others and at the end; a last line without its end; reads and writes that are cut short. Where the
# oracle is built, also generated lists and random bytes, against the listing that the Rust gives.
set -euo pipefail
cd "$(dirname "$0")/.."
fail() { echo "lists/pieces.sh: $1" >&2; exit 1; }

mkdir -p target/pieces
./programs.sh steps >&2 || fail "steps is not proved"
steps=crates/steps/out/steps
work=target/pieces
oracle=oracle/target/release/oracle

compared=0
for list in lists/*.steps; do
  name=$(basename "$list" .steps)
  if grep -q "^$name " lists/sizes.txt; then continue; fi
  $steps <"$list" | cmp -s - "lists/$name.listing" || fail "another listing for $list"
  dd bs=1 if="$list" 2>/dev/null | $steps | cmp -s - "lists/$name.listing" || fail "another listing for $list, a byte at a time"
  compared=$((compared + 1))
done

header='step;answer;up;queue;asleep;ticks'
letters() { head -c "$1" /dev/zero | tr '\0' x; }
says() { printf '%s\n' "$header" "${@:2}" | cmp -s - <($steps <"$1") || fail "another listing for $1"; }
: >"$work/empty"
says "$work/empty"
{ printf 'start 0\nsched\nexit '; letters 4091; printf '\nexit '; letters 4092; printf '\nexit '; letters 300000; printf '\nstart 0\n'; letters 200000; } >"$work/long"
says "$work/long" '1;pid 1;0;1;0;0' '2;run 1;1;-;0;0' "3;exit 1 $(letters 4091);0;-;0;0" '4;refused 2;0;-;0;0' '5;refused 2;0;-;0;0' '6;pid 2;0;2;0;0' '7;refused 2;0;2;0;0'
printf 'start 0\n\nstart 0' >"$work/open"
says "$work/open" '1;pid 1;0;1;0;0' '2;refused 2;0;1;0;0' '3;pid 2;0;1,2;0;0'

# what cannot be written is said
if [ -c /dev/full ]; then
  status=0
  $steps <lists/001-listing-example.steps >/dev/full 2>"$work/said" || status=$?
  [ "$status" -eq 1 ] || fail "steps ends with $status where a write failed"
  [ -s "$work/said" ] || fail "steps says nothing of a write that failed"
fi

# writes and reads that are cut short: where gcc is installed, by functions in front of the C library's that take at most 5 bytes and 7
if command -v gcc >/dev/null 2>&1; then
  cat >"$work/short.c" <<'END'
#include <sys/syscall.h>
#include <sys/types.h>
#include <unistd.h>
ssize_t write(int fd, const void *from, size_t n) { return syscall(SYS_write, fd, from, n < 5 ? n : 5); }
ssize_t read(int fd, void *to, size_t n) { return syscall(SYS_read, fd, to, n < 7 ? n : 7); }
END
  gcc -shared -fPIC -O1 -o "$work/short.so" "$work/short.c"
  for _ in {1..40}; do cat lists/001-listing-example.steps; done >"$work/again"
  $steps <"$work/again" >"$work/whole"
  [ "$(LD_PRELOAD="$work/short.so" dd bs=8 count=1 if="$work/again" 2>/dev/null | wc -c)" -lt 8 ] || fail "reads and writes are not cut short"
  LD_PRELOAD="$work/short.so" $steps <"$work/again" | cmp -s - "$work/whole" || fail "another listing where reads and writes are cut short"
  cut=", and where reads and writes are cut short"
else
  echo "lists/pieces.sh: gcc is not installed: reads and writes are not cut short"
fi

if [ -x "$oracle" ]; then
  for seed in 1 2 3 4; do
    "$oracle" generate "$seed" 50000 >"$work/made"
    "$oracle" <"$work/made" | cmp -s - <($steps <"$work/made") || fail "the Rust gives another listing for generated list $seed"
    # lines out of shape: some bytes of a list are replaced
    "$oracle" generate "$seed" 5000 | LC_ALL=C awk -v seed="$seed" 'BEGIN { srand(seed) } { if (rand() < 0.3) { k = int(rand() * length($0)) + 1; $0 = substr($0, 1, k - 1) sprintf("%c", int(rand() * 256)) substr($0, k + 1) } print }' >"$work/bent"
    "$oracle" <"$work/bent" | cmp -s - <($steps <"$work/bent") || fail "the Rust gives another listing for bent list $seed"
  done
  against=", and the Rust's on 220,000 generated lines"
fi
echo "steps: $compared listings, whole and a byte at a time, as they are kept${cut:-}${against:-}"
