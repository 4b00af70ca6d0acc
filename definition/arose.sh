#!/usr/bin/env bash
# arose.sh LISTING ..: whether every answer, and every number of the table that can arise from a fresh state, stands in one of the
# listings. Says so in one line; names what did not arise, and fails. (1, 14 and 16 cannot arise.)
set -euo pipefail
export LC_ALL=C
fail() { echo "definition/arose.sh: $*" >&2; exit 1; }
[ $# -gt 0 ] || fail "usage: arose.sh LISTING .."
for listing in "$@"; do
  [ -f "$listing" ] && [ -r "$listing" ] || fail "cannot read $listing"
done

wanted=(pid "pid 0" run "run child" "done" asleep yes no fired exit child idle end)
for number in 2 3 4 5 6 7 8 9 10 11 12 13 15 17; do
  wanted+=("refused $number")
done

# the sort of each answer: its first word; with its number where it is refused; a finished wait in `sched` and pid 0 apart
sorts='
  $1 == "refused" { print $1, $2; next }
  $1 == "run" && $3 == "child" { print "run child"; next }
  $1 == "pid" && $2 == "0" { print "pid 0"; next }
  { print $1 }'
arose=$(cat -- "$@" | cut -d';' -f2 | awk "$sorts" | sort -u) || fail "cannot read the listings"
missing=
for sort in "${wanted[@]}"; do
  grep -qxF -- "$sort" <<<"$arose" || missing+=", $sort"
done
[ -z "$missing" ] || fail "in $# listings did not arise: ${missing#, }"
echo "definition: in $# listings every answer arises, and every number that can"
