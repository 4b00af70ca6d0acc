#!/usr/bin/env bash
# Remakes the generated lists from their seeds (seeds.txt), and every listing
# with the oracle.  Sizes other than the default stand in sizes.txt.
set -euo pipefail
cd "$(dirname "$0")"
export LC_ALL=C
oracle=../oracle/target/release/oracle

fail() { echo "lists/make.sh: $1" >&2; exit 1; }

[ -x "$oracle" ] || fail "the oracle is not built: cargo build --release --offline in oracle/"
[ -f seeds.txt ] || fail "no seeds.txt"
[ -f sizes.txt ] || fail "no sizes.txt"

# The oracle's arguments for the sizes of list $1.
sizes() { awk -v name="$1" '$1 == name { print "-s", $2 }' sizes.txt; }

# Runs the oracle with the arguments after the first, into file $1.
into() {
    local file=$1
    shift
    "$oracle" "$@" > "$file.new" || { rm -f "$file.new"; fail "the oracle failed on $file"; }
    mv "$file.new" "$file"
}

while read -r name seed count; do
    into "$name.steps" generate $(sizes "$name") "$seed" "$count"
done < seeds.txt

made=0
for steps in *.steps; do
    name=${steps%.steps}
    into "$name.listing" $(sizes "$name") < "$steps"
    made=$((made + 1))
done
echo "made $made listings"
