#!/usr/bin/env bash
# check.sh PAIR..: whether each listing is what the definition says of its list of steps.
#
# A PAIR is STEPS LISTING, two files, or -s P,R,Q,K,C,HZ STEPS LISTING where the sizes are not those of `steps`. For each pair the
# proof checker computes the definition (`listing`, or `listing_at`, of crates/machine/specs/Listing.antt) on the bytes of STEPS
# and compares what it gives with the bytes of LISTING. The comparison is a theorem, proved by computation alone, in a crate of
# its own in a temporary folder. Says in one line how many listings were so proved; names each one that was not, and fails.
set -euo pipefail
top=$(cd "$(dirname "$0")/.." && pwd)

fail() { echo "definition/check.sh: $*" >&2; exit 1; }
command -v rt >/dev/null 2>&1 || fail "the toolchain's command rt is not installed"
[ $# -gt 0 ] || fail "usage: check.sh [-s P,R,Q,K,C,HZ] STEPS LISTING .."

work=$(mktemp -d)
trap 'rm -rf "$work"' EXIT
mkdir -p "$work/crates/listings/src" "$work/crates/listings/specs"
for crate in memory clock machine; do
  mkdir "$work/crates/$crate"
  for part in src specs proofs; do
    [ ! -d "$top/crates/$crate/$part" ] || cp -r "$top/crates/$crate/$part" "$work/crates/$crate/"
  done
  grep "^$crate:" "$top/crates.txt" >>"$work/crates.txt"
done
echo "listings: machine" >>"$work/crates.txt"
echo "// Listings, each proved to be what the definition says." >"$work/crates/listings/src/lib.rt"
specs=$work/crates/listings/specs

# the bytes of a file as a list of numbers
list() { od -An -v -w1 -tu1 -- "$1" 2>/dev/null | awk '{ printf "%s ∷ ", $1 } END { printf "[]" }'; }

# whether the first is a number from 1 to the second, in digits alone
upto() { [[ $1 =~ ^[1-9][0-9]{0,9}$ ]] && (($1 <= $2)); }

# a module's lines before its theorems
begin_module() {
  cat >"$specs/$1.antt" <<'END'
use Rattle.std.specs.Prelude.{◌≡◌, refl, List, [], ◌∷◌, ℕ}
use Rattle.machine.specs.Listing.{listing, listing_at}
END
  echo "pub mod $1" >>"$specs/Lib.antt"
}

count=0
steps=0
names=()
while [ $# -gt 0 ]; do
  sizes=
  if [ "$1" = -s ]; then
    [ $# -ge 2 ] || fail "-s wants P,R,Q,K,C,HZ"
    sizes=$2
    shift 2
    IFS=, read -r p r q k c hz <<<"$sizes"
    upto "$p" 4096 && upto "$r" 4096 && upto "$q" 4096 && upto "$k" 4096 && upto "$c" 65000 && upto "$hz" 4294967295 ||
      fail "'$sizes' is not P,R,Q,K,C,HZ: P, R, Q, K from 1 to 4096, C from 1 to 65000, HZ from 1 to 4294967295"
  fi
  [ $# -ge 2 ] || fail "a list of steps without its listing: ${1:-}"
  [ -f "$1" ] || fail "no such file: $1"
  [ -f "$2" ] || fail "no such file: $2"
  input=$(list "$1") || fail "cannot read $1"
  output=$(list "$2") || fail "cannot read $2"
  module=M$((count / 20))
  [ $((count % 20)) -ne 0 ] || begin_module "$module"
  if [ -z "$sizes" ]; then
    says="listing" opens="listing"
  else
    says="listing_at (record { processes = $p; rendez = $r; locks = $q; timers = $k; cells = $c; hz = $hz })" opens="listing_at"
  fi
  {
    printf '\ninput-%s : List ℕ\ninput-%s = %s\n' "$count" "$count" "$input"
    printf '\noutput-%s : List ℕ\noutput-%s = %s\n' "$count" "$count" "$output"
    printf '\nlist-%s : %s input-%s ≡ output-%s\nunfolding %s input-%s output-%s\nlist-%s = refl\n' \
      "$count" "$says" "$count" "$count" "$opens" "$count" "$count" "$count"
  } >>"$specs/$module.antt"
  names+=("$1")
  steps=$((steps + $(grep -ac '' -- "$1" || true)))
  count=$((count + 1))
  shift 2
done

if (cd "$work/crates/listings" && rt check) >"$work/out" 2>&1; then
  echo "definition: $count lists, $steps steps: each listing is what the definition computes"
  exit 0
fi

# the numbers of the lists that the checker's errors name, in these lines of what it says
refused() { sed -n "$1 s/.*error: \`list-\([0-9]*\)\`.*/\1/p" "$work/out" | sort -nu; }

undecided=$(refused '/step limit/')
wrong=$(refused '/step limit/!')
[ -n "$undecided$wrong" ] || fail "the definition itself is not accepted (rt check in crates/machine says more): $(grep -m1 error "$work/out" || true)"
for i in $undecided; do
  echo "definition: the checker gave no verdict on the listing of ${names[$i]}, as where one step fires too many timers" >&2
done
for i in $wrong; do
  echo "definition: the listing of ${names[$i]} is not what the definition computes" >&2
done
exit 1
