#!/usr/bin/env bash
# callers/run.sh: takes the C and the Rust program out of docs/CALLERS.md, builds them with the archives in target/staticlib (`archives.sh`),
# runs them, and compares what they print with the page.
set -euo pipefail
cd "$(dirname "$0")/.."
out=target/callers
mkdir -p "$out"

# block LANGUAGE K: the K-th block of that language on the page
block() {
  awk -v want="\`\`\`$1" -v k="$2" '$0 == "```" { inside = 0 } inside { print } $0 == want { inside = (++seen == k) }' docs/CALLERS.md
}

block c 1 >"$out/caller.c"
block rust 1 >"$out/caller.rs"
block text 1 >"$out/c.expected"
block text 2 >"$out/rust.expected"
libraries=(-L target/staticlib -l step -l run -l make -l verify)
gcc -std=c99 -Wall -Wextra -Wpedantic -Werror -O2 -I include -o "$out/c" "$out/caller.c" "${libraries[@]}"
rustc --edition 2024 -O -o "$out/rust" "$out/caller.rs" -L target/staticlib -l static=step -l static=run -l static=make -l static=verify 2>"$out/rustc.log" || { cat "$out/rustc.log" >&2; exit 1; }
for language in c rust; do
  "$out/$language" >"$out/$language.printed"
  if ! cmp -s "$out/$language.printed" "$out/$language.expected"; then
    echo "callers/run.sh: the $language program on the page prints something else:" >&2
    diff "$out/$language.expected" "$out/$language.printed" >&2 || true
    exit 1
  fi
done
echo "callers: the C and the Rust program of docs/CALLERS.md print what the page says"
