#!/usr/bin/env bash
# archives.sh [NAME ..]: the archives for C callers, target/staticlib/libNAME.a, of step, run, make, verify and message, or of those that are named.
# A crate is a library or a static library: the functions of the library NAME are exported by the static library NAME_c, whose archive gets the library's name.
set -euo pipefail
cd "$(dirname "$0")"
mkdir -p target/staticlib
[ $# -gt 0 ] || set -- step run make verify message
for name in "$@"; do
  (cd "crates/${name}_c" && rt lib) >target/staticlib.out 2>&1 || { tail -n 20 target/staticlib.out; echo "archives.sh: no static library of $name" >&2; exit 1; }
  cp "crates/${name}_c/out/lib${name}_c.a" "target/staticlib/lib$name.a"
done
