#!/usr/bin/env bash
# programs.sh NAME ..: proves, compiles and links these programs of crates/ where they are not yet as they must be: each is crates/NAME/out/NAME then.
set -euo pipefail
cd "$(dirname "$0")"
mkdir -p target
for name in "$@"; do
  (cd "crates/$name" && rt run </dev/null) >"target/$name.log" 2>&1 || { tail -n 20 "target/$name.log"; echo "programs.sh: $name is not proved" >&2; exit 1; }
done
