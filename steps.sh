#!/usr/bin/env bash
# steps.sh [FILE]: builds the program `steps`, proving what it needs, and runs it on a file of steps or on standard input. The listing goes
# to standard output, and nothing else does. Ends with 1 where reading or writing failed, which is said on standard error.
set -euo pipefail
top=$(cd "$(dirname "$0")" && pwd)
if [ $# -gt 0 ]; then exec <"$1"; fi
"$top/programs.sh" steps </dev/null >&2
exec "$top/crates/steps/out/steps"
