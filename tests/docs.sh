#!/usr/bin/env bash
# Runs the commands of README.md and docs/COMMANDS.md in an empty folder, and compares what they print with what the pages show; and looks
# whether the links of all pages lead somewhere. tests/docs.py says how a page marks its commands.
# Usage: tests/docs.sh [PROGRAM]
# Prints `ok PAGE: ..` or `FAILED PAGE: ..`, and ends with 1 if any failed. It takes some seconds, and needs curl and python3.
set -u
here=$(cd "$(dirname "${BASH_SOURCE[0]}")" && pwd)
top=$(cd "$here/.." && pwd)
program=${1:-$top/crates/ratelimit/out/ratelimit}

if [ $# -eq 0 ]; then
    # The root script builds the program where it is missing or older than its sources; without words it ends with usage.
    "$top/ratelimit" </dev/null >/dev/null 2>&1
fi
if [ ! -x "$program" ]; then
    printf 'FAILED program: there is none at %s\n' "$program"
    exit 1
fi
exec python3 "$here/docs.py" "$program"
