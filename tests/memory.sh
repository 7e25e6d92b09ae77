#!/usr/bin/env bash
# Refuses the program one allocation at a time, in runs of each command and of servers, and compares what it does then (tests/memory.py).
# Usage: tests/memory.sh [PROGRAM]
# It is outside of the gate and takes some minutes. It needs cc and python3.
set -u
here=$(cd "$(dirname "${BASH_SOURCE[0]}")" && pwd)
top=$(cd "$here/.." && pwd)
program=${1:-$top/crates/ratelimit/out/ratelimit}

if [ $# -eq 0 ]; then
    # The root script builds the program where it is missing or older than its sources; without words it ends with usage.
    "$top/ratelimit" </dev/null >/dev/null 2>&1
fi
if [ ! -x "$program" ]; then
    printf 'FAILED program: there is none at %s\n' "$program"
    exit 1
fi

work=$(mktemp -d) || exit 1
trap 'rm -rf "$work"' EXIT
"${CC:-cc}" -O2 -shared -fPIC -o "$work/fail_alloc.so" "$here/fail_alloc.c" || exit 1
python3 "$here/memory.py" "$program" "$work/fail_alloc.so"
