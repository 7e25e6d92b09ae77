#!/usr/bin/env bash
# Feeds the program with made-up and mutated scripts, configurations, connections, quota streams, usage reports and printed runs, and compares
# what it does with what docs/FORMATS.md says of each (tests/fuzz.py).
# Usage: tests/fuzz.sh [CASES [SEED [KIND..]]], 100,000 cases of seed 1 unless given. PRODUCT names another program.
# 100,000 cases take some ten minutes; the gate runs a few thousand. It needs python3 and GNU time (/usr/bin/time).
set -u
here=$(cd "$(dirname "${BASH_SOURCE[0]}")" && pwd)
top=$(cd "$here/.." && pwd)
program=${PRODUCT:-$top/crates/ratelimit/out/ratelimit}

if [ -z "${PRODUCT:-}" ]; then
    # The root script builds the program where it is missing or older than its sources; without words it ends with usage.
    "$top/ratelimit" </dev/null >/dev/null 2>&1
fi
if [ ! -x "$program" ]; then
    printf 'FAILED program: there is none at %s\n' "$program"
    exit 1
fi
if [ ! -x /usr/bin/time ]; then
    printf 'FAILED /usr/bin/time: there is none\n'
    exit 1
fi
cases=${1:-100000}
seed=${2:-1}
shift $(($# > 2 ? 2 : $#))
exec python3 "$here/fuzz.py" "$program" "$cases" "$seed" "$@"
