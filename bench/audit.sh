#!/usr/bin/env bash
# Milliseconds of `ratelimit audit` for runs of four workers over 1,024 cells, beside those of `ratelimit drive` for the same scripts, and how
# many times as long `audit` took. Each number is the least of three runs of the whole program. The scripts have checks of 1,000 names by one
# key, and a tick as every 500th line.
# Run it at the top of the repository: bench/audit.sh [LINES.., 1000 4000 16000 unless given]
set -e
. "$(dirname "$0")/lib.sh"
[ $# -gt 0 ] || set -- 1000 4000 16000
"$top/ratelimit" --version >/dev/null
program="$top/crates/ratelimit/out/ratelimit"
printf '{"domain":"d","descriptors":[{"key":"k","rateLimit":{"unit":"MINUTE","requestsPerUnit":100}}]}' >"$work/config.json"

# script LINES: the generator of Park and Miller from seed 1
script() {
    awk -v lines="$1" 'BEGIN {
        x = 1
        for (i = 0; i < lines; i++) {
            if (i % 500 == 0) {
                printf "{\"tick\":%d}\n", i / 50
                continue
            }
            x = (x * 16807) % 2147483647
            printf "{\"check\":{\"domain\":\"d\",\"descriptors\":[{\"entries\":[{\"key\":\"k\",\"value\":\"v%d\"}]}]}}\n", x % 1000
        }
    }'
}

# least WORD..: milliseconds of the fastest of three runs of the program with these words over the script; its output is in $work/out
least() {
    local best= start spent
    for _ in 1 2 3; do
        start=$(date +%s%N)
        "$program" "$@" --workers 4 --cells 1024 "$work/config.json" <"$work/script" >"$work/out"
        spent=$((($(date +%s%N) - start) / 1000000))
        if [ -z "$best" ] || [ "$spent" -lt "$best" ]; then best=$spent; fi
    done
    echo "$best"
}

printf '%10s %10s %10s %8s\n' lines drive/ms audit/ms times
for lines in "$@"; do
    script "$lines" >"$work/script"
    driven=$(least drive)
    cp "$work/out" "$work/run"
    audited=$(least audit --run "$work/run")
    grep -q '"lawful":true' "$work/out" || { printf 'a run of %s lines is not lawful: %s\n' "$lines" "$(cat "$work/out")" >&2; exit 1; }
    printf '%10d %10d %10d %8s\n' "$lines" "$driven" "$audited" "$(awk -v a="$audited" -v b="$driven" 'BEGIN { printf "%.1f", a / (b ? b : 1) }')"
done
