#!/usr/bin/env bash
# Measures `ratelimit gen 1 CHECKS`, beside it in the same run the same load over a dashmap in Rust (bench/peer.rs; no such row where there
# is no cargo), which has to print the same line. Then `ratelimit drive` with 4 workers beside one, over checks of many values.
# Run it at the top of the repository: bench/gen.sh [CHECKS, 1048576 unless given] [LINES of the script, 200000 unless given]
# Each row is the least of five tries, taken in turn: `wall` is the whole time in milliseconds, `cpu` the processor's, `rate` checks or lines
# a second by `wall`, `ratio` how many times the rate of the table's first row that is. With fewer than four free cores the workers share them.
set -u
. "$(dirname "${BASH_SOURCE[0]}")/lib.sh"
checks=${1:-1048576}
lines=${2:-200000}
program=$top/crates/ratelimit/out/ratelimit
if [ ! -x "$program" ]; then
    printf 'there is no program at %s: build it with %s/ratelimit\n' "$program" "$top" >&2
    exit 1
fi
TIMEFORMAT='%3R %3U %3S'
LC_ALL=C
declare -A wall=() cpu=()

# once NAME INPUT WORD..: runs the words, and keeps the least times under the name and the output in $work/NAME
once() {
    local name=$1 input=$2 real user system status spent
    shift 2
    { time "$@" <"$input" >"$work/$name" 2>"$work/err"; } 2>"$work/times"
    status=$?
    if [ "$status" != 0 ]; then
        printf '%s ended with %s: %s\n' "$name" "$status" "$(head -n 1 "$work/err")" >&2
        exit 1
    fi
    read -r real user system <"$work/times"
    real=$((10#${real/./}))
    spent=$((10#${user/./} + 10#${system/./}))
    if [ -z "${wall[$name]:-}" ] || [ "$real" -lt "${wall[$name]}" ]; then wall[$name]=$real; fi
    if [ -z "${cpu[$name]:-}" ] || [ "$spent" -lt "${cpu[$name]}" ]; then cpu[$name]=$spent; fi
}

# row NAME NUMBER FIRST: prints the times of NAME for so many checks or lines, FIRST being the row that ratios are of
row() {
    awk -v name="$1" -v n="$2" -v wall="${wall[$1]}" -v cpu="${cpu[$1]}" -v first="${wall[$3]}" \
        'BEGIN { printf "%-12s %9d %9d %13.0f %7.2f\n", name, wall, cpu, n * 1000 / wall, first / wall }'
}

printf 'gen 1 %s, load %s\n%-12s %9s %9s %13s %7s\n' "$checks" "$(cut -d' ' -f1 /proc/loadavg)" what wall_ms cpu_ms rate ratio
build_peer
for _ in 1 2 3 4 5; do
    once ratelimit /dev/null "$program" gen 1 "$checks"
    [ -z "$peer" ] || once dashmap /dev/null "$peer" gen 1 "$checks"
done
row ratelimit "$checks" ratelimit
if [ -n "$peer" ]; then
    row dashmap "$checks" ratelimit
    cmp -s "$work/ratelimit" "$work/dashmap" && printf 'the peer printed the same line\n' || printf 'the peer printed another line\n'
fi

printf '{"domain":"d","descriptors":[{"key":"k","rateLimit":{"unit":"HOUR","requestsPerUnit":100}}]}' >"$work/config.json"
awk -v lines="$lines" 'BEGIN {
    x = 1
    for (i = 0; i < lines; i++) {
        x = (x * 16807) % 2147483647
        printf "{\"check\":{\"domain\":\"d\",\"descriptors\":[{\"entries\":[{\"key\":\"k\",\"value\":\"v%d\"}]}]}}\n", x % 100000
    }
}' >"$work/script"
printf 'drive, %s lines, load %s\n' "$lines" "$(cut -d' ' -f1 /proc/loadavg)"
for _ in 1 2 3 4 5; do
    once one "$work/script" "$program" drive --workers 1 "$work/config.json"
    once four "$work/script" "$program" drive --workers 4 "$work/config.json"
done
row one "$lines" one
row four "$lines" one
