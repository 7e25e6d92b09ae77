#!/usr/bin/env bash
# Nanoseconds of one report of `pool`, with 10, 1,000 and 100,000 clients of one pool, and how many times that with 10 clients it is.
# Each number is the least of five runs of the whole program over so many reports, less the least of five runs over no report.
# Clients report in turn, and a share lives as long as three turns, so each client has three or four live shares.
# Run it at the top of the repository: bench/pool.sh [REPORTS, 400000 unless given]
set -e
. "$(dirname "$0")/lib.sh"
reports=${1:-400000}
"$top/ratelimit" --version >/dev/null
program="$top/crates/ratelimit/out/ratelimit"

# events CLIENTS REPORTS: one report a millisecond
events() {
    awk -v clients="$1" -v reports="$2" 'BEGIN {
        for (i = 0; i < reports; i++)
            printf "{\"at\":\"%d.%03ds\",\"client\":\"c%d\",\"reports\":{\"bucketQuotaUsages\":[{\"bucketId\":{\"bucket\":{\"name\":\"b\"}}}]}}\n", i / 1000, i % 1000, i % clients
    }'
}

# pools CLIENTS: one pool, whose shares live three turns of the clients
pools() {
    printf '{"domain":"q","pools":[{"bucketId":{"bucket":{"name":"b"}},"requestsPerTimeUnit":"1000000","timeUnit":"SECOND","assignmentTimeToLive":"%d.%03ds"}]}' \
        $((3 * $1 / 1000)) $((3 * $1 % 1000))
}

# least EVENTS: nanoseconds of the fastest of five runs
least() {
    local best= start spent
    for _ in 1 2 3 4 5; do
        start=$(date +%s%N)
        "$program" pool --pools "$work/pools" "$1" >/dev/null
        spent=$(($(date +%s%N) - start))
        if [ -z "$best" ] || [ "$spent" -lt "$best" ]; then best=$spent; fi
    done
    echo "$best"
}

first=
printf '%10s %12s %8s\n' clients ns/report times
for clients in 10 1000 100000; do
    pools "$clients" >"$work/pools"
    events "$clients" "$reports" >"$work/events"
    : >"$work/none"
    each=$((($(least "$work/events") - $(least "$work/none")) / reports))
    [ -n "$first" ] || first=$each
    printf '%10d %12d %8s\n' "$clients" "$each" "$(awk -v a="$each" -v b="$first" 'BEGIN { printf "%.2f", a / b }')"
done
