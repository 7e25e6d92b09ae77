#!/usr/bin/env bash
# Runs `drive --stats` and compares its statistics with those that a plain program counts hit by hit from the records (tests/run_check.py):
# seven checks of a limit of five, then a made-up script of 100,000 lines with shadow and unlimited rules, reloads and hits of 0 to 3, by
# four workers. A number that is changed has to be found. Then `serve --stats`, by threads and by tasks: the seven checks, and what
# 100 connections get that make 1,000 checks each (tests/stats_client.py). It needs python3 and takes some seconds.
# Usage: tests/stats.sh, beside the built program
set -u
here=$(cd "$(dirname "${BASH_SOURCE[0]}")" && pwd)
top=$(cd "$here/.." && pwd)
program=$top/crates/ratelimit/out/ratelimit
work=$(mktemp -d) || exit 1
trap 'rm -rf "$work"' EXIT
failed=0
passed=0

# is NAME WANTED FOUND
is() {
    if [ "$2" = "$3" ]; then
        passed=$((passed + 1))
    else
        printf 'FAILED %s\n  wanted %s\n  found  %s\n' "$1" "$2" "$3"
        failed=$((failed + 1))
    fi
}

printf '%s' '{"domain":"d","descriptors":[{"key":"k","rateLimit":{"unit":"MINUTE","requestsPerUnit":5}}]}' >"$work/five.json"
for _ in 1 2 3 4 5 6 7; do
    printf '%s\n' '{"check":{"domain":"d","descriptors":[{"entries":[{"key":"k","value":"a"}]}]}}'
done >"$work/seven"
is 'seven checks of a limit of five' \
    '{"stats":{"near":1,"over":2,"rule":0,"seen":1,"shadow":0,"total":7,"version":0,"within":5}}' \
    "$("$program" drive --stats "$work/five.json" <"$work/seven" | tail -n 1)"
is 'the other lines are those of a run without --stats' \
    "$("$program" drive "$work/five.json" <"$work/seven")" \
    "$("$program" drive --stats "$work/five.json" <"$work/seven" | head -n 8)"
is 'a script without checks has no statistics' '' "$(printf '' | "$program" drive --stats "$work/five.json")"

# drive LINES: a made-up script of so many lines, run by four workers
drive() {
    python3 "$here/stress_script.py" 7 "$1" "$work/config.json" "$work/script" &&
        "$program" drive --stats --workers 4 --cells 100000 "$work/config.json" <"$work/script" >"$work/out"
}

# ends_with STATUS NAME FILE: the status of the plain program over what was printed
ends_with() {
    python3 "$here/run_check.py" "$work/config.json" "$work/script" "$3" --workers 4 --cells 100000 --stats >"$work/said" 2>&1
    local status=$?
    is "$2: $(tail -n 1 "$work/said")" "$1" "$status"
}

drive 5000 || exit 1
ends_with 0 '5,000 lines' "$work/out"
sed '$s/"within":\([0-9]*\)/"within":1\1/' "$work/out" >"$work/changed"
ends_with 1 'a number that was changed' "$work/changed"
sed '$d' "$work/out" >"$work/changed"
ends_with 1 'a rule that was left out' "$work/changed"
drive 100000 || exit 1
is 'rules that counted anything' yes "$([ "$(grep -c '^{"stats":' "$work/out")" -ge 20 ] && printf yes)"
is 'hits that a shadow rule let pass' yes "$(grep '^{"stats":' "$work/out" | grep -qv '"shadow":0' && printf yes)"
ends_with 0 '100,000 lines' "$work/out"

# serve CONNECTIONS ARG..: starts `serve --stats`, and waits until it says its port
serve() {
    local count=$1
    shift
    : >"$work/served"
    "$program" serve --stats --port 0 --connections "$count" "$@" </dev/null >"$work/served" &
    server=$!
    port=
    for _ in $(seq 200); do
        port=$(sed -n 's/{"listening":\([0-9]*\)}/\1/p' "$work/served")
        [ -n "$port" ] && break
        sleep 0.05
    done
}

# ends NAME: the server ends by itself
ends() {
    local status=none
    for _ in $(seq 200); do
        kill -0 "$server" 2>/dev/null || break
        sleep 0.05
    done
    if kill "$server" 2>/dev/null; then
        wait "$server"
    else
        wait "$server"
        status=$?
    fi
    is "$1 ends" 0 "$status"
}

check='{"domain":"d","descriptors":[{"entries":[{"key":"k","value":"a"}]}]}'
python3 "$here/stats_client.py" config >"$work/twenty.json"
for by in --workers --tasks; do
    serve 1 "$by" 1 "$work/five.json"
    {
        for _ in 1 2 3 4 5 6 7; do
            printf 'POST /json HTTP/1.1\r\nContent-Length: %d\r\n\r\n%s' "${#check}" "$check"
        done
        printf 'GET /stats HTTP/1.1\r\nConnection: close\r\n\r\n'
    } | python3 "$here/http_client.py" raw "$port" >"$work/answers"
    is "$by: seven checks of a limit of five on one connection" \
        '{"rules":[{"near":1,"over":2,"rule":0,"seen":1,"shadow":0,"total":7,"within":5}]}' "$(tail -n 1 "$work/answers")"
    ends "$by: the server of seven checks"
    serve 101 "$by" 64 "$work/twenty.json"
    is "$by: 100,000 checks over 100 connections" 'as the replies' "$(timeout 110 python3 "$here/stats_client.py" counted "$port" 100 1000)"
    ends "$by: the server of 100 connections"
done

printf 'statistics: %d passed, %d failed\n' "$passed" "$failed"
[ "$failed" -eq 0 ]
