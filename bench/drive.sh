#!/usr/bin/env bash
# Measures `ratelimit drive`: lines per second and peak memory, with a configuration of 1,000 flat nodes and a script of
# checks over 10 and over 1,000 distinct values, with a tick as every 500th line. Beside it, in the same run:
#   lookup     `ratelimit lookup` of the same checks as requests
#   yardstick  a plain python3 script that parses each line with json, counts the texts in a dict and prints a JSON line
#   peer       the command in PEER, where it is set: it takes the configuration's name as its last word, and the script
# Run it at the top of the repository: bench/drive.sh [LINES, 20000 unless given] [PROGRAM]
# Times are the least of five tries, with the output in a file. `start` is the processor's time for an empty script: the
# start of the process and the reading of the configuration. `cpu` is its time for the script without `start`, and `wall`
# is the whole time that passes. Lines per second are counted by each of the two. Other work on the machine changes `wall`
# far more than `cpu`, so `ratio` is taken from `cpu`: how many times the row's lines per second are those of `ratelimit`.
set -u
. "$(dirname "${BASH_SOURCE[0]}")/lib.sh"
lines=${1:-20000}
program=${2:-$top/crates/ratelimit/out/ratelimit}
if [ ! -x "$program" ]; then
    printf 'there is no program at %s: build it with %s/ratelimit\n' "$program" "$top" >&2
    exit 1
fi

config=$work/config.json
out=$work/out
# The form of the times that the word `time` prints: passed, in the program and in the system.
TIMEFORMAT='%3R %3U %3S'
LC_ALL=C

awk 'BEGIN {
    printf "{\"domain\":\"d\",\"descriptors\":["
    for (i = 0; i < 1000; i++) {
        printf "%s{\"key\":\"k%d\",\"rateLimit\":{\"unit\":\"MINUTE\",\"requestsPerUnit\":100}}", (i ? "," : ""), i
    }
    print "]}"
}' >"$config"

# script_of VALUES: the generator of Park and Miller from seed 1, so that each awk gives the same script.
# Each value has one key of its own, so there are VALUES counters in each minute, spread over the nodes.
script_of() {
    awk -v lines="$lines" -v values="$1" 'BEGIN {
        x = 1
        for (i = 0; i < lines; i++) {
            if (i % 500 == 0) {
                printf "{\"tick\":%d}\n", i / 50
                continue
            }
            x = (x * 16807) % 2147483647
            v = x % values
            printf "{\"check\":{\"domain\":\"d\",\"descriptors\":[{\"entries\":[{\"key\":\"k%d\",\"value\":\"v%d\"}]}]}}\n", v * 7919 % 1000, v
        }
    }'
}

cat >"$work/yardstick.py" <<'PY'
import json
import sys

counts = {}
moment = 0
for line in sys.stdin:
    event = json.loads(line)
    if "tick" in event:
        moment = max(moment, event["tick"])
        print(json.dumps({"moment": moment, "ticked": event["tick"]}))
    else:
        check = event["check"]
        entry = check["descriptors"][0]["entries"][0]
        key = (check["domain"], entry["key"], entry["value"], moment // 60)
        before = counts.get(key, 0)
        counts[key] = before + 1
        print(json.dumps({"moment": moment, "before": before}))
PY

# try NAME SCRIPT WORD..: sets `wall` and `cpu` to the least milliseconds of five tries, and `kilobytes` to the peak memory
# of one more.
try() {
    local name=$1 script=$2 real user system status spent _
    shift 2
    wall=
    cpu=
    for _ in 1 2 3 4 5; do
        { time "$@" <"$script" >"$out" 2>"$work/err"; } 2>"$work/times"
        status=$?
        if [ "$status" != 0 ]; then
            printf '%s ended with %s: %s\n' "$name" "$status" "$(head -n 1 "$work/err")" >&2
            exit 1
        fi
        # Three numbers of three decimals each; without their point they are milliseconds.
        read -r real user system <"$work/times"
        real=$((10#${real/./}))
        spent=$((10#${user/./} + 10#${system/./}))
        if [ -z "$wall" ] || [ "$real" -lt "$wall" ]; then
            wall=$real
        fi
        if [ -z "$cpu" ] || [ "$spent" -lt "$cpu" ]; then
            cpu=$spent
        fi
    done
    if [ -x /usr/bin/time ]; then
        /usr/bin/time -o "$work/peak" -f %M "$@" <"$script" >"$out"
    else
        # A child of python3 can't show less than python3's own memory, some 10,000 KB.
        python3 -c 'import resource, subprocess, sys
subprocess.run(sys.argv[2:])
print(resource.getrusage(resource.RUSAGE_CHILDREN).ru_maxrss, file=open(sys.argv[1], "w"))' "$work/peak" "$@" \
            <"$script" >"$out"
    fi
    kilobytes=$(cat "$work/peak")
}

# row VALUES NAME SCRIPT WORD..: measures and prints. The row of ratelimit comes first: ratios stand on it.
row() {
    local values=$1 name=$2 script=$3 start net records
    shift 3
    try "$name" /dev/null "$@"
    start=$cpu
    try "$name" "$script" "$@"
    records=$(wc -l <"$out")
    if [ "$records" -lt "$lines" ]; then
        printf '%s printed %s records for %s lines\n' "$name" "$records" "$lines" >&2
        exit 1
    fi
    net=$((cpu - start))
    if [ "$name" = ratelimit ]; then
        base=$net
    fi
    awk -v values="$values" -v name="$name" -v lines="$lines" -v start="$start" -v wall="$wall" -v net="$net" \
        -v base="$base" -v kb="$kilobytes" 'BEGIN {
            # With few lines the start can take longer than they do; then there is no rate by `cpu`.
            rate = net > 0 ? sprintf("%.0f", lines * 1000 / net) : "-"
            ratio = net > 0 && base > 0 ? sprintf("%.2f", base / net) : "-"
            printf "%6d %-10s %9d %9d %9d %13s %13.0f %7s %9d\n", values, name, start, net, wall, rate,
                lines * 1000 / wall, ratio, kb
        }'
}

printf '%s lines, load %s\n' "$lines" "$(cut -d' ' -f1 /proc/loadavg)"
printf '%6s %-10s %9s %9s %9s %13s %13s %7s %9s\n' \
    values what start_ms cpu_ms wall_ms lines/s_cpu lines/s_wall ratio peak_KB
for values in 10 1000; do
    script=$work/script-$values.jsonl
    script_of "$values" >"$script"
    row "$values" ratelimit "$script" "$program" drive "$config"
    # Each check as a request; a tick is a line that is refused.
    requests=$work/requests-$values.jsonl
    sed 's/^{"check":\(.*\)}$/\1/' "$script" >"$requests"
    row "$values" lookup "$requests" "$program" lookup "$config"
    cp "$out" "$work/records"
    row "$values" yardstick "$script" python3 "$work/yardstick.py"
    if [ -n "${PEER:-}" ]; then
        # PEER may have words of its own, so it is split at spaces.
        read -r -a peer <<<"$PEER"
        row "$values" peer "$script" "${peer[@]}" "$config"
        if cmp -s "$out" "$work/records"; then
            printf '%6d the output of peer equals that of ratelimit\n' "$values"
        else
            printf '%6d the output of peer differs from that of ratelimit\n' "$values"
        fi
    fi
done
