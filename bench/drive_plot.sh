#!/usr/bin/env bash
# Draws docs/drive.png: the processor's time a line and the peak memory of `ratelimit drive --workers 1` against the number of lines, from
# 1,000 to 524,288 (a script of twice as many such lines is longer than an input may be), beside those of the command in PEER, which takes
# the configuration's name as its last word, and the script.
# `hot` checks one value of one key, `wide` 20,000 values of another; every 1,000th line is a tick. Each time is the mean of the faster half
# of 30 runs that take turns (10 from 65,536 lines on), less that of an empty script. It prints the table that it draws, with the megabytes
# of each script. It needs gnuplot.
# Run it at the top of the repository: PEER=COMMAND bench/drive_plot.sh [PROGRAM] [MOST LINES, 524288 unless given]
set -u
. "$(dirname "${BASH_SOURCE[0]}")/lib.sh"
program=${1:-$top/crates/ratelimit/out/ratelimit}
most=${2:-524288}
if [ ! -x "$program" ]; then
    printf 'there is no program at %s: build it with %s/ratelimit\n' "$program" "$top" >&2
    exit 1
fi
read -r -a peer <<<"${PEER:?PEER is the command to compare with}"
config=$work/config.json
LC_ALL=C

cat >"$config" <<'JSON'
{"domain":"d","descriptors":[{"key":"k","rateLimit":{"unit":"MINUTE","requestsPerUnit":30000}},{"key":"u","rateLimit":{"unit":"HOUR","requestsPerUnit":5}}]}
JSON

# script_of KIND LINES
script_of() {
    awk -v kind="$1" -v lines="$2" 'BEGIN {
        for (i = 0; i < lines; i++) {
            if (i % 1000 == 0) {
                printf "{\"tick\":%d}\n", i / 1000
            } else {
                entry = kind == "hot" ? "\"key\":\"k\",\"value\":\"a\"" : sprintf("\"key\":\"u\",\"value\":\"user%d\"", i * 7919 % 20000)
                printf "{\"check\":{\"domain\":\"d\",\"descriptors\":[{\"entries\":[{%s}]}]}}\n", entry
            }
        }
    }'
}

cat >"$work/measure.py" <<'PY'
# The milliseconds of each command beyond those on an empty script, by the faster half of so many runs, and the peak kilobytes:
# measure.py RUNS SCRIPT EMPTY COMMAND.. -- COMMAND..
import os, statistics, sys


def run(words, script, out):
    pid = os.fork()
    if pid == 0:
        os.dup2(os.open(script, os.O_RDONLY), 0)
        os.dup2(os.open(out, os.O_WRONLY | os.O_CREAT | os.O_TRUNC, 0o600), 1)
        os.execvp(words[0], words)
    _, status, used = os.wait4(pid, 0)
    if status:
        sys.exit(f"{words[0]} ended with {status}")
    return (used.ru_utime + used.ru_stime) * 1000, used.ru_maxrss


def faster(times):
    return statistics.mean(sorted(times)[: runs // 2])


runs, script, empty, words = int(sys.argv[1]), sys.argv[2], sys.argv[3], sys.argv[4:]
cut = words.index("--")
commands = [words[:cut], words[cut + 1:]]
found = [[], []]
for _ in range(runs):
    for command, rows in zip(commands, found):
        start = run(command, empty, script + ".out")[0]
        time, peak = run(command, script, script + ".out")
        rows.append((start, time, peak))
print(*(f"{max(faster(r[1] for r in rows) - faster(r[0] for r in rows), 0):.3f} {max(r[2] for r in rows)}" for rows in found))
PY

: >"$work/empty"
printf '%-5s %8s %7s %12s %12s %7s %10s %10s\n' what lines MB ns/line peer ratio peak_MB peer_MB
for kind in hot wide; do
    for lines in 1000 4096 16384 65536 262144 524288; do
        [ "$lines" -le "$most" ] || continue
        script=$work/$kind-$lines.jsonl
        script_of "$kind" "$lines" >"$script"
        [ "$lines" -lt 65536 ] && runs=30 || runs=10
        read -r own own_peak other other_peak < <(python3 "$work/measure.py" "$runs" "$script" "$work/empty" "$program" drive --workers 1 "$config" -- "${peer[@]}" "$config")
        bytes=$(stat -c %s "$script")
        awk -v kind="$kind" -v n="$lines" -v bytes="$bytes" -v a="$own" -v p="$own_peak" -v b="$other" -v q="$other_peak" 'BEGIN {
            printf "%-5s %8d %7.2f %12.0f %12.0f %7s %10.1f %10.1f\n", kind, n, bytes / 1e6, a * 1e6 / n, b * 1e6 / n,
                (b > 0) ? sprintf("%.2f", a / b) : "-", p / 1024, q / 1024
        }' | tee -a "$work/$kind.table"
        rm -f "$script" "$script.out"
    done
done

gnuplot <<PLOT
set terminal pngcairo size 1100,480 font 'Helvetica,11'
set output '$top/docs/drive.png'
set logscale x
set grid
set key left top
set xlabel 'lines'
set multiplot layout 1,2
set ylabel 'nanoseconds of the processor a line'
set yrange [0:*]
plot '$work/hot.table' using 2:4 with linespoints title 'ratelimit, hot', '' using 2:5 with linespoints title 'peer, hot', \
     '$work/wide.table' using 2:4 with linespoints title 'ratelimit, wide', '' using 2:5 with linespoints title 'peer, wide'
set logscale y
set yrange [*:*]
set ylabel 'peak megabytes'
plot '$work/hot.table' using 2:7 with linespoints title 'ratelimit, hot', '' using 2:8 with linespoints title 'peer, hot', \
     '$work/wide.table' using 2:7 with linespoints title 'ratelimit, wide', '' using 2:8 with linespoints title 'peer, wide', \
     '$work/hot.table' using 2:3 with lines dashtype 2 title 'script, hot', '$work/wide.table' using 2:3 with lines dashtype 2 title 'script, wide'
unset multiplot
PLOT
