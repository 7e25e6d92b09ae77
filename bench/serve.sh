#!/usr/bin/env bash
# Measures the processor's time of a request of `ratelimit serve`, by the number of kept connections: with a thread for each of up to 64
# (--workers 64), and with one thread for all (--tasks 256), beside the commands in PEERS: a line NAME COMMAND for each, where @PORT@ and
# @CONFIG@ stand for the port and the configuration's name. All connections ask for KEYS values of one key in turn (1), and each is
# answered 200. The servers take turns, SECS seconds each (1), REPS times (3); a number is the median of its repetitions. With SILENT=N
# that many more connections are kept beside them that ask nothing (0); --workers is left out then, since each has a thread of its own.
# It prints a table; its last column is how many processors others kept busy meanwhile. With PICTURE=FILE.png it draws the time of a
# request. It needs wrk and python3, and for a picture gnuplot.
# Run it at the top of the repository: bench/serve.sh [PROGRAM] [CONNECTIONS.., 1 4 16 64 256 unless given]
set -u
. "$(dirname "${BASH_SOURCE[0]}")/lib.sh"
program=${1:-$top/crates/ratelimit/out/ratelimit}
[ $# -eq 0 ] || shift
[ $# -gt 0 ] || set -- 1 4 16 64 256
if [ ! -x "$program" ]; then
    printf 'there is no program at %s: build it with %s/ratelimit\n' "$program" "$top" >&2
    exit 1
fi
command -v wrk >/dev/null || {
    printf 'wrk is not there\n' >&2
    exit 1
}
LC_ALL=C
export LC_ALL

cat >"$work/config.json" <<'JSON'
{"domain":"d","descriptors":[{"key":"k","rateLimit":{"unit":"MINUTE","requestsPerUnit":4000000000}}]}
JSON

cat >"$work/ask.lua" <<'LUA'
local keys, place, bodies = tonumber(os.getenv("KEYS") or "1"), 0, {}
function init()
    for key = 1, keys do
        local body = '{"domain":"d","descriptors":[{"entries":[{"key":"k","value":"v' .. key .. '"}]}]}'
        bodies[key] = wrk.format("POST", "/json", {}, body)
    end
end
function request()
    place = place % keys + 1
    return bodies[place]
end
function done(summary, latency)
    local e = summary.errors
    local wrong = e.connect + e.read + e.write + e.timeout + e.status
    io.write(string.format("FOUND %d %d %d %d\n", summary.requests, summary.duration, latency:percentile(99), wrong))
end
LUA

cat >"$work/measure.py" <<'PY'
# measure.py FOLDER PROGRAM CONNECTIONS..: prints a line for each server and number of connections
import os, re, resource, socket, statistics, subprocess, sys, time

folder, program, counts = sys.argv[1], sys.argv[2], [int(word) for word in sys.argv[3:]]
secs, reps, silent = (int(os.environ.get(name, default)) for name, default in (("SECS", "1"), ("REPS", "3"), ("SILENT", "0")))
hard = resource.getrlimit(resource.RLIMIT_NOFILE)[1]
resource.setrlimit(resource.RLIMIT_NOFILE, (hard, hard))
tick = os.sysconf("SC_CLK_TCK")


def free_port():
    with socket.socket() as one:
        one.bind(("127.0.0.1", 0))
        return one.getsockname()[1]


def started(words):
    """The server and its port, once it takes connections; a serve tells its port, and no connection is spent on asking."""
    port = free_port()
    words = [word.replace("@PORT@", str(port)).replace("@CONFIG@", folder + "/config.json") for word in words]
    is_own = words[0] == program
    out = subprocess.PIPE if is_own else subprocess.DEVNULL
    server = subprocess.Popen(words, stdin=subprocess.DEVNULL, stdout=out, stderr=subprocess.DEVNULL)
    if is_own:
        found = re.match(rb'{"listening":(\d+)}', server.stdout.readline())
        return server, int(found.group(1)) if found else None
    for _ in range(100):
        try:
            socket.create_connection(("127.0.0.1", port), 1).close()
            return server, port
        except OSError:
            time.sleep(0.05)
    return server, None


def spent(pid):
    with open(f"/proc/{pid}/stat") as it:
        words = it.read().rsplit(")", 1)[1].split()
    return (int(words[11]) + int(words[12])) / tick


def busy():
    with open("/proc/stat") as it:
        words = [int(word) for word in it.readline().split()[1:9]]
    return (sum(words) - words[3] - words[4]) / tick


def one_run(port, pid, count):
    threads = "1" if count == 1 else "2"
    words = ["wrk", "-t" + threads, f"-c{count}", f"-d{secs}s", "--timeout", "10s", "-s", folder + "/ask.lua"]
    words.append(f"http://127.0.0.1:{port}/json")
    others, began, before = busy(), time.time(), spent(pid)
    kids = sum(os.times()[2:4])
    out = subprocess.run(words, capture_output=True).stdout
    used, own = spent(pid) - before, sum(os.times()[2:4]) - kids
    found = re.search(rb"FOUND (\d+) (\d+) (\d+) (\d+)", out)
    if not found or int(found.group(1)) == 0:
        return None
    requests, micros, late, wrong = (int(word) for word in found.groups())
    load = (busy() - others - used - own) / (time.time() - began)
    return used * 1e6 / requests, requests * 1e6 / micros, late, wrong, load


def measured(words, count, found):
    server, port = started(words)
    try:
        if port is None:
            return
        kept = [socket.create_connection(("127.0.0.1", port), 10) for _ in range(silent)]
        one = one_run(port, server.pid, count)
        if one:
            found.append(one)
        for link in kept:
            link.close()
    except OSError:
        pass
    finally:
        server.kill()
        server.wait()


serve = [program, "serve", "--port", "0", "--connections", "1048576"]
servers = [] if silent else [("serve-workers", serve + ["--workers", "64", "@CONFIG@"])]
servers.append(("serve-tasks", serve + ["--tasks", "256", "@CONFIG@"]))
for line in os.environ.get("PEERS", "").splitlines():
    name, _, command = line.strip().partition(" ")
    if command:
        servers.append((name, command.split()))
for count in counts:
    found = {name: [] for name, _ in servers}
    for turn in range(reps):
        for place in range(len(servers)):
            name, words = servers[(place + turn) % len(servers)]
            measured(words, count, found[name])
    first = statistics.median(row[0] for row in found["serve-tasks"]) if found["serve-tasks"] else None
    for name, _ in servers:
        rows = found[name]
        if rows:
            cpu, rate, late, wrong, load = (statistics.median(row[column] for row in rows) for column in range(5))
            ratio = f"{cpu / first:.2f}" if first else "-"
            told = f"{cpu:10.2f} {ratio:>8} {rate:10.0f} {late / 1000:8.2f} {wrong:6.0f} {load:7.1f}"
        else:
            told = " ".join("-".rjust(width) for width in (10, 8, 10, 8, 6, 7))
        print(f"{name:<14} {count:11d} {told}", flush=True)
PY

printf '%-14s %11s %10s %8s %10s %8s %6s %7s\n' server connections us/request of_tasks requests/s p99_ms wrong others
python3 "$work/measure.py" "$work" "$program" "$@" | tee "$work/table"

[ -n "${PICTURE:-}" ] || exit 0
plot=
for name in $(cut -d' ' -f1 "$work/table" | sort -u); do
    grep "^$name " "$work/table" >"$work/$name.table"
    plot="$plot${plot:+, }'$work/$name.table' using 2:3 with linespoints title '$name'"
done
gnuplot <<PLOT
set terminal pngcairo size 700,480 font 'Helvetica,11'
set output '$PICTURE'
set logscale x 2
set grid
set key left top
set datafile missing '-'
set xlabel 'kept connections'
set ylabel 'microseconds of the processor a request'
set yrange [0:*]
plot $plot
PLOT
