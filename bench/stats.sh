#!/usr/bin/env bash
# Measures what statistics cost: the processor's time of a request of `serve --tasks 256` with `--stats` and without, at 64 kept connections
# that ask for one value of a key and for 64 (bench/serve.sh, which says more; SECS and REPS are for it); the time of `drive` with `--stats`
# and without, over a script of LINES checks (200000) in turn, RUNS times (5), as the ratio of the medians; and the time in which `GET /stats`
# is answered over 65,536 rules of which 900 counted, the median of 50. It needs wrk and python3.
# Run it at the top of the repository: bench/stats.sh [PROGRAM]
set -u
. "$(dirname "${BASH_SOURCE[0]}")/lib.sh"
program=$(realpath "${1:-$top/crates/ratelimit/out/ratelimit}") || exit 1
if [ ! -x "$program" ]; then
    printf 'there is no program at %s: build it with %s/ratelimit\n' "$program" "$top" >&2
    exit 1
fi

for keys in 1 64; do
    printf 'keys: %s\n' "$keys"
    KEYS=$keys PEERS="with-stats $program serve --stats --port @PORT@ --connections 1048576 --tasks 256 @CONFIG@" \
        bash "$top/bench/serve.sh" "$program" 64
done

cat >"$work/stats.py" <<'PY'
# stats.py FOLDER PROGRAM: the ratio of drive, and the time of GET /stats
import json, os, re, resource, socket, statistics, subprocess, sys, time

folder, program = sys.argv[1], sys.argv[2]
lines, runs = int(os.environ.get("LINES", "200000")), int(os.environ.get("RUNS", "5"))


def check(key, value):
    return json.dumps({"domain": "d", "descriptors": [{"entries": [{"key": key, "value": value}]}]}, separators=(",", ":"))


def config(name, keys):
    rules = [{"key": f"r{at}", "rateLimit": {"unit": "DAY", "requestsPerUnit": 1000}} for at in range(keys)]
    with open(f"{folder}/{name}", "w") as it:
        json.dump({"domain": "d", "descriptors": rules}, it)


def spent(words):
    before = resource.getrusage(resource.RUSAGE_CHILDREN)
    with open(f"{folder}/script") as script:
        subprocess.run(words, stdin=script, stdout=subprocess.DEVNULL, check=True)
    after = resource.getrusage(resource.RUSAGE_CHILDREN)
    return after.ru_utime + after.ru_stime - before.ru_utime - before.ru_stime


config("twenty.json", 20)
with open(f"{folder}/script", "w") as it:
    for at in range(lines):
        it.write('{"check":%s}\n' % check(f"r{at % 20}", f"v{at % 1000}"))
found = {"plain": [], "stats": []}
for _ in range(runs):
    found["plain"].append(spent([program, "drive", f"{folder}/twenty.json"]))
    found["stats"].append(spent([program, "drive", "--stats", f"{folder}/twenty.json"]))
plain, stats = (statistics.median(found[name]) for name in ("plain", "stats"))
print(f"drive: {plain * 1e6 / lines:.2f} us a line, with --stats {stats * 1e6 / lines:.2f}: {stats / plain:.2f}")

config("many.json", 65536)
server = subprocess.Popen([program, "serve", "--stats", "--port", "0", "--connections", "1", "--tasks", "1", f"{folder}/many.json"],
                          stdin=subprocess.DEVNULL, stdout=subprocess.PIPE)
port = int(re.match(rb'{"listening":(\d+)}', server.stdout.readline()).group(1))
with socket.create_connection(("127.0.0.1", port), 60) as link, link.makefile("rb") as file:
    def answer():
        length = 0
        while (line := file.readline()) not in (b"\r\n", b""):
            if line.lower().startswith(b"content-length:"):
                length = int(line.split(b":")[1])
        return file.read(length)

    for at in range(900):
        body = check(f"r{at * 65}", "a").encode()
        link.sendall(b"POST /json HTTP/1.1\r\nContent-Length: %d\r\n\r\n" % len(body) + body)
        answer()
    times = []
    for _ in range(50):
        began = time.perf_counter()
        link.sendall(b"GET /stats HTTP/1.1\r\n\r\n")
        told = answer()
        times.append(time.perf_counter() - began)
server.wait()
print(f"GET /stats: {statistics.median(times) * 1e3:.2f} ms for {told.count(b'rule') - 1} rules of 65,536")
PY
python3 "$work/stats.py" "$work" "$program"
