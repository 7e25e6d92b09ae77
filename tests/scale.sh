#!/usr/bin/env bash
# Runs HAProxy with examples/scale/haproxy.cfg before three instances of the real program, on loopback addresses alone.
# Usage: tests/scale.sh [PROGRAM]
# Prints `ok NAME` or `FAILED NAME: ...` for each case, and ends with 1 if any failed. It needs python3 and HAProxy (Debian: apt-get install -y python3
# haproxy). It isn't part of the gate. It makes 64,000 requests, which took 49 seconds on four cores that other work had in use.
set -u
here=$(cd "$(dirname "${BASH_SOURCE[0]}")" && pwd)
top=$(cd "$here/.." && pwd)
program=${1:-$top/crates/ratelimit/out/ratelimit}
files=$top/examples/scale
PATH=$PATH:/usr/sbin

for need in "$program" "$(command -v haproxy || echo haproxy)"; do
    if [ ! -e "$need" ]; then
        printf 'FAILED needs: there is no %s\n' "$need"
        exit 1
    fi
done

work=$(mktemp -d) || exit 1
declare -A running=()
trap 'for one in "${running[@]}"; do kill "$one" 2>/dev/null; done; wait 2>/dev/null; rm -rf "$work"' EXIT
failed=0

# The limits are an hour's, so no window ends in the middle of a run.
while [ $(($(date +%s) % 3600)) -ge 3480 ]; do sleep 1; done

# same NAME WANTED FOUND
same() {
    if [ "$2" = "$3" ]; then
        printf 'ok %s\n' "$1"
    else
        printf 'FAILED %s: %s, not %s\n' "$1" "$3" "$2"
        failed=1
    fi
}

same 'docs/SCALE.md shows haproxy.cfg' yes "$(python3 -c '
import sys
page, shown = (open(name).read() for name in sys.argv[1:])
print("yes" if "\n" + "".join(f"    {line}\n" for line in shown.splitlines()) in page else "no")' "$top/docs/SCALE.md" "$files/haproxy.cfg")"

# Ports that are free now, for the front and the instances.
read -r front one two three < <(python3 -c '
import socket
links = [socket.create_server(("127.0.0.1", 0)) for _ in range(4)]
print(*(link.getsockname()[1] for link in links))')

# listens PORT: waits until something listens there
listens() {
    for _ in $(seq 600); do
        (exec 3<>"/dev/tcp/127.0.0.1/$1") 2>/dev/null && return
        sleep 0.05
    done
    printf 'FAILED port %s: nothing listens\n' "$1"
    exit 1
}

# start NAME PORT: an instance
start() {
    timeout 300 "$program" serve --port "$2" --connections 100000 --workers 64 "$files/limits.json" </dev/null >"$work/$1.out" 2>"$work/$1.err" &
    running[$1]=$!
    listens "$2"
}

# stop NAME
stop() {
    kill "${running[$1]}"
    wait "${running[$1]}" 2>/dev/null
    unset "running[$1]"
}

# state NAME WANTED: waits until HAProxy says that this instance is UP or DOWN
state() {
    for _ in $(seq 600); do
        python3 - "$work/stats" "$1" "$2" <<'END' && return
import socket
import sys

link = socket.socket(socket.AF_UNIX)
link.connect(sys.argv[1])
link.sendall(b"show stat\n")
whole = b""
while piece := link.recv(65536):
    whole += piece
rows = [line.split(",") for line in whole.decode().splitlines() if line.startswith("limiters," + sys.argv[2] + ",")]
sys.exit(0 if [row[17] for row in rows] == [sys.argv[3]] else 1)
END
        sleep 0.1
    done
    printf 'FAILED %s: not %s\n' "$1" "$2"
    exit 1
}

# load NAME TIMES: sixteen callers ask so often for each of 200 keys
load() {
    timeout 120 python3 "$here/scale_client.py" load "$front" 16 200 "$2" "$work/$1"
}

# admitted NAME INSTANCE OP: how often the keys whose home was (or was not) this instance at first were admitted, each number once
admitted() {
    join <(sort "$work/first") <(sort "$work/$1") | awk -v home="$2" -v same="$3" '(($2 == home) == same) { print $5 }' | sort -nu | paste -sd' '
}

start one "$one"
start two "$two"
start three "$three"
# The ports of this run, a socket that tells the states, health checks twice as frequent, and more time for their answers on a busy machine.
sed "s/127\.0\.0\.1:8090/127.0.0.1:$front/; s/127\.0\.0\.1:8091/127.0.0.1:$one/; s/127\.0\.0\.1:8092/127.0.0.1:$two/
    s/127\.0\.0\.1:8093/127.0.0.1:$three/; s/inter 2s/inter 1s/; s/timeout check 5s/timeout check 20s/; s|^  maxconn 2000|&\n  stats socket $work/stats|" "$files/haproxy.cfg" >"$work/haproxy.cfg"
timeout 300 haproxy -db -f "$work/haproxy.cfg" >"$work/haproxy.out" 2>&1 &
running[front]=$!
listens "$front"
for name in one two three; do state "$name" UP; done

# status BODY: what the front answers
status() {
    python3 - "$front" "$1" <<'END'
import http.client
import sys

link = http.client.HTTPConnection("127.0.0.1", int(sys.argv[1]), timeout=20)
link.request("POST", "/json", sys.argv[2])
print(link.getresponse().status)
END
}
same 'two descriptors are refused by the front' 400 "$(status '{"domain":"shop","descriptors":[{"entries":[{"key":"user","value":"a"}]},{"entries":[{"key":"user","value":"b"}]}]}')"
same 'an entry without a value is refused by the front' 400 "$(status '{"domain":"shop","descriptors":[{"entries":[{"key":"user"}]}]}')"

same '40,000 requests: each key is admitted exactly 50 times, at one instance' \
    '40000 requests, 200 keys, 50 to 50 admitted, 0 other, 0 several' "$(load first 200)"
same 'each instance has keys' 'one three two' "$(awk '{ print $2 }' "$work/first" | sort -u | paste -sd' ')"
printf 'keys of each instance: %s\n' "$(awk '{ print $2 }' "$work/first" | sort | uniq -c | awk '{ print $2, $1 }' | paste -sd,)"

stop two
state two DOWN
load second 60 >"$work/said"
same 'one instance is stopped: all is answered' '12000 requests, 200 keys, 0 to 50 admitted, 0 other, 0 several' "$(cat "$work/said")"
same 'its keys begin anew at the others' 50 "$(admitted second two 1)"
same 'the other keys stay where they are, and are admitted no more' 0 "$(admitted second two 0)"
same 'the others have all keys' 'one three' "$(awk '{ print $2 }' "$work/second" | sort -u | paste -sd' ')"
same 'no key of the others has moved' 0 "$(join <(sort "$work/first") <(sort "$work/second") | awk '$2 != "two" && $2 != $4' | wc -l)"

start two "$two"
state two UP
load third 60 >"$work/said"
same 'it is started again: all is answered' '12000 requests, 200 keys, 0 to 50 admitted, 0 other, 0 several' "$(cat "$work/said")"
same 'its keys come back to it, and begin anew' 50 "$(admitted third two 1)"
same 'the other keys are admitted no more' 0 "$(admitted third two 0)"
same 'each key is where it was at first' 0 "$(join <(sort "$work/first") <(sort "$work/third") | awk '$2 != $4' | wc -l)"
exit "$failed"
