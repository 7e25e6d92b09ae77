#!/usr/bin/env bash
# Starts the real program as a server on a free port of the loopback address and drives it with curl and with plain sockets.
# Usage: tests/http.sh [PROGRAM]
# Prints `ok NAME` or `FAILED NAME: ...` for each case, and ends with 1 if any failed. It needs curl and python3.
set -u
here=$(cd "$(dirname "${BASH_SOURCE[0]}")" && pwd)
top=$(cd "$here/.." && pwd)
program=${1:-$top/crates/ratelimit/out/ratelimit}

if [ $# -eq 0 ]; then
    # The root script builds the program where it is missing or older than its sources; without words it ends with usage.
    "$top/ratelimit" </dev/null >/dev/null 2>&1
fi
if [ ! -x "$program" ]; then
    printf 'FAILED program: there is none at %s\n' "$program"
    exit 1
fi

work=$(mktemp -d) || exit 1
server=
trap '[ -n "$server" ] && kill "$server" 2>/dev/null; rm -rf "$work"' EXIT
failed=0

# The limits are a day's, so no window ends in the middle of a run.
while [ $(($(date +%s) % 86400)) -ge 86340 ]; do sleep 1; done

cat >"$work/limits.json" <<'END'
{"domain":"d","descriptors":[
  {"key":"k","rateLimit":{"unit":"DAY","requestsPerUnit":2}},
  {"key":"many","rateLimit":{"unit":"DAY","requestsPerUnit":5000}},
  {"key":"second","rateLimit":{"unit":"SECOND","requestsPerUnit":1}}]}
END

# same NAME WANTED FOUND
face=
same() {
    if [ "$2" = "$3" ]; then
        printf 'ok %s%s\n' "$face" "$1"
    else
        printf 'FAILED %s%s: %s, not %s\n' "$face" "$1" "$3" "$2"
        failed=1
    fi
}

# start CONNECTIONS WORD..: the server at $asked, with the words in `by`, and the port that it tells
asked=0
by=()
start() {
    local connections=$1
    shift
    : >"$work/out"
    timeout 120 "$program" serve --port "$asked" --connections "$connections" "${by[@]}" "$@" "$work/limits.json" \
        </dev/null >"$work/out" 2>"$work/err" &
    server=$!
    port=
    for _ in $(seq 200); do
        port=$(sed -n '1s/.*"listening":\([0-9]*\).*/\1/p' "$work/out")
        [ -n "$port" ] && break
        sleep 0.05
    done
    url=http://127.0.0.1:$port
}

# ended NAME LINES: the server has served its connections, and has printed so many lines
ended() {
    wait "$server"
    same "$1 ends" 0 "$?"
    server=
    same "$1 prints its lines" "$2" "$(wc -l <"$work/out")"
    same "$1 says nothing on standard error" 0 "$(wc -c <"$work/err")"
}

# status WORD..: the status that curl gets
status() {
    curl -s -o "$work/answer" -w '%{http_code}' --max-time 20 "$@"
}

ask='{"domain":"d","descriptors":[{"entries":[{"key":"k","value":"a"}]}]}'

# long N: so many zeros
long() {
    printf '%0*d' "$1" 0
}

# The same requests, whatever serves: workers, or tasks on one thread.
serves() {
    start 15
    same "the health check" 200 "$(status "$url/healthcheck")"
    same "its body" OK "$(cat "$work/answer")"
    same "the first check" 200 "$(status -d "$ask" "$url/json")"
    same "the second check" 200 "$(status -d "$ask" "$url/json")"
    same "the third check" 429 "$(status -d "$ask" "$url/json")"
    same "its overall code" '{"overallCode":"OVER_LIMIT"' "$(cut -d, -f1 "$work/answer")"
    same "a request without descriptors" 400 "$(status -d '{"domain":"d"}' "$url/json")"
    same "its refusal" '{"refused":{"at":"","number":21}}' "$(cat "$work/answer")"
    same "a body that is no JSON" 400 "$(status -d '{' "$url/json")"
    same "another path" 404 "$(status "$url/none")"
    same "another method" 405 "$(status "$url/json")"
    same "HEAD, which has no body" 405 "$(status -I "$url/json")"
    same "a body in chunks" 411 "$(status -H 'Transfer-Encoding: chunked' -d "$ask" "$url/json")"
    same "a body that is too long" 413 "$(status -H 'Content-Length: 1048577' -d "$ask" "$url/json")"
    same "a head that is too long" 431 "$(status -H "X: $(head -c 20000 /dev/zero | tr '\0' a)" "$url/healthcheck")"
    same "two requests on one connection" '200 200' \
        "$(curl -s -o "$work/answer" -o "$work/answer" -w '%{http_code} ' --max-time 20 "$url/healthcheck" "$url/healthcheck" | sed 's/ $//')"
    two='GET /healthcheck HTTP/1.1\r\n\r\nGET /healthcheck HTTP/1.1\r\n\r\n'
    same "two requests in one write" 2 \
        "$(printf "$two" | timeout 20 python3 "$here/http_client.py" raw "$port" | grep -o 'HTTP/1.1 200 OK' | wc -l)"
    same "a request that is cut" '' "$(printf 'GET /healthcheck HT' | timeout 20 python3 "$here/http_client.py" raw "$port")"
    ended "the server" 16
    same "the connections with two requests" 2 "$(grep -c '"answers":2,' "$work/out")"
    same "the connection that was cut" 1 "$(grep -c '"end":"CUT_SHORT"' "$work/out")"
    same "the last line" '{"answers":0,"connection":14,"end":"CUT_SHORT"}' "$(tail -1 "$work/out")"

    # A window of a second ends on a connection that is kept.
    start 1
    same "a limit of one hit a second" '200 429 200' "$(timeout 60 python3 "$here/http_client.py" window "$port")"
    ended "the server of one window" 2

    # Two requests of 29 and 114 bytes, cut after each of their bytes.
    start 144
    same "the answers of connections that are cut" '29 114 1' "$(timeout 60 python3 "$here/http_client.py" cut "$port")"
    ended "the server of cut connections" 145
    same "the connections that end between requests" '0 29 143' \
        "$(sed -n 's/.*"connection":\([0-9]*\),"end":"ENDED".*/\1/p' "$work/out" | tr '\n' ' ' | sed 's/ $//')"
    same "those that end inside one" 141 "$(grep -c '"end":"CUT_SHORT"' "$work/out")"

    # Requests whose answer closes the connection: what stands behind has no answer.
    start 8
    same "16384 bytes without an end" 'HTTP/1.1 431 ' \
        "$(printf 'GET / HTTP/1.1\r\nA: %s' "$(long 16365)" | timeout 20 python3 "$here/http_client.py" raw "$port" | grep -o 'HTTP/1.1 [0-9]* ')"
    for request in \
        "413 POST /json HTTP/1.1\r\nContent-Length: 1048577\r\n\r\n" \
        "400 POST /json HTTP/1.1\r\nContent-Length: 99999999999\r\n\r\n" \
        "411 POST /json HTTP/1.1\r\n\r\n" \
        "431 GET / HTTP/1.1$(long 65 | sed 's/0/\\nA:/g')\n\n" \
        "400 GET /healthcheck\r\n\r\n" \
        "404 GET / HTTP/1.0\r\n\r\n" \
        "404 GET / HTTP/1.1\r\nConnection: close\r\n\r\n"; do
        same "an answer that closes: ${request:0:40}" "HTTP/1.1 ${request:0:3} " \
            "$(printf "${request:4}GET /healthcheck HTTP/1.1\r\n\r\n" | timeout 20 python3 "$here/http_client.py" raw "$port" | grep -o 'HTTP/1.1 [0-9]* ')"
    done
    ended "the server of closing answers" 9
    same "their connections" 8 "$(grep -c '"answers":1,"connection":[0-7],"end":"CLOSED"' "$work/out")"

    start 2 --cells 1
    same "the counter that has the one cell" 200 "$(status -d "$ask" "$url/json")"
    same "the counter that finds none" 503 "$(status -d "${ask/\"a\"/\"b\"}" "$url/json")"
    ended "the server with one cell" 3

    start 20
    same "20000 requests of which 5000 are admitted" 5000 "$(timeout 110 python3 "$here/http_client.py" many "$port" 20 1000)"
    ended "the server of 20000 requests" 21
    same "their answers" 20 "$(grep -c '"answers":1000,' "$work/out")"
}

serves
# The port that is asked for, of which the loopback address alone is listened on.
for _ in $(seq 5); do
    asked=$(python3 -c 'import socket; s = socket.socket(); s.bind(("127.0.0.1", 0)); print(s.getsockname()[1])')
    start 1
    [ -n "$port" ] && break
    wait "$server"
done
same "the port that is asked for" "$asked" "$port"
same "the addresses that are listened on" 0100007F \
    "$(awk -v port="$(printf '%04X' "$asked")" '$4 == "0A" && sub(":" port "$", "", $2) { print $2 }' /proc/net/tcp /proc/net/tcp6 | tr '\n' ' ' | sed 's/ $//')"
timeout 20 "$program" serve --port "$asked" --connections 1 "$work/limits.json" </dev/null >"$work/taken" 2>"$work/taken.err"
same "a port that is taken" 8 "$?"
same "its output" '' "$(cat "$work/taken")"
same "its text" 'ratelimit: listen failed' "$(cat "$work/taken.err")"
same "the server that has the port" 200 "$(status "$url/healthcheck")"
ended "the server of the asked port" 2
asked=0

start 4 --workers 2
same "a kept idle connection doesn't hold up others with two workers" '3 1' "$(timeout 60 python3 "$here/http_client.py" idle "$port" 1 3)"
ended "the server of two workers" 5
same "the lines stand in the order of accepting" '0 1 2 3' "$(sed -n 's/.*"connection":\([0-9]*\).*/\1/p' "$work/out" | tr '\n' ' ' | sed 's/ $//')"

start 4
same "by default three kept idle connections don't hold up another one" '1 3' "$(timeout 60 python3 "$here/http_client.py" idle "$port" 3 1)"
ended "the server of the default workers" 5

start 64 --workers 64
same "64 connections at once" 64 "$(timeout 60 python3 "$here/http_client.py" beside "$port" 64)"
ended "the server of 64 connections" 65

# Connections as tasks on one thread.
face='tasks: ' by=(--tasks 256)
serves
start 200
same "150 silent connections don't hold up 50 that ask 20 times each" '1000 150' "$(timeout 60 python3 "$here/http_client.py" silent "$port" 150 50 20)"
ended "the server of silent connections" 201
same "the connections that asked" 50 "$(grep -c '"answers":20,.*"end":"ENDED"' "$work/out")"
start 256
same "256 connections at once" 256 "$(timeout 60 python3 "$here/http_client.py" beside "$port" 256)"
ended "the server of 256 connections" 257

exit "$failed"
