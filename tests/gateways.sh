#!/usr/bin/env bash
# Runs nginx and HAProxy with the files of examples/gateways before the real program and an application, on loopback addresses alone.
# Usage: tests/gateways.sh [PROGRAM]
# Prints `ok NAME` or `FAILED NAME: ...` for each case, and ends with 1 if any failed. It needs curl, python3, nginx with njs, and HAProxy with Lua
# (Debian: apt-get install -y curl python3 nginx libnginx-mod-http-js haproxy). It isn't part of the gate, and takes some seconds.
set -u
here=$(cd "$(dirname "${BASH_SOURCE[0]}")" && pwd)
top=$(cd "$here/.." && pwd)
program=${1:-$top/crates/ratelimit/out/ratelimit}
files=$top/examples/gateways
module=/usr/lib/nginx/modules/ngx_http_js_module.so
PATH=$PATH:/usr/sbin

for need in "$program" "$(command -v curl || echo curl)" "$(command -v nginx || echo nginx)" "$(command -v haproxy || echo haproxy)" "$module"; do
    if [ ! -e "$need" ]; then
        printf 'FAILED needs: there is no %s\n' "$need"
        exit 1
    fi
done

work=$(mktemp -d) || exit 1
chmod 755 "$work"
server=
gateway=
app=
one=
trap 'for one in $server $gateway $app; do kill "$one" 2>/dev/null; done; wait 2>/dev/null; rm -rf "$work"' EXIT
failed=0

# The limits are an hour's, so no window ends in the middle of a run.
while [ $(($(date +%s) % 3600)) -ge 3480 ]; do sleep 1; done

# same NAME WANTED FOUND
same() {
    if [ "$2" = "$3" ]; then
        printf 'ok %s\n' "$1"
    else
        printf 'FAILED %s: %s, not %s\n' "$1" "$3" "$2"
        failed=1
    fi
}

for file in nginx.conf njs.conf limit.js haproxy.cfg limit.lua; do
    same "docs/GATEWAYS.md shows $file" yes "$(python3 -c '
import sys
page, shown = (open(name).read() for name in sys.argv[1:])
print("yes" if "\n" + "".join(f"    {line}\n" for line in shown.splitlines()) in page else "no")' "$top/docs/GATEWAYS.md" "$files/$file")"
done

# Ports that are free now, for the gateway, the limiter and the application.
read -r front limiter back < <(python3 -c '
import socket
links = [socket.create_server(("127.0.0.1", 0)) for _ in range(3)]
print(*(link.getsockname()[1] for link in links))')

# placed FILE: an example's file with this run's ports and folder, and with ten times the time for an answer, which a busy machine may need
placed() {
    sed "s/200ms/5s/; s/500ms/5s/; s/timeout = 500/timeout = 5000/; s/127\.0\.0\.1:8080/127.0.0.1:$front/; s/127\.0\.0\.1:8081/127.0.0.1:$limiter/; s/127\.0\.0\.1:8082/127.0.0.1:$back/
        s|/etc/haproxy/|$work/|" "$files/$1"
}

# listens PORT: waits until something listens there
listens() {
    for _ in $(seq 600); do
        (exec 3<>"/dev/tcp/127.0.0.1/$1") 2>/dev/null && return
        sleep 0.05
    done
    printf 'FAILED port %s: nothing listens\n' "$1"
    exit 1
}

# start CONNECTIONS: the program, which ends after so many connections
start() {
    timeout 300 "$program" serve --port "$limiter" --connections "$1" "$files/limits.json" </dev/null >"$work/out" 2>"$work/err" &
    server=$!
    for _ in $(seq 600); do
        grep -q listening "$work/out" && return
        sleep 0.05
    done
}

# ended NAME WANTED: the program has served its connections, with so many answers on them together
ended() {
    for _ in $(seq 600); do
        kill -0 "$server" 2>/dev/null || break
        sleep 0.05
    done
    same "$1" "$2" "$(sed -n 's/.*"answers":\([0-9]*\).*/\1/p' "$work/out" | awk '{ sum += $1 } END { print NR " connections, " sum + 0 " answers" }')"
    kill "$server" 2>/dev/null
    wait "$server" 2>/dev/null
    server=
}

# status USER [WORD..]: the status of a request of this user
status() {
    local user=$1
    shift
    curl -s -o "$work/answer" -w '%{http_code}' --max-time 10 -H "X-User: $user" "$@" "http://127.0.0.1:$front${path:-/}"
}

# stop: the gateway ends
stop() {
    kill "$gateway"
    wait "$gateway" 2>/dev/null
    gateway=
}

# The application: 403 for /forbidden, else 200 with the length of the body that it got.
cat >"$work/app.py" <<'END'
import http.server
import sys


class App(http.server.BaseHTTPRequestHandler):
    def do_GET(self):
        length = len(self.rfile.read(int(self.headers.get("Content-Length", 0))))
        self.send_response(403 if self.path == "/forbidden" else 200)
        self.end_headers()
        self.wfile.write(b"app %d" % length)

    do_POST = do_GET

    def log_message(self, *words):
        pass


http.server.ThreadingHTTPServer(("127.0.0.1", int(sys.argv[1])), App).serve_forever()
END
timeout 300 python3 "$work/app.py" "$back" &
app=$!
listens "$back"

fields=()
for i in $(seq 70); do
    fields+=(-H "X-Field-$i: $(printf '%0300d' 0)")
done

# asks NAME FIELDS: what each gateway has to do, with eleven checks, one of them of a request with so many fields
asks() {
    same "$1: two requests of one user and a third" '200 200 429' "$(status ann) $(status ann) $(status ann)"
    same "$1: the text of the third" 'too many requests' "$(cat "$work/answer")"
    same "$1: a request with a body" '200 app 5' "$(status bob -d hello) $(cat "$work/answer")"
    same "$1: the application's own 403" 403 "$(path=/forbidden status bob)"
    same "$1: many fields of 300 bytes, which the limiter isn't given" 200 "$(status eve "${fields[@]:0:$2}")"
    same "$1: names that are none count on one counter" '200 200 429 429 429' \
        "$(status 'a"b') $(status "$(printf '%02000d' 0)") $(status 'a b') $(status '{}') $(status '\')"
}

# nginx_with FILE LINE: nginx with this file of the examples and this first line, in the foreground of its own process
nginx_with() {
    placed "$1" >"$work/limit.conf"
    cat >"$work/nginx.conf" <<END
$2
worker_processes 1;
error_log $work/error.log;
pid $work/nginx.pid;
events { worker_connections 64; }
http {
  access_log off;
  large_client_header_buffers 8 32k;
  client_body_temp_path $work/t1; proxy_temp_path $work/t2; fastcgi_temp_path $work/t3; uwsgi_temp_path $work/t4; scgi_temp_path $work/t5;
  include $work/limit.conf;
}
END
    timeout 300 nginx -p "$work" -c "$work/nginx.conf" -g 'daemon off;' 2>>"$work/nginx.err" &
    gateway=$!
    listens "$front"
}

for kind in 'nginx.conf' 'njs.conf'; do
    module_line=
    [ "$kind" = njs.conf ] && module_line="load_module $module;"
    cp "$files/limit.js" "$work/limit.js"
    # Only njs reads whole answers, and so keeps its connection.
    connections=11
    [ "$kind" = njs.conf ] && connections=1
    start "$connections"
    nginx_with "$kind" "$module_line"
    asks "$kind" 70
    # A new start of nginx's workers ends the connection that it keeps.
    kill -HUP "$(cat "$work/nginx.pid")"
    ended "$kind: the connections of its checks" "$connections connections, 11 answers"
    same "$kind: without the limiter requests pass" '200 200 200' "$(status ann) $(status ann) $(status ann)"
    stop
done

# The choice to refuse where nothing was decided: nginx without the line that lets requests pass.
placed nginx.conf | grep -v ' = /_allow;' >"$work/limit.conf"
timeout 300 nginx -p "$work" -c "$work/nginx.conf" -g 'daemon off;' 2>>"$work/nginx.err" &
gateway=$!
listens "$front"
same 'nginx.conf without its line: without the limiter requests are refused' 500 "$(status ann)"
stop

# haproxy_with: HAProxy with the file at $work/haproxy.cfg, in the foreground
haproxy_with() {
    timeout 300 haproxy -db -f "$work/haproxy.cfg" >>"$work/haproxy.err" 2>&1 &
    gateway=$!
    listens "$front"
}
placed limit.lua >"$work/limit.lua"
placed haproxy.cfg >"$work/haproxy.cfg"
start 1000
haproxy_with
asks haproxy.cfg 20
# How many connections its client keeps depends on its threads. The limiter is stopped.
same 'haproxy.cfg: connections are kept' 1 "$(python3 -c '
import sys
rows = [row.split() for row in open("/proc/net/tcp").readlines()[1:]]
print(int(any(row[2].endswith(":%04X" % int(sys.argv[1])) and row[3] == "01" for row in rows)))' "$limiter")"
kill "$server"
wait "$server" 2>/dev/null
server=
same 'haproxy.cfg: without the limiter requests pass' '200 200 200' "$(status ann) $(status ann) $(status ann)"
stop
sed -i 's/^  # http-request return status 503/  http-request return status 503/' "$work/haproxy.cfg"
haproxy_with
same 'haproxy.cfg with its line: without the limiter requests are refused' 503 "$(status ann)"
stop
exit "$failed"
