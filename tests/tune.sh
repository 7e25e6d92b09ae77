#!/usr/bin/env bash
# Runs the commands of docs/TUNE.md in an empty folder, and compares what they print with what the page shows.
# Usage: tests/tune.sh [PROGRAM]
# Prints `ok NAME` or `FAILED NAME: ...` for each case, and ends with 1 if any failed. It needs python3.
set -u
here=$(cd "$(dirname "${BASH_SOURCE[0]}")" && pwd)
top=$(cd "$here/.." && pwd)
program=$(realpath "${1:-$top/crates/ratelimit/out/ratelimit}")
work=$(mktemp -d) || exit 1
trap 'rm -rf "$work"' EXIT
failed=0

if [ ! -x "$program" ]; then
    printf 'FAILED program: there is none at %s\n' "$program"
    exit 1
fi

# same NAME WANTED FOUND
same() {
    if [ "$2" = "$3" ]; then
        printf 'ok %s\n' "$1"
    else
        printf 'FAILED %s: %s, not %s\n' "$1" "$3" "$2"
        failed=1
    fi
}

ln -s "$program" "$work/ratelimit"
ln -s "$top/examples" "$work/examples"
# The indented blocks of the page, each a file: those that run something, and those that show what came of it.
python3 - "$top/docs/TUNE.md" "$work" <<'END'
import itertools
import sys

blocks = [list(lines) for indented, lines in itertools.groupby(open(sys.argv[1]), lambda line: line.startswith("    ")) if indented]
for number, block in enumerate(blocks):
    kind = "shown" if block[0][4] in '0123456789 {' else "run"
    open(f"{sys.argv[2]}/{number:02}.{kind}", "w").writelines(line[4:] for line in block)
END
cd "$work" || exit 1
runs=0
for block in *.run; do
    timeout 60 bash "./$block" >said 2>&1
    next=$(printf '%02d' $((10#${block%.run} + 1))).shown
    same "${block%.run}: $(head -n 1 "$block" | cut -c 1-60)" '' "$(diff said "$next" 2>&1)"
    runs=$((runs + 1))
done
same 'blocks that ran' 5 "$runs"
same 'the limits that the page shows' '' "$(diff examples/tune/limits.json ./*4.shown 2>&1)"

# One line of each format, with an address of each kind.
haproxy='Jan  1 00:00:05 lb haproxy[12]: 2001:db8::7:53211 [01/Jan/2026:00:00:05.123] front app/s1 0/0/1/2/3 200 123 - - ---- 1/1/0/0/0 0/0 "GET /a?b HTTP/1.1"'
nginx='2001:db8::7 - ann [01/Jan/2026:00:00:05 +0000] "POST /a?b HTTP/1.1" 200 2131 "-" "curl/8.0"'
printf '%s\n' '{"tick": 1767225605}' "{\"check\": {\"domain\": \"trial\", \"descriptors\": [{\"entries\": [{\"key\": \"remote_address\", \"value\": \
\"2001:db8::7\"}]}, {\"entries\": [{\"key\": \"path\", \"value\": \"/a\"}, {\"key\": \"remote_address\", \"value\": \"2001:db8::7\"}]}]}}" >wanted
for line in "$haproxy" "$nginx" "${haproxy#*: }"; do
    same "a line: ${line:0:30}" '' "$(printf '%s\n' "$line" | python3 examples/tune/to_script.py | diff - wanted)"
done
exit "$failed"
