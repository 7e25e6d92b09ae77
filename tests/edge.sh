#!/usr/bin/env bash
# Runs the real program with real files, pipes and closed descriptors, and compares exit status, output and error text.
# Usage: tests/edge.sh [PROGRAM]
# Prints `ok NAME` or `FAILED NAME: ...` for each case, and ends with 1 if any failed.
set -u
here=$(cd "$(dirname "${BASH_SOURCE[0]}")" && pwd)
top=$(cd "$here/.." && pwd)
program=${1:-$top/crates/ratelimit/out/ratelimit}

if [ $# -eq 0 ]; then
    # The root script builds the program where it is missing or older than its sources; without words it ends with usage.
    "$top/ratelimit" </dev/null >/dev/null 2>&1
fi
if [ ! -x "$program" ]; then
    printf 'FAILED program: there is none at %s\n' "$program"
    exit 1
fi

work=$(mktemp -d) || exit 1
trap 'rm -rf "$work"' EXIT
out=$work/out
err=$work/err
none=$work/none
: >"$none"
config=$top/examples/minute.json
script=$top/examples/script.jsonl
minute=$here/minute.out
failed=0

# Runs the program with these words. A run that doesn't end is stopped after a minute, with status 124.
run() {
    timeout 60 "$program" "$@"
}

# judge NAME STATUS EXPECTED OUTPUT STANDS [TEXT]
# Compares the last run: it ended with STATUS and should have ended with EXPECTED; the file $out should equal OUTPUT; the
# error text is empty after status 0, else it isn't and has TEXT in it. `-` as OUTPUT: the output can't be seen.
judge() {
    local name=$1 status=$2 expected=$3 output=$4 text=${5:-} faults=
    if [ "$status" != "$expected" ]; then
        faults="$faults; status $status, not $expected"
    fi
    if [ "$output" != - ] && ! cmp -s "$out" "$output"; then
        faults="$faults; the output differs from $(basename "$output")"
    fi
    if [ "$expected" = 0 ] && [ -s "$err" ]; then
        faults="$faults; there is an error text"
    fi
    if [ "$expected" != 0 ] && [ ! -s "$err" ]; then
        faults="$faults; there is no error text"
    fi
    if [ -n "$text" ] && ! grep -qF -- "$text" "$err"; then
        faults="$faults; the error text lacks '$text'"
    fi
    if [ -z "$faults" ]; then
        printf 'ok %s\n' "$name"
    else
        printf 'FAILED %s: %s\n' "$name" "${faults#; }"
        failed=1
    fi
}

# Words. Nothing is written.

run </dev/null >"$out" 2>"$err"
judge no-words $? 1 "$none"

run serve "$config" <"$script" >"$out" 2>"$err"
judge unknown-command $? 1 "$none"

run drive <"$script" >"$out" 2>"$err"
judge drive-without-file $? 1 "$none"

run drive $'\xff.json' <"$script" >"$out" 2>"$err"
judge word-not-utf8 $? 1 "$none" 'ratelimit: usage'

run drive -x <"$script" >"$out" 2>"$err"
judge option-only $? 1 "$none"

run drive --cells 0 "$config" <"$script" >"$out" 2>"$err"
judge cells-out-of-range $? 1 "$none" 'ratelimit: usage'

run drive --workers 65 "$config" <"$script" >"$out" 2>"$err"
judge too-many-workers $? 1 "$none" 'ratelimit: usage'

# Four workers answer checks of different counters as one worker does, but for the workers' numbers.
for user in a b c d e f g h; do
    printf '{"check":{"domain":"shop","descriptors":[{"entries":[{"key":"user","value":"%s"}]}]}}\n' "$user"
done >"$work/users"
run drive "$config" <"$work/users" >"$work/one" 2>"$err"
run drive --workers 4 "$config" <"$work/users" >"$work/four" 2>"$err"
status=$?
sed 's/"worker":[0-3]}/"worker":0}/' "$work/four" >"$out"
judge four-workers "$status" 0 "$work/one"

run drive "$config" --help <"$script" >"$out" 2>"$err"
judge help-behind-a-command $? 1 "$none" 'ratelimit: usage'

run drive --cells 262144 "$config" --start=0 <"$script" >"$out" 2>"$err"
judge options-between-files $? 0 "$minute"

run drive -- "$config" <"$script" >"$out" 2>"$err"
judge file-behind-two-dashes $? 0 "$minute"

printf 'ratelimit 0.1.0\n' >"$work/version"
run --version </dev/null >"$out" 2>"$err"
judge version $? 0 "$work/version"

run serve --port 0 --connections 0 --tasks 0 "$config" </dev/null >"$out" 2>"$err"
judge serve-no-task $? 1 "$none" 'ratelimit: usage'

run serve --port 0 --connections 0 --tasks 257 "$config" </dev/null >"$out" 2>"$err"
judge serve-too-many-tasks $? 1 "$none" 'ratelimit: usage'

run serve --port 0 --connections 0 --workers 4 --tasks 4 "$config" </dev/null >"$out" 2>"$err"
judge serve-workers-and-tasks $? 1 "$none" 'ratelimit: usage'

run serve --port 0 --connections 0 --tasks 256 "$config" </dev/null >/dev/null 2>"$err"
judge serve-tasks $? 0 -

run --help </dev/null >"$out" 2>"$err"
judge help $? 0 "$here/help.out"

run --help drive </dev/null >"$out" 2>"$err"
judge help-with-a-word $? 1 "$none" 'ratelimit: usage'

run lookup "$top/examples/gateway.json" <"$top/examples/requests.jsonl" >"$out" 2>"$err"
judge lookup $? 0 "$here/requests.out"

run lookup "$top/examples/rules.json" </dev/null >"$out" 2>"$err"
judge lookup-of-no-request $? 0 "$none"

run lookup </dev/null >"$out" 2>"$err"
judge lookup-without-file $? 1 "$none"

run quota --settings "$top/examples/quota.json" "$top/examples/quota.jsonl" </dev/null >"$out" 2>"$err"
judge quota $? 0 "$here/quota.out"

run quota "$top/examples/quota.jsonl" --workers=1 --settings="$top/examples/quota.json" <&- >"$out" 2>"$err"
judge quota-of-one-worker-without-input $? 0 "$here/quota.out"

# The second stream has the index 1.
{ cat "$here/quota.out"; sed 's/"stream":0/"stream":1/' "$here/quota.out"; } >"$work/twice"
run quota --settings "$top/examples/quota.json" --workers 64 "$top/examples/quota.jsonl" "$top/examples/quota.jsonl" \
    </dev/null >"$out" 2>"$err"
judge quota-of-two-streams $? 0 "$work/twice"

run quota --settings "$top/examples/quota.json" </dev/null >"$out" 2>"$err"
judge quota-without-stream $? 1 "$none" 'ratelimit: usage'

run quota --settings "$top/examples/quota.json" --workers 65 "$top/examples/quota.jsonl" </dev/null >"$out" 2>"$err"
judge quota-of-too-many-workers $? 1 "$none" 'ratelimit: usage'

printf '{"admitted":6400,"checks":64000,"denied":57600}\n' >"$work/summary"
run gen 1 64000 <&- >"$out" 2>"$err"
judge gen $? 0 "$work/summary"

run gen 1 1048577 </dev/null >"$out" 2>"$err"
judge gen-of-too-many-checks $? 1 "$none" 'ratelimit: usage'

run gen 1 10 </dev/null 2>"$err" >/dev/full
judge gen-output-full $? 5 -

run pool --pools "$top/examples/pool.json" "$top/examples/reports.jsonl" <&- >"$out" 2>"$err"
judge pool $? 0 "$here/pool.out"

run pool "$top/examples/reports.jsonl" </dev/null >"$out" 2>"$err"
judge pool-without-pools $? 1 "$none" 'ratelimit: usage'

run pool --pools "$top/examples/quota.json" "$top/examples/reports.jsonl" </dev/null >"$out" 2>"$err"
judge pool-of-other-settings $? 9 "$none" 'ratelimit: settings: refused 3 at '

# What `drive` printed is lawful; with one count changed the reply of its line is another one's, and without its last line feed its last line
# has no form.
printf '{"lawful":true,"records":%s}\n' "$(wc -l <"$script")" >"$work/lawful"
run audit --run "$minute" "$config" <"$script" >"$out" 2>"$err"
judge audit $? 0 "$work/lawful"

sed 's/"before":1/"before":2/' "$minute" >"$work/changed"
printf '{"clause":3,"lawful":false}\n' >"$work/broken"
run audit "$config" --run="$work/changed" <"$script" >"$out" 2>"$err"
judge audit-of-a-changed-run $? 0 "$work/broken"

head -c -1 "$minute" >"$work/changed"
printf '{"lawful":false,"line":%s}\n' "$(wc -l <"$minute")" >"$work/broken"
run audit --run "$work/changed" "$config" <"$script" >"$out" 2>"$err"
judge audit-of-a-run-without-its-end $? 0 "$work/broken"

# The run is the file behind the configuration files, and is read before they are parsed.
run audit --run "$work/missing" /dev/null <"$script" >"$out" 2>"$err"
judge audit-of-a-missing-run $? 6 "$none" 'file 1'

run audit "$config" <"$script" >"$out" 2>"$err"
judge audit-without-a-run $? 1 "$none" 'ratelimit: usage'

run quota --settings "$config" "$top/examples/quota.jsonl" </dev/null >"$out" 2>"$err"
judge quota-of-other-settings $? 9 "$none" 'ratelimit: settings: refused 3 at /descriptors'

run quota --settings "$config" "$work/missing" </dev/null >"$out" 2>"$err"
judge missing-stream-after-refused-settings $? 6 "$none" 'file 1'

run quota --settings "$top/examples/quota.json" "$top/examples/quota.jsonl" </dev/null 2>"$err" >/dev/full
judge quota-output-full $? 5 -

run drive "$config" -x <"$script" >"$out" 2>"$err"
judge option-after-file $? 1 "$none"

# Files. Nothing is written.

run drive "$work/missing" <"$script" >"$out" 2>"$err"
judge missing-file $? 6 "$none" 'file 0'

run drive "$config" "$work/missing" <"$script" >"$out" 2>"$err"
judge second-file-missing $? 6 "$none" 'file 1'

run drive '' <"$script" >"$out" 2>"$err"
judge empty-file-name $? 6 "$none" 'file 0'

run drive "$work" <"$script" >"$out" 2>"$err"
judge folder-as-file $? 6 "$none" 'file 0'

run drive "$config" "$config" <"$script" >"$out" 2>"$err"
judge same-domain-twice $? 2 "$none" 'config 1: refused 11 at'

run drive /dev/null <"$script" >"$out" 2>"$err"
judge empty-file $? 2 "$none" 'config 0: refused 1 at'

printf '{"domain":"shop",' >"$work/bad.json"
run drive "$work/bad.json" <"$script" >"$out" 2>"$err"
judge bad-json $? 2 "$none" 'config 0: refused 1 at'

run drive "$config" "$work/bad.json" <"$script" >"$out" 2>"$err"
judge second-file-bad-json $? 2 "$none" 'config 1: refused 1 at'

# All files are read before the first is parsed.
run drive "$work/bad.json" "$work/missing" <"$script" >"$out" 2>"$err"
judge missing-file-after-bad-json $? 6 "$none" 'file 1'

printf '{"domain":"d","descriptors":[{"key":"a","rateLimit":{"unit":"DAY","requestsPerUnit":1}},{"key":""}]}' \
    >"$work/key.json"
run drive "$work/key.json" <"$script" >"$out" 2>"$err"
judge empty-key $? 2 "$none" 'config 0: refused 12 at /descriptors/1'

# Deep, wide, long and cut input (docs/CASES.md).

# repeated PIECE COUNT
repeated() {
    printf '%0*d' "$2" 0 | sed "s|0|$1|g"
}

# record LINE PLACE NUMBER: the record of a refused line
record() {
    printf '{"line":%s,"moment":0,"refused":{"at":"%s","number":%s},"version":0,"worker":0}\n' "$1" "$2" "$3"
}

{ repeated '[' 1000; repeated ']' 1000; } >"$work/brackets"
run drive "$work/brackets" <"$script" >"$out" 2>"$err"
judge file-of-1000-brackets $? 2 "$none" 'config 0: refused 1 at'

# levels COUNT: a file of nodes each below the one before
levels() {
    printf '{"domain":"d"%s%s}' "$(repeated ',"descriptors":[{"key":"k"' "$1")" "$(repeated '}]' "$1")"
}
levels 32 >"$work/levels.json"
run drive "$work/levels.json" </dev/null >"$out" 2>"$err"
judge 32-levels $? 0 "$none"

levels 33 >"$work/levels.json"
run drive "$work/levels.json" <"$script" >"$out" 2>"$err"
judge 33-levels $? 2 "$none" "config 0: refused 16 at $(repeated '/descriptors/X' 33 | tr X 0)"

# nodes COUNT: a file of nodes with different keys in one list
nodes() {
    printf '{"domain":"d","descriptors":[%s]}' "$(seq "$1" | sed 's/.*/{"key":"k&"}/' | paste -sd,)"
}
nodes 65536 >"$work/nodes.json"
run drive "$work/nodes.json" </dev/null >"$out" 2>"$err"
judge 65536-nodes $? 0 "$none"

nodes 65537 >"$work/nodes.json"
run drive "$work/nodes.json" <"$script" >"$out" 2>"$err"
judge 65537-nodes $? 2 "$none" 'config 0: refused 17 at /descriptors/65536'

printf '{"domain":"d","descriptors":[{"key":"%s"}]}' "$(repeated k 1025)" >"$work/key.json"
run drive "$work/key.json" <"$script" >"$out" 2>"$err"
judge key-of-1025-bytes $? 2 "$none" 'config 0: refused 18 at /descriptors/0/key'

# check DESCRIPTORS: a line
check() {
    printf '{"check":{"domain":"shop","descriptors":[%s]}}\n' "$1"
}
user='{"entries":[{"key":"user","value":"ann"}]}'
{
    cat "$work/brackets"
    printf '\n'
    check "{\"entries\":[{\"key\":\"$(repeated k 1025)\",\"value\":\"ann\"}]}"
    check "{\"entries\":[{\"key\":\"user\",\"value\":\"$(repeated v 1025)\"}]}"
    check "$user$(repeated ",$user" 32)"
    check "{\"entries\":[{\"key\":\"user\"}$(repeated ',{"key":"user"}' 32)]}"
    check "$user"
} >"$work/long.jsonl"
{
    record 1 '' 1
    record 2 /check/descriptors/0/entries/0/key 26
    record 3 /check/descriptors/0/entries/0/value 26
    record 4 /check/descriptors 22
    record 5 /check/descriptors/0/entries 25
    printf '{"counts":[{"before":0}],"line":6,"moment":0,"reply":{"overallCode":"OK","statuses":[{"code":"OK","currentLimit":%s,%s}]},%s}\n' \
        '{"requestsPerUnit":2,"unit":"MINUTE"}' '"durationUntilReset":"60s","limitRemaining":1' '"version":0,"worker":0'
    printf '{"charged":1,"counter":{"domain":"shop","entries":[{"key":"user","value":"ann"}],"start":0,"unit":"MINUTE"}}\n'
} >"$work/long.out"
run drive "$config" <"$work/long.jsonl" >"$out" 2>"$err"
judge lines-above-each-limit $? 0 "$work/long.out"

# 32 descriptors of one counter, and 32 entries, are taken.
{ check "$user$(repeated ",$user" 31)"; check "{\"entries\":[{\"key\":\"user\"}$(repeated ',{"key":"user"}' 31)]}"; } |
    run drive "$config" 2>"$err" | grep -o '"before":[0-9]*\|"seen":[0-9]*\|null\|refused' >"$out"
status=${PIPESTATUS[1]}
{ printf '"before":0\n"before":1\n"before":2\n'; repeated '"seen":3X' 29 | tr X '\n'; printf 'null\n'; } >"$work/counts"
judge lines-at-each-limit "$status" 0 "$work/counts"

# cut NAME LINES FILE WANTED WORD..: the command over a file that is cut after each of its LINES has WANTED lines of the whole output,
# of which each cut adds one but where WANTED, a list of LINE:COUNT, says another number. The word FILE stands for the cut file.
cut_after_each_line() {
    local name=$1 file=$2 whole=$3 more=$4 status=0 wrong= line wanted=0
    shift 4
    for line in $(seq 0 "$(wc -l <"$file")"); do
        case $more in
        *" $line:"*) wanted=${more#* "$line":} wanted=${wanted%% *} ;;
        *) [ "$line" = 0 ] || wanted=$((wanted + 1)) ;;
        esac
        head -n "$line" "$file" >"$work/cut"
        run "$@" "$work/cut" </dev/null >"$out" 2>"$err" || status=$?
        head -n "$wanted" "$whole" | cmp -s - "$out" || wrong="$wrong $line"
    done
    printf '%s' "$wrong" >"$out"
    judge "$name" "$status" 0 "$none"
}
# The first report of a bucket stands behind its first decision, and one that falls due before the decision of its line.
cut_after_each_line stream-cut-after-each-line "$top/examples/quota.jsonl" "$here/quota.out" ' 1:2 13:15 ' \
    quota --settings "$top/examples/quota.json"
cut_after_each_line reports-cut-after-each-line "$top/examples/reports.jsonl" "$here/pool.out" ' ' pool --pools "$top/examples/pool.json"

# A script whose last line is cut after each of its bytes: that line alone is refused, and the line before it has its record.
printf '{"tick":65}' >"$work/tick"
: >"$out"
: >"$work/ticks"
status=0
for bytes in $(seq 0 11); do
    { printf '{"tick":7}\n'; head -c "$bytes" "$work/tick"; } | run drive "$config" >>"$out" 2>"$err" || status=$?
    printf '{"line":1,"moment":7,"ticked":7,"version":0,"worker":0}\n' >>"$work/ticks"
    case $bytes in
    0) ;;
    11) printf '{"line":2,"moment":65,"ticked":65,"version":0,"worker":0}\n' ;;
    *) record 2 '' 1 | sed 's/"moment":0/"moment":7/' ;;
    esac >>"$work/ticks"
done
judge script-cut-inside-its-last-line "$status" 0 "$work/ticks"

# Runs that succeed.

run drive "$config" <"$script" >"$out" 2>"$err"
judge example $? 0 "$minute"

run drive <(cat "$config") <"$script" >"$out" 2>"$err"
judge file-is-a-pipe $? 0 "$minute"

{ head -c 100 "$script"; sleep 0.5; tail -c +101 "$script"; } | run drive "$config" >"$out" 2>"$err"
judge script-in-two-writes $? 0 "$minute"

head -c -1 "$script" | run drive "$config" >"$out" 2>"$err"
judge last-line-without-line-feed $? 0 "$minute"

run drive "$config" </dev/null >"$out" 2>"$err"
judge empty-script $? 0 "$none"

: >"$err"
run drive "$config" <"$script" >"$out" 2>&-
judge error-output-closed $? 0 "$minute"

# An error text that can't be written leaves the status.
run drive "$work/missing" <"$none" >"$out" 2>/dev/full
status=$?
if [ "$status" = 6 ]; then
    printf 'ok status-without-text\n'
else
    printf 'FAILED status-without-text: status %s, not 6\n' "$status"
    failed=1
fi

# Standard input and output.

run drive "$config" <&- >"$out" 2>"$err"
judge input-closed $? 4 "$none"

run drive "$config" <"$work" >"$out" 2>"$err"
judge input-is-a-folder $? 4 "$none"

run drive "$config" <"$script" 2>"$err" >&-
judge output-closed $? 5 -

# A small output waits in the buffer, so that it is the flush at the end that fails; a large one fails in a write.
run drive "$config" <"$script" 2>"$err" >/dev/full
judge output-full $? 5 - 'ratelimit: write failed'

run --version </dev/null 2>"$err" >/dev/full
judge version-output-full $? 5 - 'ratelimit: write failed'

run lookup "$config" <"$top/examples/requests.jsonl" 2>"$err" >/dev/full
judge lookup-output-full $? 5 - 'ratelimit: write failed'

run pool --pools "$top/examples/pool.json" "$top/examples/reports.jsonl" </dev/null 2>"$err" >/dev/full
judge pool-output-full $? 5 - 'ratelimit: write failed'

run audit --run "$none" "$config" </dev/null 2>"$err" >/dev/full
judge audit-output-full $? 5 - 'ratelimit: write failed'

run serve --port 0 --connections 0 "$config" </dev/null 2>"$err" >/dev/full
judge serve-output-full $? 5 - 'ratelimit: write failed'

run serve --port 0 --connections 0 --tasks 1 "$config" </dev/null 2>"$err" >/dev/full
judge serve-tasks-output-full $? 5 - 'ratelimit: write failed'

yes '' | head -n 10000 | run drive "$config" 2>"$err" >/dev/full
judge large-output-full "${PIPESTATUS[2]}" 5 - 'ratelimit: write failed'

# With nothing to write, the closed output isn't noticed.
run drive "$config" </dev/null 2>"$err" >&-
judge output-closed-and-empty-script $? 0 -

# The output is far larger than a pipe holds, so the reader is gone before all is written.
yes "$(cat "$script")" | head -n 14000 >"$work/long.jsonl"
run drive "$config" <"$work/long.jsonl" 2>"$err" | head -c 1 >"$out"
status=${PIPESTATUS[0]}
printf '{' >"$work/first"
judge reader-leaves-early "$status" 5 "$work/first"

# The greatest sizes, and one above each. The large files are sparse: all bytes are zero, which is one line and no JSON.

printf '{"line":1,"moment":0,"refused":{"at":"","number":1},"version":0,"worker":0}\n' >"$work/one"

# Counters whose names join alike are two: of a_b with c, and of a with b_c.
rule='"rateLimit":{"unit":"MINUTE","requestsPerUnit":1}'
printf '{"domain":"d","descriptors":[{"key":"a_b",%s},{"key":"a",%s}]}' "$rule" "$rule" >"$work/joined.json"
for entry in '"a_b","value":"c"' '"a","value":"b_c"'; do
    printf '{"check":{"domain":"d","descriptors":[{"entries":[{"key":%s}]}]}}\n' "$entry"
done >"$work/joined"
run drive "$work/joined.json" <"$work/joined" 2>"$err" | grep -o '"before":[0-9]*' >"$out"
status=${PIPESTATUS[0]}
printf '"before":0\n"before":0\n' >"$work/zeros"
judge names-that-join-alike "$status" 0 "$work/zeros"

truncate -s 67108864 "$work/large"
run drive "$work/large" <"$script" >"$out" 2>"$err"
judge largest-file $? 2 "$none" 'config 0: refused 1 at'

run drive "$config" <"$work/large" >"$out" 2>"$err"
judge largest-script $? 0 "$work/one"

truncate -s 67108865 "$work/large"
run drive "$work/large" <"$script" >"$out" 2>"$err"
judge too-large-file $? 3 "$none"

run drive "$config" <"$work/large" >"$out" 2>"$err"
judge too-large-script $? 3 "$none"

# A run may have more bytes than any other file.
printf '{"lawful":false,"line":1}\n' >"$work/broken"
run audit --run "$work/large" "$config" <"$script" >"$out" 2>"$err"
judge run-larger-than-a-script $? 0 "$work/broken"

# Of the largest number of lines only the last record is compared: its number tells that all were written.
yes '' | head -n 1048576 >"$work/lines"
run drive "$config" <"$work/lines" 2>"$err" | tail -n 1 >"$out"
status=${PIPESTATUS[0]}
printf '{"line":1048576,"moment":0,"refused":{"at":"","number":1},"version":0,"worker":0}\n' >"$work/last"
judge most-lines "$status" 0 "$work/last"

yes '' | head -n 1048577 >"$work/lines"
run drive "$config" <"$work/lines" >"$out" 2>"$err"
judge too-many-lines $? 3 "$none"

run quota --settings "$top/examples/quota.json" "$top/examples/quota.jsonl" "$work/lines" </dev/null >"$out" 2>"$err"
judge stream-of-too-many-lines $? 3 "$none"

exit "$failed"
