#!/usr/bin/env bash
# Lines per second of `ratelimit quota` with one worker, over a stream of requests of 1, 1,000 and 100,000 buckets, and its peak memory.
# Beside it, in the same run, a plain Rust program that parses each line with serde_json and prints a line for it: `ratio` is the
# processor's time of `quota` over that program's. Each time is the least of five runs of user and system time, with the output in a file.
# It needs cargo and Debian's librust-serde-json-dev.
# Run it at the top of the repository: bench/quota_stream.sh [LINES, 400000 unless given]
set -eu
. "$(dirname "${BASH_SOURCE[0]}")/lib.sh"
lines=${1:-400000}
"$top/ratelimit" --version >/dev/null
program="$top/crates/ratelimit/out/ratelimit"

mkdir -p "$work/peer/src" "$work/peer/.cargo"
cat >"$work/peer/.cargo/config.toml" <<'TOML'
[source.crates-io]
replace-with = "debian"
[source.debian]
directory = "/usr/share/cargo/registry"
TOML
cat >"$work/peer/Cargo.toml" <<'TOML'
[package]
name = "peer"
version = "0.1.0"
edition = "2021"

[dependencies]
serde_json = "1"
TOML
cat >"$work/peer/src/main.rs" <<'RS'
use std::io::{BufRead, BufWriter, Write};

fn main() {
    let mut out = BufWriter::new(std::io::stdout());
    let input = std::fs::File::open(std::env::args().nth(1).unwrap()).unwrap();
    for (number, line) in std::io::BufReader::new(input).lines().enumerate() {
        let value: serde_json::Value = serde_json::from_str(&line.unwrap()).unwrap();
        writeln!(out, "{{\"at\":{},\"line\":{}}}", value["at"], number + 1).unwrap();
    }
}
RS
(cd "$work/peer" && cargo build --release --offline --quiet)

cat >"$work/settings" <<'JSON'
{"domain":"q","buckets":[{"bucketIdBuilder":{"bucketIdBuilder":{"name":{"attribute":"name"}}},"reportingInterval":"100s","noAssignmentBehavior":{"fallbackRateLimit":{"requestsPerTimeUnit":{"requestsPerTimeUnit":100,"timeUnit":"SECOND"}}}}]}
JSON

# stream BUCKETS: one request a millisecond, each of the bucket that is 7,919 further
stream() {
    awk -v buckets="$1" -v lines="$lines" 'BEGIN {
        for (i = 0; i < lines; i++)
            printf "{\"at\":\"%d.%03ds\",\"request\":{\"attributes\":{\"name\":\"b%d\"}}}\n", i / 1000, i % 1000, i * 7919 % buckets
    }'
}

# least COMMAND..: microseconds of user and system time of the fastest of five runs, and its peak memory in KiB
least() {
    local best='' spent peak most=0
    for _ in 1 2 3 4 5; do
        /usr/bin/time -o "$work/time" -f '%U %S %M' "$@" >"$work/out"
        read -r spent peak < <(awk '{ printf "%d %d\n", 1000000 * ($1 + $2), $3 }' "$work/time")
        if [ -z "$best" ] || [ "$spent" -lt "$best" ]; then best=$spent; fi
        if [ "$peak" -gt "$most" ]; then most=$peak; fi
    done
    echo "$best $most"
}

printf '%10s %12s %12s %8s %10s\n' buckets lines/s peer_lines/s ratio peak_MiB
for buckets in 1 1000 100000; do
    stream "$buckets" >"$work/stream"
    read -r ours peak < <(least "$program" quota --settings "$work/settings" --workers 1 "$work/stream")
    read -r theirs _ < <(least "$work/peer/target/release/peer" "$work/stream")
    awk -v b="$buckets" -v n="$lines" -v o="$ours" -v t="$theirs" -v m="$peak" \
        'BEGIN { printf "%10d %12d %12d %8.2f %10.1f\n", b, n / (o / 1e6), n / (t / 1e6), o / t, m / 1024 }'
done
