#!/usr/bin/env bash
# Microseconds that read_config takes over one file of flat nodes with a limit each, beside serde_json's own parse of the
# same bytes, from 1,024 to 65,536 nodes: the least of nine tries of each, and the ratio of the two.
# Run it at the top of the repository: bench/config.sh
set -e
. "$(dirname "$0")/lib.sh"
bench_program config_bench rate_types proto_json descriptor_tree config_json anyhow
cat > "$work/crates/config_bench/src/main.rt" <<'RT'
//! Times the reading of configuration files.
#![tactic(auto)]

use config_json::read_config;
use proto_json::parse;
use rate_types::{Blob, Blobs};
use std::alloc::{AllocError, Global};
use std::time::{Clock, Instant};

fn file(alloc: Global, nodes: u32) -> Result<String, AllocError> {
    let mut text = String::from_str(alloc, r#"{"domain":"d","descriptors":["#)?;
    for i in 0..nodes {
        if i > 0 {
            text.push(',')?;
        }
        let node = format!(in alloc;
            r#"{{"key":"k{i}","rateLimit":{{"unit":"MINUTE","requestsPerUnit":100}}}}"#
        )?;
        text.push_str(&node)?;
    }
    text.push_str("]}")?;
    Ok(text)
}

fn parse_micros<R: Clock>(rt: &R, alloc: Global, text: &str) -> u64 {
    let Ok(start) = Instant::now(rt) else {
        return u64::MAX;
    };
    if parse(alloc, text.as_bytes()).is_err() {
        return u64::MAX;
    }
    let Ok(spent) = start.elapsed(rt) else {
        return u64::MAX;
    };
    u64::try_from(spent.as_micros()).unwrap_or(u64::MAX)
}

fn read_micros<R: Clock>(rt: &R, alloc: Global, files: &Blobs) -> u64 {
    let Ok(start) = Instant::now(rt) else {
        return u64::MAX;
    };
    if read_config(alloc, files).is_err() {
        return u64::MAX;
    }
    let Ok(spent) = start.elapsed(rt) else {
        return u64::MAX;
    };
    u64::try_from(spent.as_micros()).unwrap_or(u64::MAX)
}

fn main(rt: HostRuntime) -> anyhow::Result<()> {
    let alloc = rt.alloc();
    for nodes in [1024u32, 4096, 16384, 65536] {
        let text = file(alloc, nodes)?;
        let mut list = Vec::new(alloc);
        list.push(Blob::of(Vec::from_slice(alloc, text.as_bytes())?))?;
        let files = Blobs::of(list);
        let mut parsed = u64::MAX;
        let mut read = u64::MAX;
        for _ in 0..9 {
            parsed = parsed.min(parse_micros(&rt, alloc, &text));
            read = read.min(read_micros(&rt, alloc, &files));
        }
        println!(rt; "{nodes} {parsed} {read}")?;
    }
    Ok(())
}
RT
run_program config_bench > "$work/out"
printf '%8s %12s %12s %8s %14s\n' nodes parse_us read_us ratio read_ns_a_node
awk 'NF == 3 { printf "%8d %12d %12d %8.2f %14.1f\n", $1, $2, $3, $3 / $2, 1000 * $3 / $1 }' "$work/out"
