#!/usr/bin/env bash
# Nanoseconds of one look-up of the rule of a descriptor with 4 entries, in trees of 64, 4,096 and 65,536 nodes: the least
# of nine tries over 1,024 descriptors, each of another root. A tree has a root for each 4 nodes; below each root stand
# three levels of one node.
# Run it at the top of the repository: bench/lookup.sh
set -e
. "$(dirname "$0")/lib.sh"
bench_program lookup_bench rate_types descriptor_tree config_json rule_lookup anyhow
cat > "$work/crates/lookup_bench/src/main.rt" <<'RT'
//! Times look-ups of rules.
#![tactic(auto)]

use anyhow::Context;
use config_json::read_config;
use rate_types::{Blob, Blobs, Descriptor, Entries, Entry, Text};
use rule_lookup::{Found, Index, lookup};
use std::alloc::{AllocError, Global};
use std::sync::Arc;
use std::time::{Clock, Instant};

fn file(alloc: Global, roots: u32) -> Result<String, AllocError> {
    let mut text = String::from_str(alloc, r#"{"domain":"d","descriptors":["#)?;
    for i in 0..roots {
        if i > 0 {
            text.push(',')?;
        }
        let value = format!(in alloc; r#"{{"key":"a","value":"v{i}","descriptors":["#)?;
        text.push_str(&value)?;
        text.push_str(r#"{"key":"b","descriptors":[{"key":"c","descriptors":["#)?;
        text.push_str(r#"{"key":"d","rateLimit":{"unit":"MINUTE","requestsPerUnit":9}}]}]}]}"#)?;
    }
    text.push_str("]}")?;
    Ok(text)
}

fn entry(alloc: Global, key: &str, value: &str) -> anyhow::Result<Entry> {
    Ok(Entry {
        key: Text::new(alloc, key)?,
        value: Text::new(alloc, value)?,
    })
}

fn descriptor(alloc: Global, root: u32) -> anyhow::Result<Descriptor> {
    let value = format!(in alloc; "v{root}")?;
    let mut items = Vec::new(alloc);
    items.push(entry(alloc, "a", &value)?)?;
    items.push(entry(alloc, "b", "x")?)?;
    items.push(entry(alloc, "c", "y")?)?;
    items.push(entry(alloc, "d", "z")?)?;
    Ok(Descriptor {
        entries: Entries::build(items)?,
        own: None,
        hits: None,
    })
}

fn nanos<R: Clock>(rt: &R, index: &Index, domain: &Text, descriptors: &[Descriptor]) -> u64 {
    let Ok(start) = Instant::now(rt) else {
        return u64::MAX;
    };
    let mut found = 0u64;
    for descriptor in descriptors {
        if let Found::Limited { .. } = lookup(index, domain, descriptor) {
            found = found.wrapping_add(1);
        }
    }
    let Ok(spent) = start.elapsed(rt) else {
        return u64::MAX;
    };
    if found != 1024 {
        return u64::MAX;
    }
    u64::try_from(spent.as_nanos()).unwrap_or(u64::MAX)
}

fn main(rt: HostRuntime) -> anyhow::Result<()> {
    let alloc = rt.alloc();
    for roots in [16u32, 1024, 16384] {
        let text = file(alloc, roots)?;
        let mut list = Vec::new(alloc);
        list.push(Blob::of(Vec::from_slice(alloc, text.as_bytes())?))?;
        let config = read_config(alloc, &Blobs::of(list)).ok().context("refused")?;
        let index = Index::make(alloc, Arc::new(alloc, config)?)?;
        let domain = Text::new(alloc, "d")?;
        let mut descriptors = Vec::new(alloc);
        for i in 0..1024u32 {
            descriptors.push(descriptor(alloc, (i * 619) % roots)?)?;
        }
        let mut least = u64::MAX;
        for _ in 0..9 {
            least = least.min(nanos(&rt, &index, &domain, &descriptors));
        }
        println!(rt; "{roots} {least}")?;
    }
    Ok(())
}
RT
run_program lookup_bench > "$work/out"
printf '%8s %14s\n' nodes ns_a_look_up
awk 'NF == 2 { printf "%8d %14.1f\n", 4 * $1, $2 / 1024 }' "$work/out"
