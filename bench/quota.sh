#!/usr/bin/env bash
# Nanoseconds of one call on quota buckets, with 100, 1,000, 10,000 and 100,000 buckets of one stream, and how many times
# those with 100 buckets that is. Each number is the mean over so many calls or reports.
#   find     the name of a request's bucket
#   decide   a request of a bucket that is named
#   request  a request by its attributes, whose bucket is there
#   idle     advance to the present moment, when nothing falls due
#   one due  advance to a moment at which one bucket reports, for each report
#   all due  advance to a moment up to which each bucket reports once, for each report
# Names come in an order that is scattered over the buckets. Each bucket allows 100 requests a second.
# Behind `decide` stands the time of a peer in plain Rust, where rustc is there, and the ratio to it: the same look-up by a hash with a
# seed, the same counts and the same tree of the moments at which buckets want work.
# Run it at the top of the repository: bench/quota.sh [CALLS of each kind, 1000000 unless given; a multiple of 100000]
set -e
. "$(dirname "$0")/lib.sh"
calls=${1:-1000000}
bench_program quota_bench rate_types quota_settings_json quota_buckets

cat > "$work/crates/quota_bench/src/main.rt" <<'RT'
//! Times decisions and reports of quota buckets.
#![tactic(auto)]

use quota_buckets::{Attributes, BucketId, Buckets, Pair};
use quota_settings_json::read_settings;
use rate_types::{Millis, Text};
use std::alloc::Global;
use std::hash::RandomState;
use std::random::RandomSource;
use std::time::{Clock, Instant};

const SETTINGS: &str =
    r#"{"domain":"q","buckets":[{"bucketIdBuilder":{"bucketIdBuilder":{"name":{"attribute":"name"}}},"reportingInterval":"100s","noAssignmentBehavior":{"fallbackRateLimit":{"requestsPerTimeUnit":{"requestsPerTimeUnit":100,"timeUnit":"SECOND"}}}}]}"#;

/// How long calls took, and how many gave what they were to give.
#[derive(Clone, Copy)]
struct Timed {
    nanos: u64,
    count: u64,
}

fn spent<R: Clock>(rt: &R, start: Instant) -> Option<u64> {
    let spent = start.elapsed(rt).ok()?;
    u64::try_from(spent.as_nanos()).ok()
}

fn attributes_of(alloc: Global, number: u64) -> Option<Attributes> {
    let name = Text::new(alloc, "name").ok()?;
    let value = Text::of(format!(in alloc; "{number}").ok()?)?;
    let mut pairs = Vec::new(alloc);
    pairs.push(Pair { name, value }).ok()?;
    Some(Attributes::sorted(pairs))
}

// The attributes of each bucket, in an order that is scattered over the buckets.
fn requests_of(alloc: Global, count: u64) -> Option<Vec<Attributes>> {
    let mut requests = Vec::new(alloc);
    for i in 0..count {
        let number = i.wrapping_mul(7919) % count;
        requests.push(attributes_of(alloc, number)?).ok()?;
    }
    Some(requests)
}

fn ids_of(alloc: Global, requests: &[Attributes]) -> Option<Vec<BucketId>> {
    let mut ids = Vec::new(alloc);
    for request in requests {
        let id = BucketId::of(request.copy(alloc).ok()?)?;
        ids.push(id).ok()?;
    }
    Some(ids)
}

fn advance_to(buckets: &mut Buckets, at: u64) -> Option<u64> {
    let sent = buckets.advance(Millis::new(at)?).ok()?;
    Some(sent.items().len() as u64)
}

fn make_one(alloc: Global, buckets: &mut Buckets, number: u64, at: u64) -> Option<()> {
    advance_to(buckets, at)?;
    let attributes = attributes_of(alloc, number)?;
    buckets.request(&attributes).ok()?;
    Some(())
}

// Buckets that are made one after the other, so many milliseconds apart.
fn made(alloc: Global, seed: RandomState, count: u64, step: u64) -> Option<Buckets> {
    let settings = read_settings(alloc, SETTINGS.as_bytes()).ok()?;
    let mut buckets = Buckets::make(alloc, settings, seed);
    for i in 0..count {
        make_one(alloc, &mut buckets, i, i.checked_mul(step)?)?;
    }
    Some(buckets)
}

fn find_each(buckets: &Buckets, requests: &[Attributes]) -> Option<u64> {
    let mut found = 0u64;
    for request in requests {
        if buckets.find(request).ok()?.is_some() {
            found = found.wrapping_add(1);
        }
    }
    Some(found)
}

fn finding<R: Clock>(
    rt: &R,
    buckets: &Buckets,
    requests: &[Attributes],
    rounds: u64,
) -> Option<Timed> {
    let start = Instant::now(rt).ok()?;
    let mut count = 0u64;
    for _ in 0..rounds {
        count = count.wrapping_add(find_each(buckets, requests)?);
    }
    Some(Timed {
        nanos: spent(rt, start)?,
        count,
    })
}

fn decide_each(buckets: &mut Buckets, ids: &[BucketId]) -> u64 {
    let mut decided = 0u64;
    for id in ids {
        if buckets.decide(id).is_some() {
            decided = decided.wrapping_add(1);
        }
    }
    decided
}

fn deciding<R: Clock>(
    rt: &R,
    buckets: &mut Buckets,
    ids: &[BucketId],
    rounds: u64,
) -> Option<Timed> {
    let start = Instant::now(rt).ok()?;
    let mut count = 0u64;
    for _ in 0..rounds {
        count = count.wrapping_add(decide_each(buckets, ids));
    }
    Some(Timed {
        nanos: spent(rt, start)?,
        count,
    })
}

fn request_each(buckets: &mut Buckets, requests: &[Attributes]) -> Option<u64> {
    let mut decided = 0u64;
    for request in requests {
        if buckets.request(request).ok()?.bucket.is_some() {
            decided = decided.wrapping_add(1);
        }
    }
    Some(decided)
}

fn requesting<R: Clock>(
    rt: &R,
    buckets: &mut Buckets,
    requests: &[Attributes],
    rounds: u64,
) -> Option<Timed> {
    let start = Instant::now(rt).ok()?;
    let mut count = 0u64;
    for _ in 0..rounds {
        count = count.wrapping_add(request_each(buckets, requests)?);
    }
    Some(Timed {
        nanos: spent(rt, start)?,
        count,
    })
}

fn idling<R: Clock>(rt: &R, buckets: &mut Buckets, at: u64, calls: u64) -> Option<Timed> {
    let start = Instant::now(rt).ok()?;
    let mut count = 0u64;
    for _ in 0..calls {
        let sent = advance_to(buckets, at)?;
        count = count.wrapping_add(1).wrapping_add(sent);
    }
    Some(Timed {
        nanos: spent(rt, start)?,
        count,
    })
}

// Goes on from a moment by so many steps, and counts the reports.
fn go_on<R: Clock>(
    rt: &R,
    buckets: &mut Buckets,
    from: u64,
    step: u64,
    steps: u64,
) -> Option<Timed> {
    let start = Instant::now(rt).ok()?;
    let mut count = 0u64;
    for i in 0..steps {
        let at = i.checked_mul(step)?.checked_add(from)?;
        count = count.wrapping_add(advance_to(buckets, at)?);
    }
    Some(Timed {
        nanos: spent(rt, start)?,
        count,
    })
}

// Goes through so many reporting intervals from a moment on, by so many steps in each. Each bucket has a request before.
fn reporting<R: Clock>(
    rt: &R,
    buckets: &mut Buckets,
    ids: &[BucketId],
    from: u64,
    step: u64,
    steps: u64,
    rounds: u64,
) -> Option<Timed> {
    let mut sum = Timed { nanos: 0, count: 0 };
    for round in 0..rounds {
        decide_each(buckets, ids);
        let from = round.checked_mul(100_000)?.checked_add(from)?;
        let timed = go_on(rt, buckets, from, step, steps)?;
        sum.nanos = sum.nanos.wrapping_add(timed.nanos);
        sum.count = sum.count.wrapping_add(timed.count);
    }
    Some(sum)
}

/// So many buckets, how often each is called, the milliseconds between the moments at which they are made, and the last
/// of these moments.
#[derive(Clone, Copy)]
struct Plan {
    count: u64,
    rounds: u64,
    step: u64,
    last: u64,
}

fn plan_of(count: u64) -> Option<Plan> {
    let rounds = CALLSu64.checked_div(count)?;
    let step = 100_000u64.checked_div(count)?;
    let last = count.checked_sub(1)?.checked_mul(step)?;
    Some(Plan {
        count,
        rounds,
        step,
        last,
    })
}

/// What is timed of decisions.
#[derive(Clone, Copy)]
struct Decisions {
    find: Timed,
    decide: Timed,
    request: Timed,
}

fn time_decisions<R: Clock>(
    rt: &R,
    buckets: &mut Buckets,
    requests: &[Attributes],
    ids: &[BucketId],
    rounds: u64,
) -> Option<Decisions> {
    let find = finding(rt, buckets, requests, rounds)?;
    let decide = deciding(rt, buckets, ids, rounds)?;
    let request = requesting(rt, buckets, requests, rounds)?;
    Some(Decisions {
        find,
        decide,
        request,
    })
}

/// What is timed of advances.
#[derive(Clone, Copy)]
struct Advances {
    idle: Timed,
    one: Timed,
    all: Timed,
}

// The moment at which each bucket reports once, after all rounds of single reports.
fn moment_of_all(plan: &Plan) -> Option<u64> {
    plan.rounds
        .checked_add(1)?
        .checked_mul(100_000)?
        .checked_add(plan.last)
}

fn time_advances<R: Clock>(
    rt: &R,
    buckets: &mut Buckets,
    ids: &[BucketId],
    plan: &Plan,
) -> Option<Advances> {
    let idle = idling(rt, buckets, plan.last, CALLSu64)?;
    let one = reporting(
        rt,
        buckets,
        ids,
        100_000,
        plan.step,
        plan.count,
        plan.rounds,
    )?;
    let from = moment_of_all(plan)?;
    let all = reporting(rt, buckets, ids, from, 0, 1, plan.rounds)?;
    Some(Advances { idle, one, all })
}

/// What is timed with one number of buckets.
#[derive(Clone, Copy)]
struct Row {
    decisions: Decisions,
    advances: Advances,
}

fn row_with<R: Clock>(
    rt: &R,
    buckets: &mut Buckets,
    requests: &[Attributes],
    ids: &[BucketId],
    plan: &Plan,
) -> Option<Row> {
    let decisions = time_decisions(rt, buckets, requests, ids, plan.rounds)?;
    let advances = time_advances(rt, buckets, ids, plan)?;
    Some(Row {
        decisions,
        advances,
    })
}

fn row_of<R: Clock + RandomSource>(
    rt: &R,
    alloc: Global,
    plan: &Plan,
    requests: &[Attributes],
) -> Option<Row> {
    let ids = ids_of(alloc, requests)?;
    let seed = RandomState::new(rt).ok()?;
    let mut buckets = made(alloc, seed, plan.count, plan.step)?;
    row_with(rt, &mut buckets, requests, &ids, plan)
}

// A number for each call, or 0 where another number of answers was counted than of calls.
fn told(timed: &Timed) -> u64 {
    if timed.count == CALLSu64 {
        timed.nanos
    } else {
        0
    }
}

fn line_of(alloc: Global, count: u64, row: &Row) -> Option<String> {
    let decisions = row.decisions;
    let advances = row.advances;
    format!(in alloc;
        "{} {} {} {} {} {} {}",
        count,
        told(&decisions.find),
        told(&decisions.decide),
        told(&decisions.request),
        told(&advances.idle),
        told(&advances.one),
        told(&advances.all)
    )
    .ok()
}

fn line<R: Clock + RandomSource>(rt: &R, alloc: Global, count: u64) -> Option<String> {
    let plan = plan_of(count)?;
    let requests = requests_of(alloc, count)?;
    let row = row_of(rt, alloc, &plan, &requests)?;
    line_of(alloc, count, &row)
}

fn main(rt: HostRuntime) -> std::io::Result<()> {
    for count in [100, 1_000, 10_000, 100_000] {
        match line(&rt, rt.alloc(), count) {
            Some(line) => println!(rt; "{line}")?,
            None => println!(rt; "{count} nothing")?,
        }
    }
    Ok(())
}
RT
sed -i "s/CALLSu64/${calls}u64/g" "$work/crates/quota_bench/src/main.rt"
cat > "$work/peer.rs" <<'RS'
// Decisions of quota buckets in plain Rust: a look-up by the pairs of the name, a count for each second, and a tree in which
// each node has the least moment of the two below.
use std::collections::HashMap;
use std::time::Instant;

type Id = Vec<(String, String)>;

#[derive(Default)]
struct Bucket {
    first: u64,
    interval: u64,
    in_interval: u64,
    allowed: u64,
    denied: u64,
}

struct Buckets {
    slots: Vec<Option<(Id, Bucket)>>,
    index: HashMap<Id, usize>,
    rows: Vec<Vec<u64>>,
    time: u64,
}

impl Buckets {
    fn set(&mut self, place: usize, moment: u64) {
        let mut place = place;
        self.rows[0][place] = moment;
        for level in 1..self.rows.len() {
            place /= 2;
            let below = &self.rows[level - 1];
            let least = below[2 * place].min(*below.get(2 * place + 1).unwrap_or(&u64::MAX));
            if self.rows[level][place] == least {
                return;
            }
            self.rows[level][place] = least;
        }
    }

    fn decide(&mut self, id: &Id) -> Option<bool> {
        let place = *self.index.get(id)?;
        let (_, bucket) = self.slots[place].as_mut()?;
        let interval = (self.time - bucket.first) / 1000;
        if bucket.interval != interval {
            bucket.interval = interval;
            bucket.in_interval = 0;
        }
        let allowed = bucket.in_interval < 100;
        if allowed {
            bucket.in_interval += 1;
            bucket.allowed = bucket.allowed.saturating_add(1);
        } else {
            bucket.denied = bucket.denied.saturating_add(1);
        }
        let due = bucket.first + ((self.time - bucket.first) / 100_000 + 1) * 100_000;
        self.set(place, due);
        Some(allowed)
    }
}

fn id_of(number: usize) -> Id {
    vec![("name".to_string(), number.to_string())]
}

fn main() {
    let calls: usize = std::env::args().nth(1).unwrap().parse().unwrap();
    for count in [100usize, 1_000, 10_000, 100_000] {
        let ids: Vec<Id> = (0..count).map(|i| id_of(i * 7919 % count)).collect();
        let mut rows = vec![vec![u64::MAX; 2 * count + 16]];
        while rows[rows.len() - 1].len() > 1 {
            let above = (rows[rows.len() - 1].len() + 1) / 2;
            rows.push(vec![u64::MAX; above]);
        }
        let mut buckets = Buckets { slots: vec![], index: HashMap::new(), rows, time: 0 };
        for i in 0..count {
            let first = (i * (100_000 / count)) as u64;
            buckets.slots.push(Some((id_of(i), Bucket { first, ..Bucket::default() })));
            buckets.index.insert(id_of(i), i);
            buckets.time = first;
        }
        let start = Instant::now();
        let mut decided = 0;
        for _ in 0..calls / count {
            for id in &ids {
                decided += usize::from(buckets.decide(id).is_some());
            }
        }
        println!("{}", if decided == calls { start.elapsed().as_nanos() } else { 0 });
    }
}
RS
: > "$work/peer.txt"
run_program quota_bench > "$work/run.txt"
grep -E '^[0-9]+( [0-9]+){6}$' "$work/run.txt" > "$work/quota.txt" || { cat "$work/run.txt"; exit 1; }
if command -v rustc > /dev/null; then
    rustc --edition 2021 -O -o "$work/peer" "$work/peer.rs"
    "$work/peer" "$calls" > "$work/peer.txt"
fi
# A row that counted another number of answers than of calls has 0 there.
paste -d ' ' "$work/quota.txt" "$work/peer.txt" | awk -v n="$calls" '
    NR == 1 { print "buckets        find      decide        peer  ratio     request        idle     one due     all due" }
    {
        printf "%7d %11.1f %11.1f", $1, $2 / n, $3 / n
        if ($8) printf " %11.1f %6.2f", $8 / n, $3 / $8
        else printf " %11s %6s", "-", "-"
        for (i = 4; i <= 7; i++) printf " %11.1f", $i / n
        print ""
        grown = grown sprintf("%7d", $1)
        for (i = 2; i <= 7; i++) {
            if (NR == 1) first[i] = $i
            grown = grown sprintf(" %11.2f", first[i] ? $i / first[i] : 0)
        }
        grown = grown "\n"
    }
    END { print "times those with 100 buckets (find, decide, request, idle, one due, all due)"; printf "%s", grown }
'
