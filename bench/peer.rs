// What a good engineer would write over dashmap: the rule by its domain and key, the counter by its bytes, a look, an addition, a status.
//   peer known CHECKS         six lines: the nanoseconds of all threads, with so many checks each of counters that are there,
//                             for one thread with one key and with 64 in turn, for four threads with one key, for four with a key each, and
//                             for one and for four with one key above its limit
//   peer gen NUMBER CHECKS    the load and the line of `ratelimit gen NUMBER CHECKS`
use dashmap::DashMap;
use std::collections::HashMap;
use std::hint::black_box;
use std::sync::atomic::{AtomicU64, Ordering::SeqCst};
use std::sync::Barrier;
use std::time::Instant;

struct Rule {
    limit: u32,
    unit: u8,
}

struct Entry {
    key: String,
    value: String,
}

struct Request {
    domain: String,
    descriptors: Vec<Vec<Entry>>,
    hits: u32,
}

#[allow(dead_code)]
struct Status {
    is_over: bool,
    limit: u32,
    unit: u8,
    remaining: u32,
    reset: u64,
    before: u64,
}

struct Limiter {
    rules: HashMap<String, HashMap<String, Rule>>,
    counters: DashMap<Box<[u8]>, AtomicU64>,
    clock: AtomicU64,
}

fn put_text(out: &mut Vec<u8>, text: &str) {
    out.extend_from_slice(&(text.len() as u16).to_be_bytes());
    out.extend_from_slice(text.as_bytes());
}

fn write_key(out: &mut Vec<u8>, domain: &str, entries: &[Entry], unit: u8, start: u64) {
    out.clear();
    put_text(out, domain);
    out.push(unit);
    out.extend_from_slice(&start.to_be_bytes());
    out.push(entries.len() as u8);
    for entry in entries {
        put_text(out, &entry.key);
        put_text(out, &entry.value);
    }
}

fn count(counter: &AtomicU64, limit: u32, hits: u32) -> u64 {
    let seen = counter.load(SeqCst);
    if seen > u64::from(limit) { seen } else { counter.fetch_add(u64::from(hits), SeqCst) }
}

impl Limiter {
    // One rule by the hour for each value of a key.
    fn of(domain: &str, key: &str, limit: u32) -> Limiter {
        let rule = Rule { limit, unit: 2 };
        let rules = HashMap::from([(domain.to_string(), HashMap::from([(key.to_string(), rule)]))]);
        Limiter { rules, counters: DashMap::new(), clock: AtomicU64::new(0) }
    }

    // Whether it is over a limit.
    fn check(&self, request: &Request, now: u64, key: &mut Vec<u8>, statuses: &mut Vec<Status>) -> bool {
        let moment = self.clock.fetch_max(now, SeqCst).max(now);
        statuses.clear();
        let mut any_over = false;
        for entries in &request.descriptors {
            let Some(rule) = self.rules.get(&request.domain).and_then(|rules| rules.get(&entries[0].key)) else { continue };
            write_key(key, &request.domain, entries, rule.unit, moment - moment % 3600);
            let before = match self.counters.get(&key[..]) {
                Some(counter) => count(&counter, rule.limit, request.hits),
                None => count(&self.counters.entry(key[..].into()).or_default(), rule.limit, request.hits),
            };
            let after = before + u64::from(request.hits);
            let is_over = after > u64::from(rule.limit);
            any_over |= is_over;
            statuses.push(Status {
                is_over,
                limit: rule.limit,
                unit: rule.unit,
                remaining: u64::from(rule.limit).saturating_sub(after) as u32,
                reset: 3600 - moment % 3600,
                before,
            });
        }
        any_over
    }
}

fn request(domain: &str, key: &str, value: String) -> Request {
    let entry = Entry { key: key.to_string(), value };
    Request { domain: domain.to_string(), descriptors: vec![vec![entry]], hits: 1 }
}

fn known(threads: usize, keys: u32, are_apart: bool, limit: u32, checks: u32) -> u64 {
    let limiter = Limiter::of("d", "k", limit);
    let start = Barrier::new(threads);
    std::thread::scope(|scope| {
        let spent: Vec<_> = (0..threads)
            .map(|thread| {
                let (limiter, start) = (&limiter, &start);
                scope.spawn(move || {
                    let number = if are_apart { thread } else { 0 };
                    let requests: Vec<_> = (0..keys).map(|key| request("d", "k", format!("v{number}_{key}"))).collect();
                    let (mut key, mut statuses) = (Vec::with_capacity(64), Vec::with_capacity(32));
                    for request in &requests {
                        limiter.check(request, 5, &mut key, &mut statuses);
                    }
                    start.wait();
                    let from = Instant::now();
                    for _ in 0..checks / keys {
                        for request in &requests {
                            black_box(limiter.check(black_box(request), 5, &mut key, &mut statuses));
                            black_box(&statuses);
                        }
                    }
                    from.elapsed().as_nanos() as u64
                })
            })
            .collect();
        spent.into_iter().map(|thread| thread.join().unwrap()).sum()
    })
}

fn gen(number: u64, checks: u64) {
    let limiter = Limiter::of("gen", "u", 100);
    let next = AtomicU64::new(0);
    let admitted: u64 = std::thread::scope(|scope| {
        let counts: Vec<_> = (0..4)
            .map(|_| {
                let (limiter, next) = (&limiter, &next);
                scope.spawn(move || {
                    let (mut admitted, mut key, mut statuses) = (0u64, Vec::new(), Vec::new());
                    loop {
                        let line = next.fetch_add(1, SeqCst);
                        if line >= checks {
                            return admitted;
                        }
                        let value = (u128::from(number) + 37 * u128::from(line)) % 64;
                        let request = request("gen", "u", format!("v{value}"));
                        admitted += u64::from(!limiter.check(&request, 0, &mut key, &mut statuses));
                    }
                })
            })
            .collect();
        counts.into_iter().map(|thread| thread.join().unwrap()).sum()
    });
    println!("{{\"admitted\":{admitted},\"checks\":{checks},\"denied\":{}}}", checks - admitted);
}

fn main() {
    let words: Vec<String> = std::env::args().skip(1).collect();
    match &words[..] {
        [what, checks] if what == "known" => {
            let checks = checks.parse().unwrap();
            for (threads, keys, are_apart) in [(1, 1, false), (1, 64, false), (4, 1, false), (4, 1, true)] {
                println!("{}", known(threads, keys, are_apart, 4_000_000_000, checks));
            }
            for threads in [1, 4] {
                println!("{}", known(threads, 1, false, 1, checks));
            }
        }
        [what, number, checks] if what == "gen" => gen(number.parse().unwrap(), checks.parse().unwrap()),
        _ => eprintln!("peer known CHECKS, or peer gen NUMBER CHECKS"),
    }
}
