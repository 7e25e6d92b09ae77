#!/usr/bin/env bash
# Nanoseconds a name that counter_directory takes to bind new names, one a call, to 1,024 up to 1,048,576 cells: at first
# to cells that were never taken, then to find them again while their windows are open, and, when these have ended, to bind
# them to the same cells again. The column 'in turns' is of 1,048,576 names in as many windows as that takes, so that as many
# claims are made whatever the number of cells. Behind each column stands its ratio to a peer: the same steps in plain Rust,
# without refusals (rustc -O; no ratio where there is no rustc). The program and the peer run three times in turn, and the
# least of each counts.
# Then 16,384 names that collide where the seed of a hash is fixed, and as many others: in the directory, whose seed is drawn
# at the start, and, as a peer, in a HashMap of std with its fixed seed.
# Then the resident memory of a process that makes so many claims on 1,024 cells, in KiB, and that of the peer, which keeps a
# list of its claims.
# Run it at the top of the repository: bench/directory.sh
set -e
. "$(dirname "$0")/lib.sh"
bench_program directory_bench rate_types counter_cells counter_directory arrayvec
bench="$work/crates/directory_bench"
mkdir -p "$bench/src" "$bench/proofs/take_each" "$bench/proofs/fill" "$bench/proofs/fill_often" \
    "$bench/proofs/one_try" "$bench/proofs/turns_of"
cat > "$bench/src/main.rt" <<'RT'
//! Times the binding of new names to cells.
#![tactic(auto)]
ghost use Rattle.std.specs.Prelude.{◌≡◌, ℕ, ◌*◌, ◌≤◌, ◌<◌, [], length, All, IfSome};
ghost use Rattle.counter_cells.specs.Opened.{table_of, setup_of};
ghost use Rattle.counter_directory.specs.Passes.{list_of};

use counter_cells::{CellNaming, CellPass, Cells, OpenedCells};
use counter_directory::{Acquired, Directory, DirectoryPass, SoughtName, give_back};
use rate_types::{CounterName, Entries, Entry, Seconds, Text, Unit};
use std::alloc::Global;
use std::collections::HashMap;
use std::hash::RandomState;
use std::marker::Brand;
use std::random::RandomSource;
use std::sync::Wait;
use std::time::{Clock, Instant};

#[derive(Drop)]
struct Worker<N: CellNaming> {
    pass: DirectoryPass<N>,
    cell_pass: CellPass<N>,
}

fn entry(alloc: Global, key: &str, value: &str) -> Option<Entry> {
    Some(Entry {
        key: Text::new(alloc, key).ok()?,
        value: Text::new(alloc, value).ok()?,
    })
}

fn name_of(alloc: Global, entries: Vec<Entry>) -> Option<CounterName> {
    Some(CounterName {
        domain: Text::new(alloc, "d").ok()?,
        entries: Entries::build(entries).ok()?,
        unit: Unit::Minute,
    })
}

fn name(alloc: Global, number: u32) -> Option<CounterName> {
    let mut items = Vec::new(alloc);
    let value = format!(in alloc; "{number}").ok()?;
    items.push(entry(alloc, "k", &value)?).ok()?;
    name_of(alloc, items)
}

// With `first` 169 the names collide under std's fixed seed.
fn chosen_name(alloc: Global, first: &str, number: u32) -> Option<CounterName> {
    let mut items = Vec::new(alloc);
    let value = format!(in alloc; "tZua$n~t{number:08}").ok()?;
    items.push(entry(alloc, "h", first)?).ok()?;
    items.push(entry(alloc, "p", &value)?).ok()?;
    name_of(alloc, items)
}

// 1,024 names.
fn names(alloc: Global, batch: u32) -> Option<Vec<CounterName>> {
    let mut names = Vec::new(alloc);
    for place in 0..1_024u32 {
        let name = name(alloc, batch.wrapping_mul(1_024).wrapping_add(place))?;
        names.push(name).ok()?;
    }
    Some(names)
}

// Acquires each of the names by a call of its own, and gives its pin back. False where one is refused.
fn take_each<N: CellNaming, R: Wait>(
    rt: &R,
    cells: &Cells<N>,
    directory: &Directory<N>,
    worker: &mut Worker<N>,
    names: &[CounterName],
) -> bool
    requires pass { list_of worker.old.pass ≡ directory.now.list_id }
    requires cell_pass { worker.old.cell_pass.good ≡ [] }
    ensures pass { list_of worker.new.pass ≡ directory.now.list_id }
    ensures cell_pass { worker.new.cell_pass.good ≡ [] }
{
    let mut acquired = Acquired::new();
    for place in 0..names.len() {
        let Ok(()) = directory.acquire(
            rt,
            &mut worker.pass,
            cells,
            &mut worker.cell_pass,
            &[SoughtName::of(&names[place])],
            &mut acquired,
        ) else {
            return false;
        };
        give_back(cells, &mut worker.cell_pass, acquired.spots.as_slice());
    }
    true
}

// The nanoseconds of binding 1,024 names.
fn timed<N: CellNaming, R: Wait + Clock>(
    rt: &R,
    cells: &Cells<N>,
    directory: &Directory<N>,
    worker: &mut Worker<N>,
    names: &[CounterName],
) -> Option<u64>
    requires pass { list_of worker.old.pass ≡ directory.now.list_id }
    requires cell_pass { worker.old.cell_pass.good ≡ [] }
    ensures pass { list_of worker.new.pass ≡ directory.now.list_id }
    ensures cell_pass { worker.new.cell_pass.good ≡ [] }
{
    let start = Instant::now(rt).ok()?;
    let is_done = take_each(rt, cells, directory, worker, names);
    let spent = start.elapsed(rt).ok()?;
    if !is_done {
        return None;
    }
    u64::try_from(spent.as_nanos()).ok()
}

// The nanoseconds of binding a name to each cell.
fn fill<N: CellNaming, R: Wait + Clock>(
    rt: &R,
    alloc: Global,
    cells: &Cells<N>,
    directory: &Directory<N>,
    worker: &mut Worker<N>,
    batches: u32,
) -> Option<u64>
    requires pass { list_of worker.old.pass ≡ directory.now.list_id }
    requires cell_pass { worker.old.cell_pass.good ≡ [] }
    ensures pass { list_of worker.new.pass ≡ directory.now.list_id }
    ensures cell_pass { worker.new.cell_pass.good ≡ [] }
{
    let mut spent = 0u64;
    for batch in 0..batches {
        let names = names(alloc, batch)?;
        let more = timed(rt, cells, directory, worker, names.as_slice())?;
        spent = spent.wrapping_add(more);
    }
    Some(spent)
}

fn last_cell_pass<N: CellNaming>(mut cell_passes: Vec<CellPass<N>>) -> Option<CellPass<N>>
    requires { All (λ h. h.good ≡ []) cell_passes.items }
    ensures { IfSome result (λ h. h.good ≡ []) }
{
    cell_passes.pop()
}

fn last_pass<N: CellNaming>(
    mut passes: Vec<DirectoryPass<N>>,
    directory: &Directory<N>,
) -> Option<DirectoryPass<N>>
    requires { All (λ p. list_of p ≡ directory.now.list_id) passes.items }
    ensures { IfSome result (λ p. list_of p ≡ directory.now.list_id) }
{
    let _ = directory;
    passes.pop()
}

fn open<N: CellNaming, R: RandomSource>(
    rt: &R,
    alloc: Global,
    opened: OpenedCells,
) -> Option<(Cells<N>, Directory<N>, Worker<N>)>
    requires name { (table_of opened ≡ N.table) × (setup_of opened ≡ N.setup) }
    requires passes { N.setup.passes ≡ 1 }
    ensures pass { IfSome result (λ r. list_of r.2.pass ≡ r.1.list_id) }
    ensures cell_pass { IfSome result (λ r. r.2.cell_pass.good ≡ []) }
{
    let (cells, cell_passes, claimer) = opened.with_name::<N>(alloc).ok()?;
    let cell_pass = last_cell_pass(cell_passes)?;
    let seed = RandomState::new(rt).ok()?;
    let (directory, passes) = Directory::make(alloc, claimer, 1_000_000_000, 1, seed).ok()?;
    let pass = last_pass(passes, &directory)?;
    Some((cells, directory, Worker { pass, cell_pass }))
}

// The nanoseconds of a fill, of finding its names again, and of a fill in the next window.
fn both<N: CellNaming, R: Wait + Clock + RandomSource>(
    rt: &R,
    alloc: Global,
    opened: OpenedCells,
    batches: u32,
) -> Option<(u64, u64, u64)>
    requires name { (table_of opened ≡ N.table) × (setup_of opened ≡ N.setup) }
    requires passes { N.setup.passes ≡ 1 }
{
    let (cells, directory, mut worker) = open::<N, R>(rt, alloc, opened)?;
    let first = fill(rt, alloc, &cells, &directory, &mut worker, batches)?;
    let known = fill(rt, alloc, &cells, &directory, &mut worker, batches)?;
    cells.tick(&mut worker.cell_pass, Seconds::capped(60));
    let second = fill(rt, alloc, &cells, &directory, &mut worker, batches)?;
    Some((first, known, second))
}

// The nanoseconds of binding 1,048,576 names, in one window after the other.
fn in_turns<N: CellNaming, R: Wait + Clock + RandomSource>(
    rt: &R,
    alloc: Global,
    opened: OpenedCells,
    batches: u32,
) -> Option<u64>
    requires name { (table_of opened ≡ N.table) × (setup_of opened ≡ N.setup) }
    requires passes { N.setup.passes ≡ 1 }
    requires batches { 1 ≤ batches }
{
    let (cells, directory, mut worker) = open::<N, R>(rt, alloc, opened)?;
    fill_often(rt, alloc, &cells, &directory, &mut worker, batches, 1_024 / batches)
}

// The nanoseconds of as many fills.
fn fill_often<N: CellNaming, R: Wait + Clock>(
    rt: &R,
    alloc: Global,
    cells: &Cells<N>,
    directory: &Directory<N>,
    worker: &mut Worker<N>,
    batches: u32,
    turns: u32,
) -> Option<u64>
    requires pass { list_of worker.old.pass ≡ directory.now.list_id }
    requires cell_pass { worker.old.cell_pass.good ≡ [] }
{
    let mut spent = 0u64;
    for turn in 0..turns {
        cells.tick(&mut worker.cell_pass, Seconds::capped(60 * u64::from(turn)));
        let more = fill(rt, alloc, cells, directory, worker, batches)?;
        spent = spent.wrapping_add(more);
    }
    Some(spent)
}

fn turns_of<R: Wait + Clock + RandomSource>(rt: &R, alloc: Global, batches: u32) -> Option<u64>
    requires { (1 ≤ batches) × (batches ≤ 1024) }
{
    let opened = OpenedCells::make(alloc, batches * 1_024, 1, Seconds::capped(0)).ok()?;
    in_turns::<Brand, R>(rt, alloc, opened, batches)
}

fn one_try<R: Wait + Clock + RandomSource>(
    rt: &R,
    alloc: Global,
    batches: u32,
) -> Option<(u64, u64, u64)>
    requires { (1 ≤ batches) × (batches ≤ 1024) }
{
    let opened = OpenedCells::make(alloc, batches * 1_024, 1, Seconds::capped(0)).ok()?;
    both::<Brand, R>(rt, alloc, opened, batches)
}

fn least<R: Wait + Clock + RandomSource>(
    rt: &R,
    alloc: Global,
    batches: u32,
) -> Option<(u64, u64, u64)>
    requires { (1 ≤ batches) × (batches ≤ 1024) }
{
    let (a, b, c) = one_try(rt, alloc, batches)?;
    let (d, e, f) = one_try(rt, alloc, batches)?;
    let (g, h, i) = one_try(rt, alloc, batches)?;
    Some((a.min(d).min(g), b.min(e).min(h), c.min(f).min(i)))
}

// 16,384 names.
fn chosen_names(alloc: Global, first: &str) -> Option<Vec<CounterName>> {
    let mut names = Vec::new(alloc);
    for number in 0..16_384u32 {
        let name = chosen_name(alloc, first, number)?;
        names.push(name).ok()?;
    }
    Some(names)
}

// The nanoseconds of names in a map whose seed is fixed.
fn in_fixed_map<R: Clock>(rt: &R, alloc: Global, names: Vec<CounterName>) -> Option<u64> {
    let mut map = HashMap::new(alloc);
    let start = Instant::now(rt).ok()?;
    for name in names {
        map.insert(name, 0u32).ok()?;
    }
    let spent = start.elapsed(rt).ok()?;
    u64::try_from(spent.as_nanos()).ok()
}

// The nanoseconds of names that collide under a fixed seed, and of others.
fn chosen<N: CellNaming, R: Wait + Clock + RandomSource>(
    rt: &R,
    alloc: Global,
    opened: OpenedCells,
) -> Option<(u64, u64)>
    requires name { (table_of opened ≡ N.table) × (setup_of opened ≡ N.setup) }
    requires passes { N.setup.passes ≡ 1 }
{
    let (cells, directory, mut worker) = open::<N, R>(rt, alloc, opened)?;
    let names = chosen_names(alloc, "169")?;
    let alike = timed(rt, &cells, &directory, &mut worker, names.as_slice())?;
    let names = chosen_names(alloc, "170")?;
    let others = timed(rt, &cells, &directory, &mut worker, names.as_slice())?;
    Some((alike, others))
}

fn chosen_in_cells<R: Wait + Clock + RandomSource>(rt: &R, alloc: Global) -> Option<(u64, u64)> {
    let opened = OpenedCells::make(alloc, 32_768, 1, Seconds::capped(0)).ok()?;
    chosen::<Brand, R>(rt, alloc, opened)
}

fn chosen_in_fixed_map<R: Clock>(rt: &R, alloc: Global) -> Option<(u64, u64)> {
    let names = chosen_names(alloc, "169")?;
    let alike = in_fixed_map(rt, alloc, names)?;
    let names = chosen_names(alloc, "170")?;
    let others = in_fixed_map(rt, alloc, names)?;
    Some((alike, others))
}

// Makes 1,024 claims a turn on as many cells.
fn many_turns<N: CellNaming, R: Wait + Clock + RandomSource>(
    rt: &R,
    alloc: Global,
    opened: OpenedCells,
    turns: u32,
) -> Option<u64>
    requires name { (table_of opened ≡ N.table) × (setup_of opened ≡ N.setup) }
    requires passes { N.setup.passes ≡ 1 }
{
    let (cells, directory, mut worker) = open::<N, R>(rt, alloc, opened)?;
    fill_often(rt, alloc, &cells, &directory, &mut worker, 1, turns)
}

fn many_claims<R: Wait + Clock + RandomSource>(rt: &R, alloc: Global, turns: u32) -> Option<u64> {
    let opened = OpenedCells::make(alloc, 1_024, 1, Seconds::capped(0)).ok()?;
    many_turns::<Brand, R>(rt, alloc, opened, turns)
}

// The number among the program's words.
fn turns(rt: &HostRuntime) -> std::io::Result<Option<u32>> {
    for word in std::env::args(rt)?.skip(1) {
        if let Ok(turns) = word.parse::<u32>() {
            return Ok(Some(turns));
        }
    }
    Ok(None)
}

fn main(rt: HostRuntime) -> std::io::Result<()> {
    if let Some(turns) = turns(&rt)? {
        let spent = many_claims(&rt, rt.alloc(), turns).unwrap_or(0);
        println!(rt; "turns {spent}")?;
        return Ok(());
    }
    for batches in [1u32, 16, 256, 1_024] {
        let (first, known, second) = least(&rt, rt.alloc(), batches).unwrap_or((0, 0, 0));
        let last = turns_of(&rt, rt.alloc(), batches).unwrap_or(0);
        println!(rt; "{batches} {first} {known} {second} {last}")?;
    }
    let (alike, others) = chosen_in_cells(&rt, rt.alloc()).unwrap_or((0, 0));
    let (fixed, fixed_others) = chosen_in_fixed_map(&rt, rt.alloc()).unwrap_or((0, 0));
    println!(rt; "chosen {alike} {others} {fixed} {fixed_others}")?;
    Ok(())
}
RT
cat > "$bench/proofs/take_each/Invariants.antt" <<'PF'
use Rattle.std.proofs.Common.{◌≡◌, []}
use Rattle.counter_directory.specs.Passes.{list_of}
use Rattle.directory_bench.proofs.take_each.Given as goal

abbrev pub invariant-loop-place : goal.invariant-loop-place
invariant-loop-place g l = record {
  pass : list_of l.worker.pass ≡ l.directory.list_id;
  cell_pass : l.worker.cell_pass.good ≡ [];
}
PF
sed 's/take_each/fill/; s/loop-place/loop-batch/g' "$bench/proofs/take_each/Invariants.antt" > "$bench/proofs/fill/Invariants.antt"
sed 's/take_each/fill_often/; s/loop-place/loop-turn/g' "$bench/proofs/take_each/Invariants.antt" > "$bench/proofs/fill_often/Invariants.antt"
cat > "$bench/proofs/one_try/Invariants.antt" <<'PF'
use Rattle.counter_cells.specs.Opened.{table_of, setup_of}
use Rattle.directory_bench.proofs.one_try.Given as goal

abbrev pub ghosts-both : goal.ghosts-both
ghosts-both g a = record { table = table_of a.opened; setup = setup_of a.opened }
PF
sed 's/one_try/turns_of/; s/ghosts-both/ghosts-in_turns/g' "$bench/proofs/one_try/Invariants.antt" > "$bench/proofs/turns_of/Invariants.antt"
for function in chosen_in_cells:chosen many_claims:many_turns; do
    mkdir -p "$bench/proofs/${function%:*}"
    sed "s/one_try/${function%:*}/; s/ghosts-both/ghosts-${function#*:}/g" "$bench/proofs/one_try/Invariants.antt" \
        > "$bench/proofs/${function%:*}/Invariants.antt"
done
cat > "$work/peer.rs" <<'RS'
// The same steps in plain Rust, without refusals: a turn at a lock, a tick, one look-up a name by its bytes in an index that is
// emptied when its window ends, a pin, and for a new name a reclaim, a reset and an opening. The claims are kept in a list.
use std::collections::HashMap;
use std::collections::hash_map::RandomState;
use std::sync::Mutex;
use std::sync::atomic::{AtomicU64, Ordering::SeqCst};
use std::time::Instant;

#[derive(Clone, Copy)]
struct Spot { cell: u32, claim: u64 }
struct Name { domain: String, entries: Vec<(String, String)>, unit: u8 }
#[allow(dead_code)]
struct Claim { cell: u32, claim: u64, moment: u64 }
struct Table {
    index: HashMap<Box<[u8]>, Spot, RandomState>,
    claims: Vec<Claim>,
    ring: Vec<u32>,
    end: u64,
    expired: Vec<u32>,
    fresh: u32,
}
struct Directory { table: Mutex<Table>, words: Vec<AtomicU64>, clock: AtomicU64 }

fn append(out: &mut Vec<u8>, text: &str) {
    out.extend_from_slice(&(text.len() as u16).to_be_bytes());
    out.extend_from_slice(text.as_bytes());
}

fn write_key(name: &Name, start: u64, out: &mut Vec<u8>) {
    out.clear();
    append(out, &name.domain);
    out.push(name.unit);
    out.extend_from_slice(&start.to_be_bytes());
    out.push(name.entries.len() as u8);
    for (key, value) in &name.entries {
        append(out, key);
        append(out, value);
    }
}

impl Directory {
    fn make(cells: usize) -> Directory {
        let table = Table {
            index: HashMap::default(),
            claims: vec![],
            ring: Vec::with_capacity(cells),
            end: 0,
            expired: Vec::with_capacity(cells),
            fresh: 0,
        };
        Directory {
            table: Mutex::new(table),
            words: (0..8 * cells + 8).map(|_| AtomicU64::new(0)).collect(),
            clock: AtomicU64::new(0),
        }
    }

    fn claim(&self, table: &mut Table, key: &[u8], moment: u64, start: u64) -> Spot {
        let cell = table.expired.pop().unwrap_or_else(|| {
            table.fresh += 1;
            table.fresh - 1
        });
        let claim = table.claims.len() as u64;
        let gate = &self.words[8 * cell as usize + 8];
        let word = gate.load(SeqCst);
        let _ = gate.compare_exchange(word & !0x1fffe, claim << 17, SeqCst, SeqCst);
        self.words[8 * cell as usize + 9].store(0, SeqCst);
        gate.fetch_or(1, SeqCst);
        table.claims.push(Claim { cell, claim, moment });
        table.index.insert(key.into(), Spot { cell, claim });
        table.ring.push(cell);
        table.end = start + 60;
        Spot { cell, claim }
    }

    fn acquire(&self, now: u64, names: &[Name], key: &mut Vec<u8>, spots: &mut Vec<Spot>) {
        let mut guard = self.table.lock().unwrap();
        let table = &mut *guard;
        let moment = self.clock.fetch_max(now, SeqCst).max(now);
        spots.clear();
        if table.end <= moment {
            let mut ring = std::mem::take(&mut table.ring);
            table.expired.append(&mut ring);
            table.ring = ring;
            table.index.clear();
        }
        for name in names {
            let start = moment - moment % 60;
            write_key(name, start, key);
            let spot = match table.index.get(&key[..]) {
                Some(spot) => *spot,
                None => self.claim(table, key, moment, start),
            };
            self.words[8 * spot.cell as usize + 8].fetch_add(2, SeqCst);
            spots.push(spot);
        }
    }

    // The nanoseconds of as many batches of 1,024 names.
    fn fill(&self, now: u64, batches: usize) -> u128 {
        let (mut key, mut spots) = (Vec::with_capacity(66_700), Vec::with_capacity(32));
        let mut spent = 0;
        for batch in 0..batches {
            let names: Vec<Name> = (0..1024)
                .map(|i| Name {
                    domain: "d".into(),
                    entries: vec![("k".into(), format!("{}", batch * 1024 + i))],
                    unit: 1,
                })
                .collect();
            let start = Instant::now();
            for i in 0..1024 {
                self.acquire(now, &names[i..i + 1], &mut key, &mut spots);
                for spot in &spots {
                    self.words[8 * spot.cell as usize + 8].fetch_sub(2, SeqCst);
                }
            }
            spent += start.elapsed().as_nanos();
        }
        spent
    }
}

fn in_turns(cells: usize, turns: u64) -> u128 {
    let directory = Directory::make(cells);
    (0..turns).map(|turn| directory.fill(60 * turn, cells / 1024)).sum()
}

fn main() {
    if let Some(turns) = std::env::args().nth(1) {
        println!("turns {}", in_turns(1024, turns.parse().unwrap()));
        return;
    }
    for &batches in &[1usize, 16, 256, 1024] {
        let mut least = [u128::MAX; 3];
        for _ in 0..3 {
            let directory = Directory::make(batches * 1024);
            for (column, now) in IntoIterator::into_iter([0, 0, 60]).enumerate() {
                least[column] = least[column].min(directory.fill(now, batches));
            }
        }
        let [first, known, second] = least;
        println!("{batches} {first} {known} {second} {}", in_turns(batches * 1024, 1024 / batches as u64));
    }
}
RS
: > "$work/peer.txt"
if command -v rustc > /dev/null; then
    rustc --edition 2021 -O -o "$work/peer" "$work/peer.rs"
fi
run_program directory_bench > /dev/null
for attempt in 1 2 3; do
    [ ! -x "$work/peer" ] || "$work/peer" >> "$work/peer.txt"
    "$bench/out/directory_bench" >> "$work/run.txt"
done
awk '
FNR == 1 { file++ }
/^[0-9]+ [0-9]+ [0-9]+ [0-9]+ [0-9]+$/ {
    if (!seen[$1]++) order[++rows] = $1
    for (i = 2; i <= 5; i++) {
        place = file " " $1 " " i
        if (!(place in least) || $i < least[place]) least[place] = $i
    }
}
END {
    print "    cells   new ns ratio  known ns ratio  again ns ratio  in turns ns ratio"
    for (row = 1; row <= rows; row++) {
        cells = order[row] * 1024
        printf "%9d", cells
        for (i = 2; i <= 5; i++) {
            ours = least["1 " order[row] " " i]
            peer = least["2 " order[row] " " i]
            printf " %8.1f %5.2f ", ours / (i == 5 ? 1048576 : cells), peer ? ours / peer : 0
        }
        printf "\n"
    }
}' "$work/run.txt" "$work/peer.txt"
awk '/^chosen/ && !done++ {
    printf "names that collide under a fixed seed: %.1f ns, %.2f times others; in a HashMap with such a seed: %.1f ns, %.2f times others\n",
        $2 / 16384, $2 / $3, $4 / 16384, $4 / $5
}' "$work/run.txt"

# The greatest resident memory of a program, in KiB.
peak() {
    "$@" > /dev/null &
    local pid=$! most=0 now
    while now=$(sed -n 's/^VmHWM:[^0-9]*\([0-9]*\).*/\1/p' "/proc/$pid/status" 2> /dev/null) && [ -n "$now" ]; do
        most=$now
        sleep 0.02
    done
    wait "$pid"
    echo "$most"
}
echo "   claims  resident KiB  peer KiB"
for turns in 98 977 9766; do
    ours=$(peak "$bench/out/directory_bench" "$turns")
    theirs=0
    [ ! -x "$work/peer" ] || theirs=$(peak "$work/peer" "$turns")
    printf '%9d %13d %9d\n' $((turns * 1024)) "$ours" "$theirs"
done
