#!/usr/bin/env bash
# Nanoseconds of one tick that changes nothing, and one pin, look, charge and unpin of counter_cells, from 1, 2 and 4
# threads on 1 and on 64 cells, and from 2 threads of which each has a cell of its own beside the other's. Beside them the
# load and the three atomic additions that these make, in a bare loop of C with as many threads on words that lie alike.
# Each is the least of three tries in each of three runs, which the two have in turn.
# Run it at the top of the repository: bench/cells.sh [ROUNDS of each thread, 2000000 unless given]
set -e
. "$(dirname "$0")/lib.sh"
rounds=${1:-2000000}
bench_program cells_bench rate_types counter_cells

cat > "$work/crates/cells_bench/src/main.rt" <<'RT'
//! Times ticks, pins, looks, charges and unpins.
#![tactic(auto)]
ghost use Rattle.std.specs.Prelude.{◌≡◌, ℕ, ◌+◌, ◌≤◌, ◌<◌, [], IfSome};
ghost use Rattle.rate_types.specs.Sums.{times};
ghost use Rattle.counter_cells.specs.Opened.{table_of, setup_of};

use counter_cells::{CellClaimer, CellNaming, CellPass, Cells, OpenedCells, Pin, Reclaim, Spot};
use rate_types::Seconds;
use std::alloc::Global;
use std::marker::Brand;
use std::thread::{Threads, map_vec};
use std::time::{Clock, Instant};

// A pass, and the cells that it charges: `count` of them from `first` on.
#[derive(Drop)]
struct Job<N: CellNaming> {
    pass: CellPass<N>,
    first: u32,
    count: u32,
}

// One charge under a pin and a look. None where there is no room for it.
fn charge_one<N: CellNaming>(cells: &Cells<N>, pass: &mut CellPass<N>, cell: u32) -> Option<u64>
    requires { cell < N.setup.cells }
{
    cells.tick(pass, Seconds::capped(5));
    if pass.pins() > 30 {
        return None;
    }
    let Pin::Pinned = cells.pin(pass, Spot { cell, claim: u64::from(cell) }) else {
        return None;
    };
    let seen = cells.look(pass, cell);
    if seen > 1_000_000_000 {
        return None;
    }
    let before = cells.charge(pass, cell, 1);
    cells.unpin(pass, cell);
    Some(before)
}

fn rounds<N: CellNaming>(cells: &Cells<N>, job: Job<N>, limit: u32, rounds: u32) -> u64
    requires { N.setup.cells ≡ limit }
{
    let Job {
        mut pass,
        first,
        count,
    } = job;
    let mut sum = 0u64;
    if count == 0 || first >= limit || count > limit - first {
        return sum;
    }
    for round in 0..rounds {
        let Some(before) = charge_one(cells, &mut pass, first + round % count) else {
            return sum;
        };
        sum = sum.wrapping_add(before);
    }
    sum
}

fn open_one<N: CellNaming>(cells: &Cells<N>, claimer: &mut CellClaimer<N>, cell: u32)
    requires cell { cell < N.setup.cells }
    requires unused { (c : ℕ) → cell ≤ c → times c claimer.old.used_claims ≡ 0 }
    ensures { (c : ℕ) → cell + 1 ≤ c → times c claimer.new.used_claims ≡ 0 }
{
    match cells.reclaim(claimer, cell, u64::from(cell)) {
        Reclaim::Held { pins: _ } => {}
        Reclaim::Claimed => {
            cells.reset(claimer, cell);
            cells.open_cell(claimer, cell);
        }
    }
}

fn open_all<N: CellNaming>(cells: &Cells<N>, claimer: &mut CellClaimer<N>, count: u32)
    requires count { N.setup.cells ≡ count }
    requires unused { claimer.old.used_claims ≡ [] }
{
    for cell in 0..count {
        open_one(cells, claimer, cell);
    }
}

// Each pass with all cells, or with one of its own.
fn jobs<N: CellNaming>(
    alloc: Global,
    passes: Vec<CellPass<N>>,
    count: u32,
    is_apart: bool,
) -> Option<Vec<Job<N>>> {
    let mut jobs = Vec::new(alloc);
    let mut next = 0u32;
    for pass in passes {
        let (first, count) = if is_apart { (next, 1) } else { (0, count) };
        jobs.push(Job { pass, first, count }).ok()?;
        next = next.wrapping_add(1);
    }
    Some(jobs)
}

fn timed<N: CellNaming + Send + Sync, R: Threads + Clock + Sync>(
    rt: &R,
    alloc: Global,
    opened: OpenedCells,
    count: u32,
    is_apart: bool,
    each: u32,
) -> Option<u64>
    requires name { (table_of opened ≡ N.table) × (setup_of opened ≡ N.setup) }
    requires count { N.setup.cells ≡ count }
{
    let (cells, passes, mut claimer) = opened.with_name::<N>(alloc).ok()?;
    open_all(&cells, &mut claimer, count);
    let jobs = jobs(alloc, passes, count, is_apart)?;
    let start = Instant::now(rt).ok()?;
    let sums = map_vec(
        rt,
        jobs,
        &|job: Job<N>| -> u64
            requires { N.setup.cells ≡ count }
        { rounds(&cells, job, count, each) },
    )
    .ok()?;
    let spent = start.elapsed(rt).ok()?;
    let _ = sums.len();
    u64::try_from(spent.as_nanos()).ok()
}

fn one<R: Threads + Clock + Sync>(
    rt: &R,
    alloc: Global,
    threads: u32,
    count: u32,
    is_apart: bool,
) -> u64
    requires { (1 ≤ threads) × (threads ≤ 4) × (1 ≤ count) × (count ≤ 64) }
{
    let Ok(opened) = OpenedCells::make(alloc, count, threads, Seconds::capped(0)) else {
        return 0;
    };
    timed::<Brand, R>(rt, alloc, opened, count, is_apart, ROUNDSu32).unwrap_or(0)
}

fn main(rt: HostRuntime) -> std::io::Result<()> {
    for attempt in 0..3u32 {
        let _ = attempt;
        let a = one(&rt, rt.alloc(), 1, 1, false);
        let b = one(&rt, rt.alloc(), 1, 64, false);
        let c = one(&rt, rt.alloc(), 2, 1, false);
        let d = one(&rt, rt.alloc(), 2, 64, false);
        let e = one(&rt, rt.alloc(), 2, 2, true);
        let f = one(&rt, rt.alloc(), 4, 1, false);
        let g = one(&rt, rt.alloc(), 4, 64, false);
        println!(rt; "1 1 {a}\n1 64 {b}\n2 1 {c}\n2 64 {d}\n2 2 {e}\n4 1 {f}\n4 64 {g}")?;
    }
    Ok(())
}
RT
sed -i "s/ROUNDSu32/${rounds}u32/" "$work/crates/cells_bench/src/main.rt"
mkdir -p "$work/crates/cells_bench/proofs/one" "$work/crates/cells_bench/proofs/open_all"
cat > "$work/crates/cells_bench/proofs/one/Invariants.antt" <<'PF'
use Rattle.counter_cells.specs.Opened.{table_of, setup_of}
use Rattle.cells_bench.proofs.one.Given as goal

abbrev pub ghosts-timed : goal.ghosts-timed
ghosts-timed g a = record { table = table_of a.opened; setup = setup_of a.opened }
PF
cat > "$work/crates/cells_bench/proofs/open_all/Invariants.antt" <<'PF'
use Rattle.std.proofs.Common.{◌≡◌, ℕ, ◌≤◌}
use Rattle.rate_types.specs.Sums.{times}
use Rattle.cells_bench.proofs.open_all.Given as goal

abbrev pub invariant-loop-cell : goal.invariant-loop-cell
invariant-loop-cell g l = (c : ℕ) → l.cell ≤ c → times c l.claimer.used_claims ≡ 0
PF

cat > "$work/bare.c" <<'C'
// The same load and atomic additions on words that lie as the table's do: a gate and a count in eight words for each cell.
#include <pthread.h>
#include <stdatomic.h>
#include <stdio.h>
#include <stdlib.h>
#include <time.h>
static _Alignas(64) _Atomic unsigned long words[8 * 65];
static unsigned each;
struct job { unsigned first, count; };
static void *run(void *of) {
    struct job job = *(struct job *)of;
    unsigned long sum = 0;
    for (unsigned i = 0; i < each; i++) {
        unsigned cell = job.first + i % job.count;
        sum += atomic_load(&words[0]);
        sum += atomic_fetch_add(&words[8 * cell + 8], 2);
        sum += atomic_load(&words[8 * cell + 9]);
        sum += atomic_fetch_add(&words[8 * cell + 9], 1);
        sum += atomic_fetch_sub(&words[8 * cell + 8], 2);
    }
    return (void *)sum;
}
int main(int argc, char **argv) {
    each = atoi(argv[1]);
    int threads[] = {1, 1, 2, 2, 2, 4, 4};
    unsigned counts[] = {1, 64, 1, 64, 2, 1, 64};
    for (int attempt = 0; attempt < 3; attempt++)
        for (int t = 0; t < 7; t++) {
            pthread_t ids[4];
            struct job jobs[4];
            struct timespec a, b;
            for (int i = 0; i < 4; i++) jobs[i] = t == 4 ? (struct job){i, 1} : (struct job){0, counts[t]};
            clock_gettime(CLOCK_MONOTONIC, &a);
            for (int i = 0; i < threads[t]; i++) pthread_create(&ids[i], 0, run, &jobs[i]);
            for (int i = 0; i < threads[t]; i++) pthread_join(ids[i], 0);
            clock_gettime(CLOCK_MONOTONIC, &b);
            printf("%d %u %ld\n", threads[t], counts[t], (b.tv_sec - a.tv_sec) * 1000000000L + b.tv_nsec - a.tv_nsec);
        }
}
C
clang -O2 -pthread -o "$work/bare" "$work/bare.c"
run_program cells_bench > /dev/null
for attempt in 1 2 3; do
    "$work/bare" "$rounds" >> "$work/bare.txt"
    "$work/crates/cells_bench/out/cells_bench" >> "$work/run.txt"
done
grep -E '^[0-9]+ [0-9]+ [0-9]+$' "$work/run.txt" > "$work/cells.txt"
echo "threads cells  ns/round  bare ns/round  ratio    (2 threads on 2 cells: each has its own)"
paste -d ' ' "$work/cells.txt" "$work/bare.txt" | awk -v n="$rounds" '
{
    row = (NR - 1) % 7
    name[row] = sprintf("%7d %5d", $1, $2)
    if (NR <= 7 || $3 < ours[row]) ours[row] = $3
    if (NR <= 7 || $6 < bare[row]) bare[row] = $6
}
END {
    for (row = 0; row < 7; row++)
        printf "%s %9.1f %14.1f %6.2f\n", name[row], ours[row] / n, bare[row] / n, ours[row] / bare[row]
    printf "two threads on neighbouring cells have %.2f times the rate of one\n", 2 * ours[0] / ours[4]
}'
