#!/usr/bin/env bash
# Nanoseconds of one check of a counter that its pass knows, by check_open_into and by check_into of rate_limiter: from one thread on one key
# and on 64 keys in turn, from four threads that count on one key, from four threads of which each has a key of its own, and from one and from
# four threads on one key that they have seen above its limit. Beside them the
# same work over a dashmap in Rust (bench/peer.rs; no ratio where there is no cargo): the rule by its domain and key, the counter by its
# bytes, one look, one addition and a status. Each is the least of five tries, in turns.
# Then, where there is valgrind, what 1,000 of these checks a thread take beyond what one takes: allocations of the whole program, and
# locked instructions for each check.
# Run it at the top of the repository: bench/known.sh [CHECKS of each thread, 1000000 unless given]
set -e
. "$(dirname "$0")/lib.sh"
checks=${1:-1000000}
bench_program known_bench rate_types descriptor_tree counter_cells rls_core rate_limiter
bench="$work/crates/known_bench"
cat > "$bench/src/main.rt" <<'RT'
//! Times checks of known counters.
#![tactic(auto)]
ghost use Rattle.std.specs.Prelude.{◌≡◌, ◌≤◌, All, IfOk, IfSome};
ghost use Rattle.descriptor_tree.specs.Trees.{node_view};
ghost use Rattle.descriptor_tree.specs.Config.{IsWellFormedBranch};
ghost use Rattle.counter_cells.specs.Opened.{table_of, setup_of};

use counter_cells::{CellNaming, OpenedCells};
use descriptor_tree::{Config, Forest, Node, Policy, Texts, Tree};
use rate_limiter::{Limiter, Limits, Pass};
use rate_types::{Descriptor, Entries, Entry, Request, Seconds, Text, Unit};
use rls_core::Reply;
use std::alloc::Global;
use std::hash::RandomState;
use std::marker::Brand;
use std::random::RandomSource;
use std::sync::atomic::{AtomicU64, Ordering};
use std::sync::{Arc, Wait};
use std::thread::{Threads, map_vec, yield_now};
use std::time::{Clock, Instant};

fn node(alloc: Global, limit: u32) -> Option<Node>
    ensures { IfSome result (λ n. IsWellFormedBranch (node_view n)) }
{
    Some(Node {
        key: Text::new(alloc, "k").ok()?,
        value: None,
        policy: Some(Policy::Limited {
            limit,
            unit: Unit::Hour,
        }),
        name: None,
        replaces: Texts::new(alloc),
        shadow: false,
        below: Forest::of(Vec::new(alloc)),
    })
}

fn config(alloc: Global, limit: u32) -> Option<Arc<Config>> {
    let mut nodes = Vec::new(alloc);
    nodes.push(node(alloc, limit)?).ok()?;
    let mut trees = Vec::new(alloc);
    trees.push(Tree {
        domain: Text::new(alloc, "d").ok()?,
        forest: Forest::of(nodes),
    }).ok()?;
    Arc::new(alloc, Config::build(alloc, trees).ok()?).ok()
}

fn request(alloc: Global, value: &str) -> Option<Request> {
    let mut entries = Vec::new(alloc);
    entries.push(Entry {
        key: Text::new(alloc, "k").ok()?,
        value: Text::new(alloc, value).ok()?,
    }).ok()?;
    let mut descriptors = Vec::new(alloc);
    descriptors.push(Descriptor {
        entries: Entries::build(entries).ok()?,
        own: None,
        hits: None,
    }).ok()?;
    Request::build(Text::new(alloc, "d").ok()?, descriptors, 1).ok()
}

// What the threads of a run share: their limiter and how many they are, how many keys each checks in turn, whether these are its own,
// whether it checks by check_open_into, and how often it checks each key.
#[derive(Drop)]
struct Run<'a, N: CellNaming> {
    limiter: &'a Limiter<N>,
    threads: u64,
    keys: u32,
    is_apart: bool,
    is_open: bool,
    each: u32,
    numbers: AtomicU64,
    come: AtomicU64,
}

// How many checks of these requests were refused.
fn open_each<N: CellNaming>(limiter: &Limiter<N>, pass: &mut Pass<N>, requests: &[Request], reply: &mut Reply) -> u64
    requires pass { pass.old.limiter ≡ limiter.now.id }
    ensures pass { pass.new.limiter ≡ limiter.now.id }
{
    let mut refused = 0u64;
    for request in requests {
        if limiter.check_open_into(pass, request, Seconds::capped(5), reply).is_err() {
            refused = refused.wrapping_add(1);
        }
    }
    refused
}

fn check_each<N: CellNaming, R: Wait>(
    rt: &R,
    alloc: Global,
    limiter: &Limiter<N>,
    pass: &mut Pass<N>,
    requests: &[Request],
    reply: &mut Reply,
) -> u64
    requires pass { pass.old.limiter ≡ limiter.now.id }
    ensures pass { pass.new.limiter ≡ limiter.now.id }
{
    let mut refused = 0u64;
    for request in requests {
        if limiter.check_into(rt, alloc, pass, request, Seconds::capped(5), reply).is_err() {
            refused = refused.wrapping_add(1);
        }
    }
    refused
}

// How many checks were refused, so many of each of these requests.
fn open_rounds<N: CellNaming>(limiter: &Limiter<N>, pass: &mut Pass<N>, requests: &[Request], rounds: u32) -> u64
    requires pass { pass.old.limiter ≡ limiter.now.id }
{
    let mut reply = Reply::new();
    let mut refused = 0u64;
    for _round in 0..rounds {
        refused = refused.wrapping_add(open_each(limiter, pass, requests, &mut reply));
    }
    refused
}

fn rounds<N: CellNaming, R: Wait>(rt: &R, alloc: Global, limiter: &Limiter<N>, pass: &mut Pass<N>, requests: &[Request], rounds: u32) -> u64
    requires pass { pass.old.limiter ≡ limiter.now.id }
{
    let mut reply = Reply::new();
    let mut refused = 0u64;
    for _round in 0..rounds {
        refused = refused.wrapping_add(check_each(rt, alloc, limiter, pass, requests, &mut reply));
    }
    refused
}

// A request for each of so many values that no thread of another number has.
fn requests(alloc: Global, number: u64, keys: u32) -> Option<Vec<Request>> {
    let mut requests = Vec::new(alloc);
    for key in 0..keys {
        let value = format!(in alloc; "v{number}_{key}").ok()?;
        requests.push(request(alloc, &value)?).ok()?;
    }
    Some(requests)
}

// Waits until so many threads have come.
fn meet(come: &AtomicU64, threads: u64) {
    come.fetch_add(1, Ordering::SeqCst);
    for _ in 0..10_000_000_000u64 {
        if come.load(Ordering::SeqCst) >= threads {
            return;
        }
        yield_now();
    }
}

// The nanoseconds of the checks of a thread, after those that make its counters known.
fn work<N: CellNaming, R: Wait + Clock>(rt: &R, alloc: Global, run: &Run<'_, N>, mut pass: Pass<N>) -> Option<u64>
    requires pass { pass.limiter ≡ run.now.limiter.now.id }
{
    let mut number = 0;
    if run.is_apart {
        number = run.numbers.fetch_add(1, Ordering::SeqCst);
    }
    let requests = requests(alloc, number, run.keys)?;
    let limiter = run.limiter;
    let mut reply = Reply::new();
    if check_each(rt, alloc, limiter, &mut pass, requests.as_slice(), &mut reply) > 0 {
        return None;
    }
    meet(&run.come, run.threads);
    let start = Instant::now(rt).ok()?;
    let refused = if run.is_open {
        open_rounds(limiter, &mut pass, requests.as_slice(), run.each)
    } else {
        rounds(rt, alloc, limiter, &mut pass, requests.as_slice(), run.each)
    };
    let spent = start.elapsed(rt).ok()?;
    if refused > 0 {
        return None;
    }
    u64::try_from(spent.as_nanos()).ok()
}

fn sum(spent: &[Option<u64>]) -> Option<u64> {
    let mut sum = 0u64;
    for one in spent {
        sum = sum.wrapping_add((*one)?);
    }
    Some(sum)
}

// The nanoseconds of each thread.
fn work_each<N: CellNaming + Send + Sync, R: Threads + Wait + Clock + Sync>(
    rt: &R,
    alloc: Global,
    run: &Run<'_, N>,
    passes: Vec<Pass<N>>,
) -> Option<Vec<Option<u64>>>
    requires passes { All (λ p. p.limiter ≡ run.now.limiter.now.id) passes.items }
{
    map_vec(
        rt,
        passes,
        &|pass: Pass<N>| -> Option<u64>
            requires { pass.limiter ≡ run.now.limiter.now.id }
        { work(rt, alloc, run, pass) },
    )
    .ok()
}

// The nanoseconds of all threads together. Where they are to be over, their counters are above the limit from the third check on.
fn timed<N: CellNaming + Send + Sync, R: Threads + Wait + Clock + RandomSource + Sync>(
    rt: &R,
    alloc: Global,
    opened: OpenedCells,
    threads: u32,
    keys: u32,
    is_apart: bool,
    is_over: bool,
    is_open: bool,
    each: u32,
) -> Option<u64>
    requires name { (table_of opened ≡ N.table) × (setup_of opened ≡ N.setup) }
    requires passes { (1 ≤ N.setup.passes) × (N.setup.passes ≤ 4) }
{
    let seed = RandomState::new(rt).ok()?;
    let limits = Limits {
        claims_max: 100,
        global_shadow: false,
    };
    let limit = if is_over { 1 } else { 4_000_000_000 };
    let (limiter, passes) = Limiter::<N>::make(alloc, config(alloc, limit)?, opened, limits, seed).ok()?;
    let run = Run {
        limiter: &limiter,
        threads: u64::from(threads),
        keys,
        is_apart,
        is_open,
        each,
        numbers: AtomicU64::new(0),
        come: AtomicU64::new(0),
    };
    let spent = work_each(rt, alloc, &run, passes)?;
    sum(spent.as_slice())
}

fn one<R: Threads + Wait + Clock + RandomSource + Sync>(
    rt: &R,
    alloc: Global,
    threads: u32,
    keys: u32,
    is_apart: bool,
    is_over: bool,
    is_open: bool,
    each: u32,
) -> u64
    requires { (1 ≤ threads) × (threads ≤ 4) }
{
    let Ok(opened) = OpenedCells::make(alloc, 128, threads, Seconds::capped(0)) else {
        return 0;
    };
    timed::<Brand, R>(rt, alloc, opened, threads, keys, is_apart, is_over, is_open, each).unwrap_or(0)
}

// How many checks a thread makes: the number among the program's words.
fn checks(rt: &HostRuntime) -> std::io::Result<Option<u32>> {
    for word in std::env::args(rt)?.skip(1) {
        if let Ok(checks) = word.parse::<u32>() {
            return Ok(Some(checks));
        }
    }
    Ok(None)
}

fn main(rt: HostRuntime) -> std::io::Result<()> {
    let Some(each) = checks(&rt)? else {
        return Ok(());
    };
    let in_turn = each.checked_div(64).unwrap_or(0);
    let a = one(&rt, rt.alloc(), 1, 1, false, false, true, each);
    let b = one(&rt, rt.alloc(), 1, 1, false, false, false, each);
    let c = one(&rt, rt.alloc(), 1, 64, false, false, true, in_turn);
    let d = one(&rt, rt.alloc(), 1, 64, false, false, false, in_turn);
    let e = one(&rt, rt.alloc(), 4, 1, false, false, true, each);
    let f = one(&rt, rt.alloc(), 4, 1, false, false, false, each);
    let g = one(&rt, rt.alloc(), 4, 1, true, false, true, each);
    let h = one(&rt, rt.alloc(), 4, 1, true, false, false, each);
    println!(rt; "{a} {b} 1\n{c} {d} 1\n{e} {f} 4\n{g} {h} 4")?;
    let i = one(&rt, rt.alloc(), 1, 1, false, true, true, each);
    let j = one(&rt, rt.alloc(), 1, 1, false, true, false, each);
    let k = one(&rt, rt.alloc(), 4, 1, false, true, true, each);
    let l = one(&rt, rt.alloc(), 4, 1, false, true, false, each);
    println!(rt; "{i} {j} 1\n{k} {l} 4")?;
    Ok(())
}
RT
mkdir -p "$bench/proofs/one" "$bench/proofs/rounds" "$bench/proofs/open_rounds" "$bench/proofs/check_each" "$bench/proofs/open_each" "$bench/proofs/work_each"
cat > "$bench/proofs/one/Invariants.antt" <<'PF'
use Rattle.counter_cells.specs.Opened.{table_of, setup_of}
use Rattle.known_bench.proofs.one.Given as goal

abbrev pub ghosts-timed : goal.ghosts-timed
ghosts-timed g a = record { table = table_of a.opened; setup = setup_of a.opened }
PF
for each in rounds open_rounds check_each open_each; do
    loop=round
    [ "${each%each}" = "$each" ] || loop=request
    cat > "$bench/proofs/$each/Invariants.antt" <<PF
use Rattle.std.proofs.Common.{◌≡◌}
use Rattle.known_bench.proofs.$each.Given as goal

abbrev pub invariant-loop-$loop : goal.invariant-loop-$loop
invariant-loop-$loop g l = l.pass.limiter ≡ l.limiter.id
PF
done
cat > "$bench/proofs/Crossing.antt" <<'PF'
-- Threads may share what a run shares.
use denote.RattleType.{RattleType}
use denote.Param.Send.{IsSync, sendable}
use denote.Param.SendFields.{declared_sync}
use denote.Ref.{NamedLft}
use denote.Struct.Tuple.{TupleAt}
use mir.Syntax.{Sym}
use mathlib.Core.List.{[], ◌∷◌}
use Rattle.std.proofs.Crossing.{crosses}
use Rattle.counter_cells.specs.declared.naming.CellNaming.{Ghosts}
use Rattle.rate_limiter.proofs.Sent.{limiter_sync}
use Rattle.known_bench.specs.contracts.Run as shared

pub run_sync : (l : NamedLft) (N : RattleType) (naming : Ghosts N.Denot) → IsSync (shared.the_row l N naming)
run_sync l N naming = declared_sync (shared.the_type l N naming) (search (sendable, crosses, limiter_sync) depth 30)

-- what a closure captures
pub captured_sync : (name : Sym) (A B C : RattleType) → IsSync A → IsSync B → IsSync C → IsSync (TupleAt name (A ∷ B ∷ C ∷ []))
captured_sync name A B C a b c = search sendable depth 20
PF
printf 'mod Crossing\n' > "$bench/proofs/Lib.antt"
cat > "$bench/proofs/work_each/Answers.antt" <<'PF'
use mir.Syntax.{named}
use denote.Param.{param}
use denote.Param.Send.{IsSync, sendable, shr_sync}
use denote.Struct.Field.{shr_ref_field}
use Rattle.std.specs.Prelude.{codes}
use Rattle.std.specs.contracts.alloc.Global as heap
use Rattle.rate_limiter.proofs.Sent.{pass_send}
use Rattle.known_bench.specs.contracts.Run as shared
use Rattle.known_bench.proofs.Crossing.{run_sync, captured_sync}
use Rattle.known_bench.proofs.work_each.Goals as goal

pub map_vec-requires-send-J : goal.map_vec-requires-send-J
map_vec-requires-send-J g c κs within = search (sendable, pass_send) depth 30

-- the closure captures three references: the runtime, the allocator, and what the run shares
pub map_vec-requires-sync-F : goal.map_vec-requires-sync-F
map_vec-requires-sync-F g c κs within =
    let runtime : IsSync (param 1 g.row.R) = c.type_bounds.sync-R in
    let allocator : IsSync heap.the_row = search sendable depth 20 in
    record {
      shared = (captured_sync (codes "known_bench::fn::work_each::map_vec+Self")
          ((shr_ref_field (record { mir = named 7; lft = κs.1.1.1.1.1.1.1.0 }) (param 1 g.row.R) tt).row)
          ((shr_ref_field (record { mir = named 8; lft = κs.1.1.1.1.1.1.1.1.0 }) heap.the_row tt).row)
          ((shr_ref_field (record { mir = named 9; lft = κs.1.1.1.1.1.1.1.1.1.0 })
          (shared.the_row (record { mir = named 10; lft = κs.1.1.1.1.1.1.1.1.1.1.0 }) (param 0 g.row.N) g.N.CellNaming) tt).row)
          (shr_sync _ _ _ runtime) (shr_sync _ _ _ allocator) (shr_sync _ _ _ (run_sync _ _ _))).shared;
    }
PF

build_peer
: > "$work/peer.txt"
run_program known_bench > /dev/null
for attempt in 1 2 3 4 5; do
    "$bench/out/known_bench" "$checks" >> "$work/run.txt"
    [ -z "$peer" ] || "$peer" known "$checks" >> "$work/peer.txt"
done
grep -E '^[0-9]+ [0-9]+ [0-9]+$' "$work/run.txt" | paste -d ' ' - "$work/peer.txt" | awk -v n="$checks" '
{
    row = (NR - 1) % 6
    threads[row] = $3
    if (NR <= 6 || $1 < open[row]) open[row] = $1
    if (NR <= 6 || $2 < all[row]) all[row] = $2
    if (NR <= 6 || $4 < peer[row]) peer[row] = $4
}
END {
    print "threads keys       check_open ns ratio   check ns ratio   dashmap ns"
    split("one,64 in turn,one,each its,one over,one over", keys, ",")
    for (row = 0; row < 6; row++) {
        per = (row == 1 ? n - n % 64 : n) * threads[row]
        printf "%7d %-10s %13.1f %5.2f %10.1f %5.2f %12.1f\n", threads[row], keys[row + 1],
            open[row] / per, peer[row] ? open[row] / peer[row] : 0, all[row] / per, peer[row] ? all[row] / peer[row] : 0, peer[row] / per
    }
}'
if command -v valgrind > /dev/null; then
    cat > "$work/locked.py" <<'PY'
# How often the locked instructions of a program were executed, by what callgrind counted for each address: those with the prefix `lock`,
# and exchanges with memory, which are locked without it.
import re
import subprocess
import sys

program, counted = sys.argv[1:]
code, locked = set(), set()
for line in subprocess.run(["objdump", "-d", "--no-show-raw-insn", program], capture_output=True, text=True, check=True).stdout.splitlines():
    at = re.match(r" *([0-9a-f]+):\t(.*)", line)
    if at:
        code.add(int(at[1], 16))
        if re.search(r"\block\b|\bxchg\b.*\(", at[2]):
            locked.add(int(at[1], 16))
executed, is_own_object, is_own, is_call, last = {}, {}, False, False, 0
for line in open(counted, encoding="utf-8"):
    named = re.match(r"c?ob=\((\d+)\)(.*)", line)
    at = re.match(r"(0x[0-9a-f]+|\+\d+|-\d+|\*) \S+ (\d+)$", line)
    if named:
        if named[2]:
            is_own_object[named[1]] = named[2].strip().endswith(program.rsplit("/", 1)[-1])
        if line.startswith("ob="):
            is_own = is_own_object[named[1]]
    elif line.startswith("calls="):
        is_call = True
    elif at:
        word = at[1]
        last = int(word, 16) if word.startswith("0x") else last if word == "*" else last + int(word)
        if is_own and not is_call:
            executed[last] = executed.get(last, 0) + int(at[2])
        is_call = False
# (valgrind puts a program that may lie anywhere at one of the latter two)
base = max((0, 0x108000, 0x400000), key=lambda it: sum(at - it in code for at in executed))
print(sum(times for at, times in executed.items() if at - base in locked))
PY
    locked=()
    for each in 1 1000; do
        printf '%5d checks a thread and kind: %s\n' "$each" \
            "$(valgrind "$bench/out/known_bench" "$each" 2>&1 > /dev/null | sed -n 's/.*total heap usage: *//p')"
        valgrind --tool=callgrind --dump-instr=yes --callgrind-out-file="$work/counted" "$bench/out/known_bench" "$each" > /dev/null 2>&1
        locked+=("$(python3 "$work/locked.py" "$bench/out/known_bench" "$work/counted")")
    done
    # Six runs of one key a thread, two of one thread and four of four: 18 threads. Two of 64 keys, each of which is checked 15 times. The checks
    # of counters above their limits aren't among those that the instructions are shared out to: they should have none.
    awk -v one="${locked[0]}" -v all="${locked[1]}" 'BEGIN { printf "locked instructions a check of a counter that is not over: %.2f\n", (all - one) / (999 * 18 + 2 * 15 * 64) }'
fi
