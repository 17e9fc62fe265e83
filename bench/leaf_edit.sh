#!/bin/bash
# Times `merge` and `apply`: a leaf of 64 records of 1,024 bytes, a run of 64 updates, one for each record.
# usage: bench/leaf_edit.sh [ROUNDS]   (20000 if none is given)
# It makes a program beside copies of the crates in a folder of its own under /tmp, proves and builds it, and runs it.
# Each is to take under 25 microseconds; a plain copy of the same bytes is printed beside them.
set -eu
rounds=${1:-20000}
. "$(dirname "$0")/beside.sh"
beside merges 'db_base byte_format leaf_view change_codec log_codec run_cursor leaf_edit' 'leaf_edit leaf_view run_cursor log_codec db_base'
cat > src/main.rt <<RT
#![tactic(auto)]

ghost use Rattle.std.specs.Prelude.{◌≤◌};
ghost use Rattle.std.specs.Vec.{vec_capacity};
ghost use Rattle.leaf_edit.specs.Applied.{applied_length};
ghost use Rattle.log_codec.specs.Order.{IsOrdered};

use db_base::change::Change;
use db_base::cursor::Cursor;
use db_base::ids::{ClientId, MsgId};
use db_base::key::{Key, Payload};
use leaf_edit::{LeafBuf, apply, merge, need};
use leaf_view::LeafView;
use log_codec::record::{PuItem, PuRec};
use run_cursor::run::{Run, take_run};
use std::alloc::Global;
use std::io;
use std::time::{CpuClock, Duration};

const ROUNDS: u64 = $rounds;

fn item_of(alloc: Global, n: u8, is_new: bool) -> Option<PuItem> {
    let key = Key::new(alloc, &[n]).ok()?;
    let payload = Payload::new(alloc, &[n; 1024]).ok()?;
    let change = if is_new {
        Change::Insert { key, payload, attr: None }
    } else {
        Change::Update { key, payload }
    };
    let client = ClientId::new(u64::from(n % 8) + 1).ok()?;
    let number = u64::from(n / 8) + 1;
    let rec = PuRec { client, epoch: 1, txn: 1, number, change };
    Some(PuItem { id: MsgId::new(u64::from(n)), rec })
}

fn run_of(alloc: Global, is_new: bool) -> Option<Run> {
    let mut items = Vec::new(alloc);
    for n in 0..64u8 {
        items.push(item_of(alloc, n, is_new)?).ok()?;
    }
    take_run(alloc, &Cursor::new(alloc), items.as_slice()).ok()
}

fn leaf_of(alloc: Global) -> Option<LeafBuf> {
    let run = run_of(alloc, true)?;
    apply(alloc, &LeafView::empty(), 0, run.items()).ok()
}

fn merges(leaf: &LeafView<'_>, run: &[PuItem], out: &mut Vec<u8>) -> u64
    requires ordered { IsOrdered run.now }
    requires room { applied_length leaf.now 1 run.now ≤ vec_capacity out.old }
{
    let mut right = 0u64;
    for n in 0..ROUNDS {
        out.clear();
        if merge(leaf, 1, run, out).is_ok() {
            right = right.saturating_add(1);
        }
    }
    right
}

fn applies(alloc: Global, leaf: &LeafView<'_>, run: &[PuItem]) -> u64
    requires ordered { IsOrdered run.now }
{
    let mut right = 0u64;
    for _ in 0..ROUNDS {
        if apply(alloc, leaf, 1, run).is_ok() {
            right = right.saturating_add(1);
        }
    }
    right
}

fn copies(bytes: &[u8], out: &mut Vec<u8>) -> u64 {
    let mut right = 0u64;
    for _ in 0..ROUNDS {
        out.clear();
        if out.extend_from_slice(bytes).is_ok() {
            right = right.saturating_add(1);
        }
    }
    right
}

/// The time of one round in nanoseconds.
fn each(time: Duration) -> u64 {
    u64::try_from(time.as_nanos()).unwrap_or(u64::MAX) / ROUNDS
}

fn timed(rt: &HostRuntime, leaf: &LeafView<'_>, items: &[PuItem], out: &mut Vec<u8>) -> io::Result<()>
    requires ordered { IsOrdered items.now }
    requires room { applied_length leaf.now 1 items.now ≤ vec_capacity out.old }
{
    let before = rt.thread_cpu_time()?;
    let right = merges(leaf, items, out);
    let time = rt.thread_cpu_time()?.saturating_sub(before);
    println!(rt; "merge: {} ns ({right} rounds)", each(time))?;
    let before = rt.thread_cpu_time()?;
    let right = applies(rt.alloc(), leaf, items);
    let time = rt.thread_cpu_time()?.saturating_sub(before);
    println!(rt; "apply: {} ns ({right} rounds)", each(time))
}

fn compared(rt: &HostRuntime, bytes: &[u8]) -> io::Result<()> {
    let mut copy = Vec::new(rt.alloc());
    let before = rt.thread_cpu_time()?;
    let right = copies(bytes, &mut copy);
    let time = rt.thread_cpu_time()?.saturating_sub(before);
    println!(rt; "a plain copy of the same {} bytes: {} ns ({right} rounds)", bytes.len(), each(time))
}

fn main(rt: HostRuntime) -> io::Result<()> {
    let alloc = rt.alloc();
    if let (Some(leaf), Some(run)) = (leaf_of(alloc), run_of(alloc, false)) {
        let view = leaf.view();
        if let Some(length) = need(&view, 1, run.items()) {
            let mut out = Vec::with_capacity(alloc, length)?;
            timed(&rt, &view, run.items(), &mut out)?;
            compared(&rt, out.as_slice())?;
        }
    }
    Ok(())
}
RT
mkdir -p proofs/merges
cat > proofs/Lib.antt <<'ANTT'
ANTT
cat > proofs/merges/Invariants.antt <<'ANTT'
use Rattle.std.proofs.Common.{◌≤◌}
use Rattle.std.specs.Vec.{vec_capacity}
use Rattle.leaf_edit.specs.Applied.{applied_length}
use Rattle.merges.proofs.merges.Given as goal

abbrev pub invariant-loop-n : goal.invariant-loop-n
invariant-loop-n l = applied_length l.leaf 1 l.run ≤ vec_capacity l.out
ANTT
rt run
