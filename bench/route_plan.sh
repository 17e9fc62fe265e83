#!/bin/bash
# Times `route`: 200 changes of a client whose head has 4,000 pending entries of other keys.
# usage: bench/route_plan.sh [ROUNDS]   (200 if none is given)
# It makes a program beside copies of the crates in a folder of its own under /tmp, proves and builds it, and runs it.
# The time of a plain copy of the same changes is printed beside it.
set -eu
rounds=${1:-200}
. "$(dirname "$0")/beside.sh"
beside timings 'db_base byte_format change_codec head_codec log_codec txn_buffer leaf_view node_codec route_plan' 'route_plan head_codec log_codec txn_buffer db_base'
cat > src/main.rt <<END
#![tactic(auto)]

ghost use Rattle.std.specs.Prelude.{◌≡◌, length};

use db_base::change::Change;
use db_base::ids::{ClientId, PageId, TreeId};
use db_base::key::{Key, Payload};
use head_codec::entry::Entry;
use head_codec::head::Head;
use head_codec::lists::Pending;
use log_codec::record::AtomicRec;
use route_plan::route::route;
use std::alloc::Global;
use std::io;
use std::time::{CpuClock, Duration};
use txn_buffer::buffer::TxnBuffer;

const ROUNDS: u64 = $rounds;

const PENDING: u16 = 4000;

const CHANGES: u16 = 200;

fn change_of(alloc: Global, mark: u8, n: u16) -> Option<Change> {
    let [high, low] = n.to_be_bytes();
    let key = Key::new(alloc, &[b'k', b'e', b'y', mark, high, low]).ok()?;
    let payload = Payload::new(alloc, &[7; 100]).ok()?;
    Some(Change::Insert { key, payload, attr: None })
}

fn head_of(alloc: Global, tree: TreeId) -> Option<Head> {
    let mut head = Head::empty(alloc);
    for n in 0..PENDING {
        let change = change_of(alloc, b'p', n)?;
        let entry = Entry::of(alloc, Pending { tree, page: 0, number: u64::from(n) + 1, change }).ok()?;
        head.pending.push(entry).ok()?;
    }
    Some(head)
}

fn changes_of(alloc: Global, tree: TreeId) -> Option<TxnBuffer> {
    let mut changes = TxnBuffer::new(alloc).ok()?;
    for n in 0..CHANGES {
        changes.note(tree, change_of(alloc, b'c', n)?).ok()?;
    }
    Some(changes)
}

/// Routes the changes again and again; how often each has its record.
fn routes(alloc: Global, client: ClientId, head: &Head, changes: &TxnBuffer, leaves: &[PageId]) -> u64
    requires { length leaves.now ≡ length changes.now }
{
    let mut right = 0u64;
    for _ in 0..ROUNDS {
        if let Ok(records) = route(alloc, client, 1, 1, head, changes, leaves) {
            if records.len() == leaves.len() {
                right = right.saturating_add(1);
            }
        }
    }
    right
}

fn copy_of(alloc: Global, changes: &TxnBuffer) -> Option<Vec<Change>> {
    let mut all = Vec::new(alloc);
    for n in 0..changes.len() {
        if let Some((_, change)) = changes.at(n) {
            all.push(change.copied(alloc).ok()?).ok()?;
        }
    }
    Some(all)
}

fn copies(alloc: Global, changes: &TxnBuffer) -> u64 {
    let mut right = 0u64;
    for _ in 0..ROUNDS {
        if copy_of(alloc, changes).is_some() {
            right = right.saturating_add(1);
        }
    }
    right
}

/// The time of one round in nanoseconds.
fn each(time: Duration) -> u64 {
    u64::try_from(time.as_nanos()).unwrap_or(u64::MAX) / ROUNDS
}

fn main(rt: HostRuntime) -> io::Result<()> {
    let alloc = rt.alloc();
    if let (Ok(tree), Ok(client), Ok(page)) = (TreeId::new(1), ClientId::new(1), PageId::new(1)) {
        if let (Some(head), Some(changes)) = (head_of(alloc, tree), changes_of(alloc, tree)) {
            let leaves = Vec::from_elem(alloc, page, changes.len())?;
            let before = rt.thread_cpu_time()?;
            let right = routes(alloc, client, &head, &changes, leaves.as_slice());
            let time = rt.thread_cpu_time()?.saturating_sub(before);
            println!(rt; "route of {CHANGES} changes over {PENDING} pending: {} ns ({right} rounds)", each(time))?;
            let before = rt.thread_cpu_time()?;
            let right = copies(alloc, &changes);
            let time = rt.thread_cpu_time()?.saturating_sub(before);
            println!(rt; "a plain copy of the changes: {} ns ({right} rounds)", each(time))?;
        }
    }
    Ok(())
}
END
rt run
