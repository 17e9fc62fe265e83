#!/bin/bash
# Times `take_run`: 250 received items of 8 clients, in the order in which each client sent them, with payloads of 100 bytes.
# usage: bench/run_cursor.sh [ROUNDS]   (2000 if none is given)
# It makes a program beside copies of the crates in a folder of its own under /tmp, proves and builds it, and runs it.
# A run is to take under 30 microseconds more than a plain copy of the same items, which is printed beside it.
set -eu
rounds=${1:-2000}
. "$(dirname "$0")/beside.sh"
beside timings 'db_base byte_format change_codec log_codec run_cursor' 'run_cursor log_codec db_base'
cat > src/main.rt <<END
#![tactic(auto)]

use db_base::change::Change;
use db_base::cursor::Cursor;
use db_base::ids::{ClientId, MsgId};
use db_base::key::{Key, Payload};
use log_codec::record::{PuItem, PuRec};
use run_cursor::run::take_run;
use std::alloc::Global;
use std::io;
use std::time::{CpuClock, Duration};

const ROUNDS: u64 = $rounds;

const ITEMS: u8 = 250;

fn item_of(alloc: Global, n: u8) -> Option<PuItem> {
    let key = Key::new(alloc, &[b'k', b'e', b'y', n.wrapping_mul(97)]).ok()?;
    let payload = Payload::new(alloc, &[n; 100]).ok()?;
    let client = ClientId::new(u64::from(n % 8) + 1).ok()?;
    let number = u64::from(n / 8) + 1;
    let rec = PuRec { client, epoch: 1, txn: 1, number, change: Change::Insert { key, payload, attr: None } };
    Some(PuItem { id: MsgId::new(u64::from(n)), rec })
}

fn items_of(alloc: Global) -> Option<Vec<PuItem>> {
    let mut items = Vec::new(alloc);
    for n in 0..ITEMS {
        items.push(item_of(alloc, n)?).ok()?;
    }
    Some(items)
}

/// Takes the run again and again; how often it has all items.
fn runs(alloc: Global, items: &[PuItem]) -> u64 {
    let cursor = Cursor::new(alloc);
    let mut right = 0u64;
    for _ in 0..ROUNDS {
        if let Ok(run) = take_run(alloc, &cursor, items) {
            if run.items().len() == items.len() {
                right = right.saturating_add(1);
            }
        }
    }
    right
}

fn copy_of(alloc: Global, items: &[PuItem]) -> Option<Vec<PuItem>> {
    let mut all = Vec::new(alloc);
    for x in items {
        all.push(x.copied(alloc).ok()?).ok()?;
    }
    Some(all)
}

fn copies(alloc: Global, items: &[PuItem]) -> u64 {
    let mut right = 0u64;
    for _ in 0..ROUNDS {
        if copy_of(alloc, items).is_some() {
            right = right.saturating_add(1);
        }
    }
    right
}

/// The time of one round in nanoseconds.
fn each(time: Duration) -> u64 {
    u64::try_from(time.as_nanos()).unwrap_or(u64::MAX) / ROUNDS
}

fn main(rt: HostRuntime) -> io::Result<()> {
    let alloc = rt.alloc();
    if let Some(items) = items_of(alloc) {
        let before = rt.thread_cpu_time()?;
        let right = runs(alloc, items.as_slice());
        let time = rt.thread_cpu_time()?.saturating_sub(before);
        println!(rt; "take_run of {ITEMS} items: {} ns ({right} rounds)", each(time))?;
        let before = rt.thread_cpu_time()?;
        let right = copies(alloc, items.as_slice());
        let time = rt.thread_cpu_time()?.saturating_sub(before);
        println!(rt; "a plain copy of them: {} ns ({right} rounds)", each(time))?;
    }
    Ok(())
}
END
rt run
