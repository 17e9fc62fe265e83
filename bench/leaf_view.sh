#!/bin/bash
# Times the reading of leaves of both formats of 64 records of 1 KB, and look-ups of their keys, in nanoseconds of the processor.
# usage: bench/leaf_view.sh [ROUNDS]   (100000 if none is given)
# It makes a program beside copies of the crates in a folder of its own under /tmp, proves and builds it, and runs it.
# A read is to take a few microseconds at most, whatever the payloads' lengths, and a look-up less than one.
set -eu
rounds=${1:-100000}
. "$(dirname "$0")/beside.sh"
beside timings 'db_base byte_format leaf_view' 'leaf_view'
cat > src/main.rt <<END
#![tactic(auto)]

use leaf_view::LeafView;
use std::alloc::{AllocError, Global};
use std::io;
use std::time::{CpuClock, Duration};

const ROUNDS: u64 = $rounds;

const FIELDS: [u8; 18] = [0, 0, 0, 0, 0, 0, 0, 1, 0, 0, 0, 0, 0, 0, 0, 0, 0, 0];

const PAYLOAD: [u8; 1024] = [7; 1024];

/// Version 1, no fence, nothing done, and 64 records of 1 KB each, in format 2 with no attribute.
fn leaf(alloc: Global, format: u8) -> Result<Vec<u8>, AllocError> {
    let mut bytes = Vec::new(alloc);
    bytes.extend_from_slice(&[0x4c, format])?;
    bytes.extend_from_slice(&FIELDS)?;
    for last in 0..64u8 {
        bytes.extend_from_slice(&[1, 8, b'r', b'e', b'c', b'o', b'r', b'd', 0, last, 4, 0])?;
        bytes.extend_from_slice(&PAYLOAD)?;
        if format == 2 {
            bytes.push(0)?;
        }
    }
    bytes.push(0)?;
    Ok(bytes)
}

/// Reads the bytes again and again, under another version each time; how many of them were a leaf.
fn reads(bytes: &mut Vec<u8>) -> u64 {
    let mut read = 0u64;
    for round in 0..ROUNDS {
        if let Some(version) = bytes.get_mut(9) {
            *version = (round % 255) as u8 + 1;
        }
        if let Ok(view) = LeafView::read(bytes.as_slice()) {
            if view.version() > 0 {
                read = read.saturating_add(1);
            }
        }
    }
    read
}

/// Looks up the last keys in turn, this many of them; how many had a payload of 1 KB.
fn finds(view: &LeafView<'_>, spread: u8) -> u64 {
    let first = 64u8.saturating_sub(spread);
    let mut found = 0u64;
    let mut last = 63u8;
    for _ in 0..ROUNDS {
        if let Some(value) = view.value(&[b'r', b'e', b'c', b'o', b'r', b'd', 0, last]) {
            if value.payload().len() == 1024 {
                found = found.saturating_add(1);
            }
        }
        last = if last > first { last.saturating_sub(1) } else { 63 };
    }
    found
}

/// The time of one round in nanoseconds.
fn each(time: Duration) -> u64 {
    u64::try_from(time.as_nanos()).unwrap_or(u64::MAX) / ROUNDS
}

/// Times a leaf of this format.
fn times(rt: &HostRuntime, format: u8) -> io::Result<()> {
    let mut bytes = leaf(rt.alloc(), format)?;
    let length = bytes.len();
    let before = rt.thread_cpu_time()?;
    let read = reads(&mut bytes);
    let time = rt.thread_cpu_time()?.saturating_sub(before);
    println!(rt; "format {format}: read of {length} bytes: {} ns ({read} rounds)", each(time))?;
    if let Ok(view) = LeafView::read(bytes.as_slice()) {
        let before = rt.thread_cpu_time()?;
        let found = finds(&view, 64);
        let time = rt.thread_cpu_time()?.saturating_sub(before);
        println!(rt; "find of each key in turn: {} ns ({found} rounds)", each(time))?;
        let before = rt.thread_cpu_time()?;
        let found = finds(&view, 1);
        let time = rt.thread_cpu_time()?.saturating_sub(before);
        println!(rt; "find of the last key: {} ns ({found} rounds)", each(time))?;
    }
    Ok(())
}

fn main(rt: HostRuntime) -> io::Result<()> {
    times(&rt, 1)?;
    times(&rt, 2)
}
END
rt run
