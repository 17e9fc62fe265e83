#!/bin/bash
# Times tree checkpoints over a cloud in memory, and shows which pages they touch.
# First: 256 updates of four leaves of 64 records of 1 KB, one for each record, in ROUNDS rounds; the whole checkpoint with its calls, and beside it
# the same puts and deletions made directly. What is left for the checkpoint itself is to be a few hundred microseconds.
# Then: 4 updates of one leaf of a tree of 5,000 records; only the tree object and that leaf are to be got and put.
# usage: bench/tree_ckpt.sh [ROUNDS]   (20 if none is given)
# It makes a program beside copies of the crates in a folder of its own under /tmp, proves and builds it, and runs it.
set -eu
rounds=${1:-20}
. "$(dirname "$0")/beside.sh"
beside checkpoints 'byte_format db_base change_codec cloud_trait leaf_view node_codec log_codec memory_cloud leaf_edit run_cursor ckpt_parts split_plan
tree_phases tree_ckpt' 'db_base cloud_trait memory_cloud tree_ckpt'
cat > src/main.rt <<RT
#![tactic(auto)]

use cloud_trait::call::Call;
use cloud_trait::cloud::Cloud;
use cloud_trait::grant::Grant;
use cloud_trait::lease::Lease;
use cloud_trait::turn::Turn;
use cloud_trait::who::Who;
use db_base::ids::{MsgId, PageId, SessionNo, TreeId};
use db_base::names::{Lock, ObjName, QueueName};
use memory_cloud::memory::MemoryCloud;
use std::alloc::{AllocError, Global};
use std::io;
use std::time::{CpuClock, Duration};
use tree_ckpt::TreeCkpt;

const ROUNDS: u64 = $rounds;

/// A record of client 1 with a number: an insert or an update of a key of two bytes, with a payload of so many bytes.
fn record(alloc: Global, number: u64, at: u16, is_new: bool, length: u16) -> Result<Vec<u8>, AllocError> {
    let mut bytes = Vec::new(alloc);
    bytes.extend_from_slice(&[0x50, 1, 1, 0, 0, 0, 0, 0, 0, 0, 1, 0, 0, 0, 0, 0, 0, 0, 1])?;
    bytes.extend_from_slice(&number.to_be_bytes())?;
    bytes.push(if is_new { 1 } else { 2 })?;
    bytes.push(2)?;
    bytes.extend_from_slice(&at.to_be_bytes())?;
    bytes.extend_from_slice(&length.to_be_bytes())?;
    for _ in 0..length {
        bytes.push(7)?;
    }
    Ok(bytes)
}

fn send_one(cloud: &mut MemoryCloud, who: Who, alloc: Global, tree: TreeId, number: u64, at: u16, is_new: bool, length: u16) -> Option<()> {
    let bytes = record(alloc, number, at, is_new, length).ok()?;
    let _id = cloud.send(who, QueueName::TreePu(tree), bytes.as_slice()).ok()?;
    Some(())
}

/// Sends so many records with numbers from here on, of keys from there on.
fn send(cloud: &mut MemoryCloud, who: Who, alloc: Global, tree: TreeId, number: u64, first: u16, count: u16, is_new: bool, length: u16) -> Option<u64> {
    let mut number = number;
    for index in 0..count {
        let at = first.checked_add(index)?;
        send_one(cloud, who, alloc, tree, number, at, is_new, length)?;
        number = number.checked_add(1)?;
    }
    Some(number)
}

/// What a checkpoint did: its calls, and how many of them got a page, put a page, and got or put the tree object.
#[derive(Clone, Copy)]
struct Calls {
    all: u64,
    got: u64,
    put: u64,
    root: u64,
}

fn counted(calls: Calls, call: &Call<'_>) -> Calls {
    let mut now = calls;
    now.all = now.all.saturating_add(1);
    match call {
        Call::GetHeld(ObjName::Page(_, _), _) => now.got = now.got.saturating_add(1),
        Call::PutHeld(ObjName::Page(_, _), _, _, _) => now.put = now.put.saturating_add(1),
        Call::GetHeld(ObjName::Tree(_), _) => now.root = now.root.saturating_add(1),
        Call::PutHeld(ObjName::Tree(_), _, _, _) => now.root = now.root.saturating_add(1),
        _ => {}
    }
    now
}

/// The calls with the one in hand. The type of a lease is named, for the checker of borrows wants it beside a call.
fn with_next(calls: Calls, made: &TreeCkpt) -> Calls {
    let _none: Option<Lease> = None;
    counted(calls, &made.in_hand())
}

/// Makes a checkpoint of the tree, 4,000 calls at most.
fn checkpoint(cloud: &mut MemoryCloud, who: Who, alloc: Global, tree: TreeId) -> Option<Calls> {
    let mut made = TreeCkpt::new(alloc, tree);
    let mut calls = Calls { all: 0, got: 0, put: 0, root: 0 };
    for _ in 0..4000u64 {
        calls = with_next(calls, &made);
        match made.step(alloc, cloud, who) {
            Turn::More => {}
            Turn::Ended(_) => return Some(calls),
            Turn::Stopped(_) => return None,
        }
    }
    None
}

/// Puts four pages of 64 KB and deletes 256 messages directly.
fn directly(cloud: &mut MemoryCloud, who: Who, tree: TreeId, bytes: &[u8]) -> Option<()> {
    let Ok(Grant::Given(lease)) = cloud.take(who, Lock::Tree(tree), 60) else {
        return None;
    };
    for number in 101..105u64 {
        cloud.put_held(who, ObjName::Page(tree, PageId::new(number).ok()?), bytes, &lease, None).ok()?;
    }
    for number in 1..257u64 {
        cloud.delete(who, QueueName::TreePu(tree), MsgId::new(number)).ok()?;
    }
    cloud.release(who, lease).ok()
}

/// The time of one round in microseconds.
fn each(time: Duration, rounds: u64) -> u64 {
    u64::try_from(time.as_micros()).unwrap_or(u64::MAX) / rounds.max(1)
}

fn four_leaves(rt: &HostRuntime, who: Who, tree: TreeId) -> io::Result<()> {
    let alloc = rt.alloc();
    let mut cloud = MemoryCloud::new(alloc);
    let mut number = send(&mut cloud, who, alloc, tree, 1, 0, 256, true, 1024).unwrap_or(0);
    let _first = checkpoint(&mut cloud, who, alloc, tree);
    let (mut time, mut other, mut calls) = (Duration::ZERO, Duration::ZERO, 0u64);
    let bytes = [7u8; 66000];
    for _ in 0..ROUNDS {
        number = send(&mut cloud, who, alloc, tree, number, 0, 256, false, 1024).unwrap_or(0);
        let before = rt.thread_cpu_time()?;
        let made = checkpoint(&mut cloud, who, alloc, tree);
        time = time.saturating_add(rt.thread_cpu_time()?.saturating_sub(before));
        calls = made.map_or(0, |c| c.all);
        let before = rt.thread_cpu_time()?;
        let _direct = directly(&mut cloud, who, tree, bytes.as_slice());
        other = other.saturating_add(rt.thread_cpu_time()?.saturating_sub(before));
    }
    println!(rt; "256 updates of four leaves of 64 records of 1 KB: {} microseconds, {calls} calls", each(time, ROUNDS))?;
    println!(rt; "the same puts and deletions made directly: {} microseconds", each(other, ROUNDS))
}

fn five_thousand(rt: &HostRuntime, who: Who, tree: TreeId) -> io::Result<()> {
    let alloc = rt.alloc();
    let mut cloud = MemoryCloud::new(alloc);
    let mut number = 1u64;
    for part in 0..20u16 {
        number = send(&mut cloud, who, alloc, tree, number, part.saturating_mul(250), 250, true, 8).unwrap_or(0);
        let _made = checkpoint(&mut cloud, who, alloc, tree);
    }
    let _sent = send(&mut cloud, who, alloc, tree, number, 2000, 4, false, 8);
    match checkpoint(&mut cloud, who, alloc, tree) {
        Some(c) => println!(rt; "4 updates in a tree of 5,000 records: {} calls, {} pages got, {} put, the tree object got and put {} times", c.all, c.got, c.put, c.root),
        None => println!(rt; "the checkpoint stopped"),
    }
}

fn main(rt: HostRuntime) -> io::Result<()> {
    if let (Ok(session), Ok(tree)) = (SessionNo::new(1), TreeId::new(1)) {
        let who = Who::new(session, 1);
        four_leaves(&rt, who, tree)?;
        five_thousand(&rt, who, tree)?;
    }
    Ok(())
}
RT
rt run
