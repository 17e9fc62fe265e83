#!/bin/bash
# Counts the gets of a read of one record in a tree of three levels: of the first read, and of a second one whose tree object and
# inner nodes the cache keeps. A kept tree is to cost one get, that of the leaf, so the last line is to read "1 get".
# usage: bench/record_read.sh
# It makes a program beside copies of the crates, with what their checks kept, in a folder of its own under /tmp, and runs it.
set -euo pipefail
top=$(cd "$(dirname "$0")/.." && pwd)
work=$(mktemp -d /tmp/record_read_bench.XXXXXX)
trap 'rm -rf "$work"' EXIT
crates='byte_format db_base change_codec cloud_trait leaf_view node_codec txn_buffer head_codec log_codec memory_cloud page_cache
tree_walk route_plan record_read'
mkdir -p "$work/crates/gets/src"
for crate in $crates; do
    mkdir -p "$work/crates/$crate"
    for part in src specs proofs out; do
        if [ -d "$top/crates/$crate/$part" ]; then cp -r "$top/crates/$crate/$part" "$work/crates/$crate/"; fi
    done
    grep -E "^$crate:" "$top/crates.txt" >> "$work/crates.txt"
done
echo 'gets: db_base cloud_trait memory_cloud page_cache record_read' >> "$work/crates.txt"
cd "$work/crates/gets"
cat > src/main.rt <<'END'
#![tactic(auto)]

use cloud_trait::cloud::Cloud;
use cloud_trait::grant::Grant;
use cloud_trait::turn::Turn;
use cloud_trait::who::Who;
use db_base::ids::{PageId, SessionNo, TreeId};
use db_base::key::Key;
use db_base::names::{Lock, ObjName};
use memory_cloud::memory::MemoryCloud;
use page_cache::PageCache;
use record_read::RecordRead;
use std::alloc::Global;
use std::io;

/// The tree object: version 1, next free page 8, level 2, and the entry from the empty key to page 7.
const ROOT: [u8; 31] = [
    0x54, 1, 0, 0, 0, 0, 0, 0, 0, 1, 0, 0, 0, 0, 0, 0, 0, 8, 2, 0, 1, 0, 0, 0, 0, 0, 0, 0, 0, 7, 0,
];

/// Inner node 7: version 1, level 1, no fence, and the entry from the empty key to page 1.
const NODE: [u8; 31] = [
    0x49, 1, 0, 0, 0, 0, 0, 0, 0, 1, 1, 0, 0, 0, 0, 0, 0, 0, 0, 0, 1, 0, 0, 0, 0, 0, 0, 0, 0, 1, 0,
];

/// Leaf 1: version 1, no fence, and the record of k and v.
const LEAF: [u8; 27] = [
    0x4c, 1, 0, 0, 0, 0, 0, 0, 0, 1, 0, 0, 0, 0, 0, 0, 0, 0, 0, 0, 1, 1, 0x6b, 0, 1, 0x76, 0,
];

/// Puts the objects of the tree.
fn put(cloud: &mut MemoryCloud, who: Who, tree: TreeId) -> Option<()> {
    let Ok(Grant::Given(lease)) = cloud.take(who, Lock::Tree(tree), 10) else {
        return None;
    };
    let node = PageId::new(7).ok()?;
    cloud.put_held(who, ObjName::Tree(tree), &ROOT, &lease, None).ok()?;
    cloud.put_held(who, ObjName::Page(tree, node), &NODE, &lease, None).ok()?;
    cloud.put_held(who, ObjName::Page(tree, PageId::first()), &LEAF, &lease, None).ok()?;
    Some(())
}

/// How many gets a read makes.
fn gets(
    alloc: Global,
    cloud: &mut MemoryCloud,
    who: Who,
    cache: &mut PageCache,
    tree: TreeId,
) -> Option<u64> {
    let mut read = RecordRead::new(alloc, tree, Key::new(alloc, b"k").ok()?);
    let Turn::More = read.ready(alloc, cache) else {
        return None;
    };
    for made in 1..20u64 {
        match read.step(alloc, cloud, who, cache) {
            Turn::More => {}
            Turn::Ended(_) => return Some(made),
            Turn::Stopped(_) => return None,
        }
    }
    None
}

fn both(alloc: Global) -> Option<(u64, u64)> {
    let tree = TreeId::new(1).ok()?;
    let who = Who::new(SessionNo::new(1).ok()?, 1);
    let mut cloud = MemoryCloud::new(alloc);
    put(&mut cloud, who, tree)?;
    let mut cache = PageCache::new(alloc).ok()?;
    let first = gets(alloc, &mut cloud, who, &mut cache, tree)?;
    let second = gets(alloc, &mut cloud, who, &mut cache, tree)?;
    Some((first, second))
}

fn main(rt: HostRuntime) -> io::Result<()> {
    match both(rt.alloc()) {
        Some((first, second)) => {
            println!(rt; "first read: {first} gets")?;
            println!(rt; "read of a kept tree: {second} get")
        }
        None => println!(rt; "no read"),
    }
}
END
rt try
