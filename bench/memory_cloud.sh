#!/bin/bash
# Times the cloud in memory: rounds of take, get, put, send, receive, delete and release of one name each.
# usage: bench/memory_cloud.sh [ROUNDS..]   (10000 and 100000 if none are given)
# It makes a program beside copies of the crates, with what their checks kept, under /tmp, proves and builds it, and
# times the program alone: the processor's time of a run, as the mean of fifty, less that of a run of no round. A call
# is to take as long after many rounds as after few, so the last line compares the rates: they should be within 1.5.
set -euo pipefail
. "$(dirname "$0")/beside.sh"
beside rounds 'db_base cloud_trait memory_cloud' 'memory_cloud cloud_trait db_base'
cat > src/main.rt <<'END'
#![tactic(auto)]

use cloud_trait::cloud::Cloud;
use cloud_trait::fault::CloudFault;
use cloud_trait::grant::Grant;
use cloud_trait::who::Who;
use db_base::ids::{SessionNo, TreeId};
use db_base::names::{Lock, ObjName, QueueName};
use memory_cloud::memory::MemoryCloud;
use std::{env, io};

fn round(cloud: &mut MemoryCloud, who: Who, tree: TreeId) -> Result<bool, CloudFault> {
    let lease = match cloud.take(who, Lock::Tree(tree), 5)? {
        Grant::Given(lease) => lease,
        Grant::Held(_) => return Ok(false),
    };
    let _old = cloud.get(who, ObjName::Tree(tree))?;
    let put = cloud.put_held(who, ObjName::Tree(tree), b"a version of the object", &lease, None).is_ok();
    let id = cloud.send(who, QueueName::TreePu(tree), b"a message")?;
    let messages = cloud.receive(who, QueueName::TreePu(tree), 256)?;
    cloud.delete(who, QueueName::TreePu(tree), id)?;
    cloud.release(who, lease)?;
    Ok(put && messages.len() == 1)
}

fn rounds(rt: &HostRuntime) -> io::Result<u64> {
    let mut rounds = 0;
    for word in env::args(rt)?.skip(1) {
        rounds = word.as_str().parse::<u64>().unwrap_or(0);
    }
    Ok(rounds)
}

fn main(rt: HostRuntime) -> io::Result<()> {
    let mut cloud = MemoryCloud::new(rt.alloc());
    let who = Who::new(SessionNo::settler(), 1);
    let rounds = rounds(&rt)?;
    let mut right = 0u64;
    if let Ok(tree) = TreeId::new(1) {
        for _ in 0..rounds {
            if let Ok(true) = round(&mut cloud, who, tree) {
                right = right.saturating_add(1);
            }
        }
    }
    println!(rt; "{right} rounds")
}
END
rt run -- 1 > rounds.log 2>&1 || { cat rounds.log; exit 1; }
if [ $# -eq 0 ]; then set -- 10000 100000; fi
TIMEFORMAT='%U %S'
for rounds in 0 "$@"; do
    spent=$( { time for _ in {1..50}; do
        said=$(./out/rounds "$rounds")
        if [ "$said" != "$rounds rounds" ]; then exit 1; fi
    done; } 2>&1 )
    echo "$rounds $spent"
done | awk 'NR == 1 { start = ($2 + $3) / 50; next } {
    seconds = ($2 + $3) / 50 - start
    rate = $1 / seconds
    printf "%d rounds in %.4f s: %.0f rounds a second\n", $1, seconds, rate
    if (NR == 2 || rate > most) most = rate
    if (NR == 2 || rate < fewest) fewest = rate
} END { if (fewest > 0) printf "highest rate over lowest: %.2f\n", most / fewest }'
