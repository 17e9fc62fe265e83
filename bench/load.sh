#!/usr/bin/env bash
# Times the load of a text and the dump of what was loaded, over a cloud in memory in one run: 1,864,132 records of 3-byte keys (16 MiB of text), 204,599 of keys
# of 8 and payloads of 32 bytes, and 200,000 of these. It prints seconds of a processor, and the most memory, of which the text stands there four times.
# Asked: 20 s and 1.5 GB for the first, both ways; 2.5 s for the second; 1 s for the dump of the third.
# It makes a program beside copies of the crates, with the libraries that stand in their out/, in a folder of its own under /tmp, proves and builds it, and
# runs it. With TRY=1 it is run by `rt try`: not proved, and compiled with checks, so that it takes many times as long.
# usage: bench/load.sh, or TRY=1 bench/load.sh [RECORDS]     (then of so many records of each kind: 2,000 where none is given)
set -euo pipefail
top=$(cd "$(dirname "$0")/.." && pwd)
work=$(mktemp -d -t load_bench.XXXXXX)
trap 'rm -rf "$work"' EXIT
for crate in "$top"/crates/*/; do
    it=$work/crates/$(basename "$crate")
    mkdir -p "$it/out"
    for part in src specs proofs; do
        if [ -d "$crate$part" ]; then cp -r "$crate$part" "$it/"; fi
    done
    # The libraries that stand there, without a copy of their bytes where that can be.
    if [ -d "${crate}out/rlib" ]; then cp -rl "${crate}out/rlib" "$it/out/" 2>/dev/null || cp -r "${crate}out/rlib" "$it/out/"; fi
done
mkdir -p "$work/crates/load_times/src"
{ cat "$top/crates.txt"; echo 'load_times: db_base db_io memory_cloud schedule_run'; } > "$work/crates.txt"
cd "$work/crates/load_times"
cat > src/main.rt <<'RT'
#![tactic(auto)]

use db_base::blob::Blob;
use db_io::memory_sink::MemorySink;
use db_io::memory_source::MemorySource;
use db_io::std_source::StdSource;
use db_io::input::{MAX_DUMP, read_whole};
use memory_cloud::memory::MemoryCloud;
use schedule_run::run::run;
use schedule_run::status::Status;
use std::alloc::Global;
use std::io;
use std::time::{CpuClock, Duration};

/// The words of a command over a store.
fn words_of(alloc: Global, word: &str) -> Option<Vec<String>> {
    let mut words = Vec::new(alloc);
    words.push(String::from_str(alloc, word).ok()?).ok()?;
    words.push(String::from_str(alloc, "store").ok()?).ok()?;
    Some(words)
}

/// How a command over the cloud ends.
fn ended(alloc: Global, word: &str, text: &[u8], sink: &mut MemorySink, cloud: &mut MemoryCloud) -> Status {
    let Some(words) = words_of(alloc, word) else {
        return Status::Memory;
    };
    match MemorySource::new(alloc, text, &[]) {
        Ok(mut source) => run(alloc, words.as_slice(), &mut source, sink, cloud),
        Err(_) => Status::Memory,
    }
}

/// Tells how a command ended, and what it took.
fn tell(rt: &HostRuntime, word: &str, status: Status, time: Duration) -> io::Result<()> {
    let code = status.code();
    let milliseconds = time.as_millis();
    println!(rt; "{word} {code} {milliseconds}")
}

/// Loads the text and dumps it again.
fn times(rt: &HostRuntime, text: &Blob, told: &mut MemorySink, dumped: &mut MemorySink) -> io::Result<()> {
    let mut cloud = MemoryCloud::new(rt.alloc());
    let before = rt.thread_cpu_time()?;
    let status = ended(rt.alloc(), "load", text.as_slice(), told, &mut cloud);
    let between = rt.thread_cpu_time()?;
    tell(rt, "load", status, between.saturating_sub(before))?;
    let status = ended(rt.alloc(), "dump", b"", dumped, &mut cloud);
    let after = rt.thread_cpu_time()?;
    tell(rt, "dump", status, after.saturating_sub(between))?;
    let same = dumped.written() == text.as_slice();
    println!(rt; "same {same}")
}

fn main(rt: HostRuntime) -> io::Result<()> {
    let mut source = StdSource::new(rt.reader());
    let Ok(text) = read_whole(rt.alloc(), &mut source, MAX_DUMP) else {
        return println!(rt; "no text");
    };
    let (Ok(mut told), Ok(mut dumped)) = (MemorySink::new(rt.alloc(), &[]), MemorySink::new(rt.alloc(), &[])) else {
        return println!(rt; "no memory");
    };
    times(&rt, &text, &mut told, &mut dumped)
}
RT
most=0
if [ -n "${TRY:-}" ]; then
    program=(rt try --seconds 900)
    most=${1:-2000}
    echo "not proved, with the checks of rt try, $most records:"
else
    ${MAKE:-rt run} < /dev/null > made.log 2>&1 || [ -x ./out/load_times ] || { tail -20 made.log; exit 1; }
    program=(./out/load_times)
fi
python3 - "$most" "${program[@]}" <<'P'
import os, subprocess, sys, tempfile

def text_of(count, line):
    return (f"tree 1 {count}\n" + "".join(line(n) for n in range(count))).encode()

def short(n):
    return f"{n:06x} -\n"

def long(n):
    return f"{n:016x} {n:064x}\n"

most = int(sys.argv[1])
for count, line, name in ((1864132, short, "keys of 3 bytes, no payload"), (204599, long, "keys of 8, payloads of 32 bytes"), (200000, long, "keys of 8, payloads of 32 bytes")):
    count = min(count, most) if most else count
    with tempfile.TemporaryFile(dir=".") as text, tempfile.TemporaryFile(dir=".") as said:
        text.write(text_of(count, line))
        text.seek(0)
        child = subprocess.Popen(sys.argv[2:], stdin=text, stdout=said, stderr=subprocess.STDOUT)
        _, status, used = os.wait4(child.pid, 0)
        said.seek(0)
        out = said.read().decode()
    lines = dict((words[0], words[1:]) for words in map(str.split, out.splitlines()) if words and words[0] in ("load", "dump", "same"))
    if len(lines) < 3 or lines["same"] != ["true"] or lines["load"][0] != "0" or lines["dump"][0] != "0":
        sys.exit(f"{count} records, {name}: status {status}\n{out}")
    load, dump = (int(lines[word][1]) / 1000 for word in ("load", "dump"))
    print(f"{count} records, {name}: loaded in {load:.2f} s, dumped in {dump:.2f} s, the same text; {used.ru_maxrss / 1024:.0f} MB", flush=True)
P
