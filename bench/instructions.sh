#!/usr/bin/env bash
# Prints the instructions that the proved program takes, as callgrind counts them: of two generated schedules, of 12,000 keys in random order, of 60 scans
# beside 400 pending records, and of 3,000 settlings of an empty store. They do not move with what else the machine does.
# Usage: bench/instructions.sh
set -u
top=$(cd "$(dirname "$0")/.." && pwd)
. "$top/bench/proved.sh"
command -v valgrind >/dev/null || { echo "valgrind is not here" >&2; exit 1; }
schedule=$(mktemp)
trap 'rm -f "$schedule"' EXIT

counted() {
    local name=$1
    shift
    valgrind --tool=callgrind --callgrind-out-file=/dev/null "$program" "$@" 2>&1 >/dev/null <"$schedule" |
        awk -v name="$name" '/Collected/ { printf "%-45s %8.0f million instructions\n", name, $NF / 1e6 }'
}

counted 'gen 1 2500' gen 1 2500
counted 'gen 1 10000' gen 1 10000
python3 - >"$schedule" <<'P'
import random

random.seed(42)
keys = random.sample(range(1 << 24), 12000)
print("open 1 1\nrun 1")
for begin in range(0, 12000, 200):
    print("\n".join(f"insert 1 1 {key:06x} 76" for key in keys[begin : begin + 200]))
    print("commit 1\nrun 1\ntree 1 1\nrun 1")
P
counted '12,000 keys, a checkpoint every 200' replay
python3 - >"$schedule" <<'P'
print("open 1 1\nrun 1")
for begin in range(0, 6400, 200):
    print("\n".join(f"insert 1 1 {key:06x} 76" for key in range(begin, begin + 200)))
    print("commit 1\nrun 1")
    if begin < 6000:
        print("tree 1 1\nrun 1")
print("scan 1 1 - -\nrun 1\n" * 60, end="")
P
counted '60 scans of 6,400 keys, 400 of them pending' replay
yes settle | head -3000 >"$schedule"
counted '3,000 settlings of an empty store' replay
