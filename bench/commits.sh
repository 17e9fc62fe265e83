#!/usr/bin/env bash
# Makes schedules of commits of one insert each, with a tree checkpoint after every 16, and prints commits per second: of so many commits, and of
# four times as many. A checkpoint lets the next commit prune its head, so that a commit costs the same however many went before it.
# Usage: bench/commits.sh [COMMITS]     (500 where none is given; an input may have 262,144 bytes, about 2,800 commits)
set -u
top=$(cd "$(dirname "$0")/.." && pwd)
. "$top/bench/proved.sh"
commits=${1:-500}
schedule=$(mktemp)
trap 'rm -f "$schedule"' EXIT

timed() {
    awk -v n="$1" 'BEGIN {
        print "open 1 1"; print "run 1"
        for (i = 1; i <= n; i++) {
            printf "insert 1 1 %08x %016x\ncommit 1\nrun 1\n", i % 64, i
            if (i % 16 == 0) print "tree 1 1\nrun 1"
        }
    }' >"$schedule"
    local start end status
    start=$(date +%s%N)
    "$program" replay <"$schedule" >/dev/null
    status=$?
    end=$(date +%s%N)
    awk -v n="$1" -v ns=$((end - start)) -v status=$status 'BEGIN { printf "%d commits in %.3f s: %.0f a second (status %d)\n", n, ns / 1e9, n / (ns / 1e9), status }'
}

timed "$commits"
timed $((4 * commits))
