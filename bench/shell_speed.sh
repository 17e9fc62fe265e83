#!/usr/bin/env bash
# Prints how long a shell takes for commits of one insert each, over a folder on a disk and over one in memory.
# Usage: bench/shell_speed.sh [COMMITS] [DISK]     (500 and /var/tmp where none is given)
set -u
top=$(cd "$(dirname "$0")/.." && pwd)
. "$top/bench/proved.sh"
commits=${1:-500}
for place in "${2:-/var/tmp}" /dev/shm; do
    store=$(mktemp -d -p "$place")
    start=$(date +%s%N)
    awk -v n="$commits" 'BEGIN { for (i = 1; i <= n; i++) printf "insert 1 %04x %08x\ncommit\n", i % 64, i }' |
        "$program" shell 1 "$store" >"$store.out"
    status=$?
    end=$(date +%s%N)
    awk -v n="$(grep -c ' committed ' "$store.out")" -v ns=$((end - start)) -v place="$place" -v status=$status \
        'BEGIN { printf "%-10s %d commits in %.2f s (status %d)\n", place, n, ns / 1e9, status }'
    rm -rf "$store" "$store.out"
done
