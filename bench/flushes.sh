#!/usr/bin/env bash
# Counts the flushes of a commit of one insert and of a settling of a settled store, and fails where they are more than 8 and 99. It wants strace.
# Usage: bench/flushes.sh     (S3DB_PROGRAM names another program than ./s3db)
set -u
program=${S3DB_PROGRAM:-$(cd "$(dirname "$0")/.." && pwd)/s3db}
store=$(mktemp -d)
trap 'rm -rf "$store" "$store.count"' EXIT

# The flushes of a run of the program.
flushes() {
    strace -f -c -e trace=fsync,fdatasync,sync,syncfs,sync_file_range -o "$store.count" "$program" "$@" >/dev/null
    awk '$NF == "total" { count = $4 } END { print count + 0 }' "$store.count"
}

commits() {
    for ((n = 0; n < $1; n++)); do printf 'insert 1 %04x 76\ncommit\n' "$n"; done
}

commits 1 | flushes shell 1 "$store" >/dev/null
few=$(commits 10 | flushes shell 1 "$store")
many=$(commits 30 | flushes shell 1 "$store")
commit=$(((many - few) / 20))
"$program" settle "$store" >/dev/null
settling=$(flushes settle "$store")
echo "flushes of a commit of one insert: $commit; of a settling of a settled store: $settling"
[ "$commit" -le 8 ] && [ "$settling" -lt 100 ]
