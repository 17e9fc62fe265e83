#!/usr/bin/env bash
# Runs two shells of two clients over one folder at once, and counts what is there when both are done.
# Usage: bench/two_shells.sh [COMMITS]     (200 each where none is given)
set -u
top=$(cd "$(dirname "$0")/.." && pwd)
commits=${1:-200}
store=$(mktemp -d)
trap 'rm -rf "$store"' EXIT
lines() {
    awk -v client="$1" -v n="$commits" 'BEGIN {
        for (i = 1; i <= n; i++) {
            printf "insert 1 %02x%04x %08x\ncommit\n", client, i, i
            if (i % 16 == 0) print "tree 1"
        }
    }'
}
lines 1 | "$top/s3db" shell 1 "$store" >"$store.1" &
lines 2 | "$top/s3db" shell 2 "$store" >"$store.2" &
wait
for client in 1 2; do
    grep -c ' committed ' "$store.$client" | sed "s/^/client $client: commits answered: /"
    rm -f "$store.$client"
done
"$top/s3db" settle "$store" || exit 1
found=$(printf 'scan 1 - -\n' | "$top/s3db" shell 1 "$store" | sed -n 's/^1 scan \([0-9]*\).*/\1/p')
echo "records: $found of $((2 * commits))"
[ "$found" = $((2 * commits)) ]
