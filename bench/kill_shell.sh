#!/usr/bin/env bash
# Kills the shells of three clients at a random moment, again and again. Each shell makes two transactions of three changes, so one
# that is torn would show. Behind each kill it ends the dead leases, opens the clients again, settles the store and reads it back:
# what was answered `committed` is there, what was not is there whole or not at all, and no record goes back to an earlier payload.
# Prints how the transactions were cut.
# Usage: bench/kill_shell.sh [ROUNDS]     (200 where none is given; S3DB_PROGRAM names another program than ./s3db)
set -u
program=${S3DB_PROGRAM:-$(cd "$(dirname "$0")/.." && pwd)/s3db}
rounds=${1:-200}
store=$(mktemp -d)
work=$(mktemp -d)
trap 'rm -rf "$store" "$work"' EXIT
clients=(1 2 3)
declare -A known

shell() { "$program" shell "$1" "$store"; }
fail() { echo "round $i: $*"; exit 1; }

# A lease is over where its lock's file has 0 as its end, the last eight of its sixteen bytes.
end_leases() {
    local lock
    for lock in "$store"/locks/*; do
        [ -s "$lock" ] && dd if=/dev/zero of="$lock" bs=8 seek=1 count=1 conv=notrunc status=none
    done
}

# Two transactions of a client, each of which gives its three records one payload. The middle one is in another tree.
lines() {
    local payload
    for payload in "$(printf %08x $((2 * $2)))" "$(printf %08x $((2 * $2 + 1)))"; do
        printf 'insert 1 0%s00 %s\ninsert 2 0%s01 %s\ninsert 1 0%s02 %s\ncommit\n' "$1" "$payload" "$1" "$payload" "$1" "$payload"
    done
}

# The one payload of a client's three records.
payload() {
    local found
    found=$(printf 'read 1 0%s00\nread 2 0%s01\nread 1 0%s02\n' "$1" "$1" "$1" | shell "$1" | sed -n 's/^[123] \(value\|absent\)/\1/p' | sort -u)
    [ "$(wc -l <<<"$found")" = 1 ] || fail "the records of client $1 are torn: $found"
    sed -n 's/^value //p' <<<"$found"
}

# Holds what is there of a client against what its shell was answered.
judge() {
    local found told first second
    found=$(payload "$1") || { echo "$found"; exit 1; }
    told=$(grep -c ' committed ' "$work/$1")
    first=$(printf %08x $((2 * i))) second=$(printf %08x $((2 * i + 1)))
    case "$told $found" in
        "2 $second") told_all=$((told_all + 1)) ;;
        "1 $first" | "0 ${known[$1]:-}") cut=$((cut + 1)) ;;
        "1 $second" | "0 $first") kept=$((kept + 1)) ;;
        *) fail "client $1 has '$found' where $told transactions were answered" ;;
    esac
    known[$1]=$found
}

i=0
for client in "${clients[@]}"; do
    lines "$client" 0 | shell "$client" >"$work/$client" || fail "$(cat "$work/$client")"
    known[$client]=00000001
done
start=$(date +%s%N)
lines 1 0 | shell 1 >/dev/null
span=$((($(date +%s%N) - start) * 30 / 10000))

told_all=0 cut=0 kept=0
for ((i = 1; i <= rounds; i++)); do
    pids=()
    for client in "${clients[@]}"; do
        lines "$client" "$i" | "$program" shell "$client" "$store" >"$work/$client" &
        pids+=($!)
    done
    sleep "$(awk -v r=$RANDOM -v span="$span" 'BEGIN { printf "%.6f", r / 32768 * span / 1e6 }')"
    kill -9 "${pids[@]}" 2>/dev/null
    wait "${pids[@]}" 2>/dev/null
    end_leases
    for client in "${clients[@]}"; do
        shell "$client" </dev/null >/dev/null || fail "client $client does not open again"
    done
    "$program" settle "$store" >"$work/settled" || fail "the store does not settle: $(cat "$work/settled")"
    for client in "${clients[@]}"; do
        judge "$client"
    done
done
echo "$rounds rounds of three shells: $told_all answered both transactions, $cut were cut between what was answered and the next, $kept had one more committed; none torn, lost or set back"
