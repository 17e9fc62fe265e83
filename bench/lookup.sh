#!/usr/bin/env bash
# What a look-up costs: in a tree of 10,101 records with an index, of which one has one attribute, 100 have another and 10,000 a third, the service calls and the
# milliseconds of a processor that a look-up of each takes, beside a scan of the whole tree: of many such lines, less the time of the schedule without them.
# Calls are counted by the program of the crate call_trace (TRACE=PATH; made by `rt run -- replay </dev/null` there), times are those of the proved program.
# Usage: TRACE=PATH bench/lookup.sh
set -u
top=$(cd "$(dirname "$0")/.." && pwd)
. "$top/bench/proved.sh"
trace=${TRACE:-$top/crates/call_trace/out/call_trace}
if [ ! -x "$trace" ]; then
    echo "no program of call_trace stands at $trace: rt run -- replay </dev/null in crates/call_trace makes it, or name one by TRACE" >&2
    exit 1
fi
schedule=$(mktemp)
trap 'rm -f "$schedule"' EXIT

# The schedule: puts of 100 records a commit, both trees checkpointed behind each, and then so many times one line.
lines() {
    awk -v line="$1" -v times="$2" 'BEGIN {
        print "open 1 1\nrun 1"
        for (i = 0; i < 10101; i++) {
            printf "put 1 1 %06x - %s\n", (i * 7919) % 10101, (i == 5000 ? "61" : i % 101 == 7 ? "62" : "63")
            if (i % 100 == 99 || i == 10100) print "commit 1\nrun 1\ntree 1 1\nrun 1\ntree 1 9\nrun 1"
        }
        for (i = 0; i < times; i++) printf "%s\nrun 1\n", line
    }' >"$schedule"
}

# Milliseconds of a processor.
milliseconds() {
    local TIMEFORMAT='%3U'
    { time "$program" replay <"$schedule" >/dev/null || { echo "status $?" >&2; exit 1; }; } 2>&1 | awk '{ print 1000 * $1 }'
}

# The least of five runs.
least() { for _ in 1 2 3 4 5; do milliseconds; done | sort -n | head -1; }

lines '' 0
none=$(least)
echo "| what | records | calls | milliseconds |"
echo "|---|---|---|---|"
for what in '2000 lookup 1 1 61' '500 lookup 1 1 62' '10 lookup 1 1 63' '100 scan 1 1 - -'; do
    times=${what%% *} line=${what#* }
    lines "$line" 1
    records=$("$program" replay <"$schedule" | tail -1 | awk '{ print $3 }')
    calls=$("$trace" replay <"$schedule" | tail -100000 | awk '/ -> / { calls++; next } $2 == "begun" { calls = 0 } END { print calls }')
    lines "$line" "$times"
    some=$(least)
    awk -v line="$line" -v records="$records" -v calls="$calls" -v times="$times" -v some="$some" -v none="$none" \
        'BEGIN { printf "| `%s` | %d | %d | %.1f |\n", line, records, calls, (some - none) / times }'
done
