#!/usr/bin/env bash
# What the four roles come to: 2,000 commits of 20 changes in 4 trees by four clients in turns, in runs of 500 over an empty cloud each, for each role with K
# of 1, 4 and 16. Behind each commit its session reads a key of each tree and works. It prints a table: checkpoints made, of these passed over, the most messages
# that one queue, and all queues together, kept behind a `work`, service calls a commit (its walk, reads and checkpoints), and the seconds of all runs.
# Calls are counted by the program of the crate call_trace (TRACE=PATH; made by `rt run -- replay </dev/null` there), times are those of the proved program.
# Usage: TRACE=PATH bench/policies.sh [COMMITS]     (500 a run where none is given; an input may have 262,144 bytes)
set -u
top=$(cd "$(dirname "$0")/.." && pwd)
. "$top/bench/proved.sh"
trace=${TRACE:-$top/crates/call_trace/out/call_trace}
if [ ! -x "$trace" ]; then
    echo "no program of call_trace stands at $trace: rt run -- replay </dev/null in crates/call_trace makes it, or name one by TRACE" >&2
    exit 1
fi
commits=${1:-500}
schedule=$(mktemp)
trap 'rm -f "$schedule"' EXIT

# The schedule of one run: 200 records in each tree, and then the commits.
lines() {
    awk -v role="$1" -v k="$2" -v seed="$3" -v commits="$commits" 'BEGIN {
        srand(seed)
        for (s = 1; s <= 4; s++) printf "open %d %d\nrun %d\n", s, s, s
        for (t = 1; t <= 4; t++) {
            for (i = 1; i <= 200; i++) printf "insert 1 %d %02x 00\n", t, i
            printf "commit 1\nrun 1\ntree 1 %d\nrun 1\n", t
        }
        for (s = 1; s <= 4; s++) printf "policy %d %s %d\n", s, role, k
        for (n = 0; n < commits; n++) {
            s = n % 4 + 1
            for (i = 0; i < 20; i++)
                printf "%s %d %d %02x %02x\n", (i % 5 ? "update" : "insert"), s, i % 4 + 1, 1 + int(200 * rand()), n % 256
            printf "commit %d\nrun %d\n", s, s
            for (t = 1; t <= 4; t++) printf "read %d %d %02x\nrun %d\n", s, t, 1 + int(200 * rand()), s
            printf "work %d\n", s
        }
    }'
}

# Adds up a trace, behind the checkpoints of the four trees: behind the reply of a line stand its calls.
counted() {
    awk '
        function look(q) {
            together = 0
            for (q in waits) { if (waits[q] > longest) longest = waits[q]; together += waits[q] }
            if (together > all) all = together
        }
        / -> / { if (commits) calls++; if ($2 == "send" && $3 ~ /^pu:/ && $5 == "sent") waits[$3]++; if ($2 == "delete" && $3 ~ /^pu:/) { split($3, it, "#"); waits[it[1]]-- } next }
        worked { look(); worked = 0 }
        $2 == "done" { ready++ }
        $2 == "committed" && ready == 4 { commits++ }
        $2 == "worked" { done += $3; passed += $4; worked = 1 }
        END { look(); print done + passed, passed, longest + 0, all + 0, calls, commits }'
}

# One run: its sums, and its nanoseconds.
run() {
    local start end
    lines "$@" >"$schedule"
    start=$(date +%s%N)
    "$program" replay <"$schedule" >/dev/null || { echo "status $? of $*" >&2; exit 1; }
    end=$(date +%s%N)
    echo "$("$trace" replay <"$schedule" | counted) $((end - start))"
}

echo "| role | K | checkpoints | passed over | longest queue | all queues | calls a commit | seconds |"
echo "|---|---|---|---|---|---|---|---|"
for role in writer reader watchdog owner; do
    for k in 1 4 16; do
        for seed in 1 2 3 4; do run "$role" "$k" "$seed"; done | awk -v role="$role" -v k="$k" '
            { made += $1; passed += $2; calls += $5; commits += $6; ns += $7; if ($3 > longest) longest = $3; if ($4 > all) all = $4 }
            END { printf "| `%s` | %d | %d | %d | %d | %d | %d | %.1f |\n", role, k, made, passed, longest, all, calls / commits, ns / 1e9 }'
    done
done
