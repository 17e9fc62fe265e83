#!/usr/bin/env bash
# Tries the tools: how `tools/shell` ends and what it refuses before anything runs, and that `lines`, `hunt` and `timeline` refuse wrong words
# and what is no trace. It prints a line for each trial that failed, and how many passed, and its status is 1 where one failed.
# Usage: bench/tools.sh [PROGRAM]     (./s3db where none is given)
set -u
top=$(cd "$(dirname "$0")/.." && pwd)
program=${1:-$top/s3db}
room=$(mktemp -d)
trap 'rm -rf "$room"' EXIT
passed=0 failed=0

# Whether a command ends with a status and writes a text that matches. usage: try WHAT STATUS PATTERN COMMAND .. < INPUT
try() {
    local what=$1 wanted=$2 pattern=$3 status
    shift 3
    "$@" >"$room/said" 2>&1
    status=$?
    if [ "$status" = "$wanted" ] && grep -qE -- "$pattern" "$room/said"; then
        passed=$((passed + 1))
    else
        failed=$((failed + 1))
        echo "tools.sh: $what: status $status, wanted $wanted with $pattern:"
        sed 's/^/    /' "$room/said" | head -n 12
    fi
}

shell() { try "$1" "$2" "$3" "$top/tools/shell" --program "$program" "${@:4}"; }

inserts() { for ((n = 1; n <= $1; n++)); do printf "insert 1 'k%d' 'v'\n" "$n"; done; }

long=$(printf 'ab%.0s' {1..65})
shell "a commit that goes well" 0 "value 69742773   'it's'" --new 1 "$room/store" < <(printf "insert 1 'k' 'it''s'\ncommit\ntree 1\nread 1 'k'\n")
shell "lines stand as typed" 0 "^  read 1 'K' +none$" 1 "$room/store" < <(printf "read 1 'K'\n")
shell "long bytes by their length" 0 'value abababababababab..\(65 bytes\)$' 1 "$room/store" < <(printf 'insert 1 6b %s\ncommit\nread 1 6b\n' "$long")
shell "a trouble" 15 'status 15: a reply is a refusal or a trouble' 1 "$room/store" < <(printf 'page 1 9\n')
shell "a 201st change" 1 'line 201: .*: no room for it' 1 "$room/store" < <(inserts 250; echo commit)
shell "200 records, some twice" 0 'committed 1' 1 "$room/store" < <(inserts 200; inserts 7; echo commit)
shell "changes without a commit" 1 'lack their commit' 1 "$room/store" < <(inserts 1)
shell "a line in no form" 1 'line 1: read 1: expected read TREE KEY' 1 "$room/store" < <(printf 'read 1\n')
printf 'bogus\n' | "$program" shell 2 "$room/store" >/dev/null 2>&1
shell "a client that is held" 7 'status 7: the session did not open' 2 "$room/store" < <(printf 'renew\n')
shell "no client" 2 'no client' 65 "$room/store" < <(printf 'renew\n')
shell "no store" 2 'no store is in' 1 "$room/none" < <(printf 'renew\n')
try "no program" 70 'No such file' "$top/tools/shell" --program "$room/none" 1 "$room/store" < <(printf 'renew\n')

try "a number with a leading zero" 2 '07 is no number' "$top/tools/lines" 07 1
try "a count above the most" 2 '10001 is no number' "$top/tools/lines" 7 10001
try "rounds below 1" 2 'no number above 0' "$top/tools/hunt" --rounds -3
try "a hunt of three rounds" 0 '3 schedules from 5 on, none differs' "$top/tools/hunt" --program "$program" --rounds 3 5
example=$top/examples/half-commit
try "replies in place of a trace" 1 'replies and no calls' "$top/tools/timeline" "$example.schedule" <"$example.replies"
try "a page in place of a trace" 1 'neither a reply nor a call' "$top/tools/timeline" "$example.schedule" <"$top/README.md"
try "a line below 1" 2 "no line's number" "$top/tools/timeline" --from 0 "$example.schedule" </dev/null

echo "tools.sh: $passed passed, $failed failed"
[ "$failed" = 0 ]
