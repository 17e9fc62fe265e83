#!/usr/bin/env bash
# Tries a program s3db, proved or not: the shipped schedules against their replies, words and texts that it refuses, and over stores in a folder
# of its own shells, a settling, a dump and a load. Each has a line, and the last line is `N passed, N failed`; the status is 1 where any failed.
# Usage: bench/works.sh PROGRAM     (./s3db test names the one that stands)
set -u
if [ $# != 1 ] || [ ! -x "$1" ]; then
    echo "usage: bench/works.sh PROGRAM" >&2
    exit 2
fi
program=$(readlink -f "$1")
examples=$(cd "$(dirname "$0")/../crates/example_runs/data" && pwd) || exit 70
if ! room=$(mktemp -d -t s3db-test.XXXXXX) || ! cd "$room"; then
    echo "works.sh: no folder can be made for the stores." >&2
    exit 70
fi
trap 'rm -rf "$room"' EXIT
trap 'exit 129' HUP
trap 'exit 130' INT
trap 'exit 143' TERM
passed=0 failed=0

# Runs the program over standard input, and holds its status and what it wrote against what they must be: a file, or a pattern of bash.
# usage: holds WHAT STATUS file NAME WORDS..    or: holds WHAT STATUS text PATTERN WORDS..
holds() {
    local what=$1 status=$2 how=$3 wanted=$4 got
    shift 4
    "$program" "$@" >got 2>err
    got=$?
    if [ "$got" = "$status" ] && is_as "$how" "$wanted"; then
        passed=$((passed + 1))
        echo "passed: $what"
    else
        failed=$((failed + 1))
        echo "FAILED: $what: status $got, wanted $status, and wrote"
        head -n 6 got err | sed 's/^/    /'
    fi
}

is_as() {
    if [ "$1" = file ]; then cmp -s got "$2"; else [[ $(cat got) == $2 ]]; fi
}

schedules() {
    local schedule
    for schedule in "$examples"/*.schedule; do
        holds "replay of ${schedule##*/}" 0 file "${schedule%.schedule}.replies" replay <"$schedule"
    done
    holds 'gen 7 1000' 0 file "$examples/gen-7-1000.summary" gen 7 1000 </dev/null
}

refusals() {
    holds 'a line in no form' 1 text 'bad line 1' replay <<<'open one'
    holds 'words in no form' 2 text '' gen 07 1 </dev/null
    holds 'a load of what is no dump' 1 text 'bad line 1' load no-store <<<'tree 0 1'
    holds 'a folder without a name' 8 text '' settle '' </dev/null
    holds 'a settling of a folder that is not there' 8 text '' settle no-store </dev/null
    holds 'a dump of a folder that is not there' 8 text '' dump no-store </dev/null
}

# A commit of one client, one of another, and what each sees of it.
shells() {
    holds 'a shell in a new folder' 0 text $'0 opened 1\n1 noted\n2 committed 1\n3 done 1 1 0\n4 value 76\n5 closed' \
        shell 1 first <<<$'insert 1 6b 76\ncommit\ntree 1\nread 1 6b'
    holds 'a shell of another client' 0 text $'0 opened 1\n1 noted\n2 committed 1\n3 closed' shell 2 first <<<$'update 1 6b 77\ncommit'
    holds 'a dump of a store that is not quiet' 11 text 'not-quiet pu:1:1' dump first </dev/null
    holds 'the first client sees it' 0 text $'0 opened 2\n1 done 1 1 0\n2 value 77\n3 closed' shell 1 first <<<$'page 1 1\nread 1 6b'
}

stores() {
    holds 'a settling' 0 text '1 settled *' settle first </dev/null
    holds 'a dump' 0 text $'tree 1 1\n6b 77' dump first </dev/null
    holds 'a load of it' 0 text $'loaded 1\nsettled *' load second <<<$'tree 1 1\n6b 77'
    holds 'a dump of what was loaded' 0 text $'tree 1 1\n6b 77' dump second </dev/null
    holds 'a load into a store that is not empty' 12 text 'not-empty head:1' load second </dev/null
    holds 'a load of 450 records' 0 text $'loaded 450\nsettled *' load third <"$examples/two-trees.dump"
    holds 'its dump is the text that was loaded' 0 file "$examples/two-trees.dump" dump third </dev/null
}

schedules
refusals
shells
stores
echo "$passed passed, $failed failed"
[ "$failed" = 0 ]
