#!/usr/bin/env bash
# Writes examples/three-levels.schedule: a tree of three levels, by the fewest inserts that make one.
# A leaf is cut above 64 records, and the root above 64 entries. Each commit of 32 keys goes below all keys before it, so
# that its checkpoint cuts page 1 of 65 records into 33 and 32; the 64th cut gives the root 65 entries, and it is cut too.
# Usage: bench/three_levels.sh > examples/three-levels.schedule
set -u
awk 'BEGIN {
    print "open 1 1\nrun 1"
    last = 2081
    for (commit = 1; commit <= 65; commit++) {
        count = commit == 1 ? 33 : 32
        for (key = last - count + 1; key <= last; key++) printf "insert 1 1 %04x 76\n", key
        last -= count
        print "commit 1\nrun 1\ntree 1 1\nrun 1"
    }
    # Two inner nodes, which are the pages 66 and 67, and no page 68.
    print "page 1 1 66\nrun 1\npage 1 1 67\nrun 1\npage 1 1 68\nrun 1"
    # An update of the first key goes to the queue of page 1; the keys of a scan lie in two leaves.
    print "update 1 1 0001 77\ncommit 1\nrun 1\nread 1 1 0001\nrun 1\npage 1 1 1\nrun 1\nread 1 1 0001\nrun 1"
    print "read 1 1 0821\nrun 1\nread 1 1 0822\nrun 1\nscan 1 1 0020 0024\nrun 1"
    print "close 1\nrun 1\nsettle\nreport 1"
}'
