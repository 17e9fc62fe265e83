#!/usr/bin/env bash
# Prints the user time and the greatest memory of generated schedules of 2,500, 5,000 and 10,000 rounds, beside each other, and, where callgrind is
# there, the instructions. The time is the least of RUNS runs, 9 where that is not set, since a processor that is shared with others takes up to twice
# as long; behind it the middle one.
# Usage: bench/generated.sh [COUNT..]
set -u
top=$(cd "$(dirname "$0")/.." && pwd)
. "$top/bench/proved.sh"
[ $# = 0 ] && set -- 2500 5000 10000
for count in "$@"; do
    python3 - "$program" "$count" "${RUNS:-9}" <<'P'
import os, shutil, subprocess, sys

program, count, runs = sys.argv[1:]
times, memory, text = [], 0, ""
for _ in range(int(runs)):
    child = subprocess.Popen([program, "gen", "1", count], stdout=subprocess.PIPE)
    text = child.stdout.read().decode()
    _, status, used = os.wait4(child.pid, 0)
    if status:
        sys.exit(f"gen 1 {count} ended with status {os.waitstatus_to_exitcode(status)}")
    times.append(used.ru_utime)
    memory = max(memory, used.ru_maxrss)
times.sort()
least, middle = times[0], times[len(times) // 2]
print(f"gen 1 {count}: {least:.2f} s ({middle:.2f}), {least * 1e6 / max(int(count), 1):.1f} us a round, {memory / 1024:.0f} MB; {', '.join(text.split(chr(10))).rstrip(', ')}")
if shutil.which("valgrind"):
    words = ["valgrind", "--tool=callgrind", "--callgrind-out-file=/dev/null", program, "gen", "1", count]
    said = subprocess.run(words, stdout=subprocess.DEVNULL, stderr=subprocess.PIPE, text=True).stderr
    for line in said.splitlines():
        if "Collected" in line:
            taken = int(line.split()[-1])
            print(f"gen 1 {count}: {taken / 1e6:.0f} million instructions, {taken / max(int(count), 1) / 1e3:.1f} thousand a round")
P
done
