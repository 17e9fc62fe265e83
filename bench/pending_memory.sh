#!/usr/bin/env bash
# Prints the greatest memory and the user time of commits of one insert each that no checkpoint follows, so that the client's head names all of them.
# Usage: bench/pending_memory.sh [COUNT]   (6,000 where none is given)
set -u
top=$(cd "$(dirname "$0")/.." && pwd)
. "$top/bench/proved.sh"
python3 - "$program" "${1:-6000}" <<'P'
import os, subprocess, sys

program, count = sys.argv[1], int(sys.argv[2])
lines = "open 1 1\nrun 1\n" + "".join(f"insert 1 1 {key:06x} 76\ncommit 1\nrun 1\n" for key in range(count))
child = subprocess.Popen([program, "replay"], stdin=subprocess.PIPE, stdout=subprocess.DEVNULL)
child.stdin.write(lines.encode())
child.stdin.close()
_, status, used = os.wait4(child.pid, 0)
if status:
    sys.exit(f"the replay ended with status {os.waitstatus_to_exitcode(status)}")
print(f"{count} commits and no checkpoint: {used.ru_maxrss / 1024:.0f} MB, {used.ru_utime:.1f} s")
P
