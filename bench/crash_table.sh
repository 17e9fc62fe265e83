#!/usr/bin/env bash
# Cuts five operations off at each of their calls, in four ways each: 228 schedules, whose reports bench/crash_table.py
# holds against bench/model.py. Prints a line for each operation and one for all. It wants the proved program.
# Usage: bench/crash_table.sh [OPERATION..]     (page, cut, recovery, commit, root: all five where none is given)
set -u
top=$(cd "$(dirname "$0")/.." && pwd)
program=${S3DB_PROGRAM:-$top/crates/s3db/out/s3db}
if [ ! -x "$program" ]; then
    echo "no program stands at $program: S3DB=prove ./s3db replay </dev/null builds it" >&2
    exit 70
fi
exec python3 "$top/bench/crash_table.py" "$program" "$@"
