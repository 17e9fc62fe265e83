#!/usr/bin/env python3
"""Prints how long 200 commits of one row each take: a shell of the proved program, and SQLite with a rollback journal and full synchronisation.

usage: beside_sqlite.py [FOLDER]     three turns in folders below FOLDER, /var/tmp where none is given
       beside_sqlite.py --help

PROGRAM in the environment names the program; else it is crates/s3db/out/s3db.
"""

import os
import shutil
import sqlite3
import subprocess
import sys
import tempfile
import time
from pathlib import Path

COMMITS, TURNS = 200, 3
PROGRAM = os.environ.get("PROGRAM") or str(Path(__file__).resolve().parent.parent / "crates/s3db/out/s3db")


def shell(folder):
    lines = "".join(f"insert 1 {i % 64:04x} {i:08x}\ncommit\n" for i in range(COMMITS))
    written = subprocess.run([PROGRAM, "shell", "1", f"{folder}/store"], input=lines, capture_output=True, text=True, check=True).stdout
    assert written.count(" committed ") == COMMITS


def sqlite(folder):
    base = sqlite3.connect(f"{folder}/base", isolation_level=None)
    base.execute("pragma journal_mode=delete")
    base.execute("pragma synchronous=full")
    base.execute("create table t (k blob primary key, v blob) without rowid")
    for i in range(COMMITS):
        base.execute("begin")
        base.execute("insert or replace into t values (?, ?)", ((i % 64).to_bytes(2, "big"), i.to_bytes(4, "big")))
        base.execute("commit")
    base.close()


def timed(work, place):
    folder = tempfile.mkdtemp(dir=place)
    begin = time.monotonic()
    work(folder)
    end = time.monotonic()
    shutil.rmtree(folder)
    return end - begin


def main(words):
    if words[:1] in (["--help"], ["-h"]):
        print(__doc__.strip())
        return 0
    if not os.access(PROGRAM, os.X_OK):
        print("nothing is timed: no proved program stands here; S3DB=prove ./s3db replay </dev/null makes it", file=sys.stderr)
        return 1
    place = words[0] if words else "/var/tmp"
    for _ in range(TURNS):
        print(f"{place}: shell {timed(shell, place):.2f} s, SQLite {sqlite3.sqlite_version} {timed(sqlite, place):.2f} s")
    return 0


if __name__ == "__main__":
    sys.exit(main(sys.argv[1:]))
