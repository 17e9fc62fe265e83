#!/usr/bin/env python3
"""Refuses the program's memory, one request at a time, and looks at what it answers and at the store behind it.

usage: refused.py [--on] [--from FIRST] [--to LAST] [--every STEP] PROGRAM [WORD.. < INPUT]

Runs PROGRAM with the words once for each malloc or realloc that a whole run makes (or from FIRST to LAST in steps of STEP), with that one refused;
with --on that one and all behind it. The folder of a shell, a settling, a dump or a load is copied for each run, and left as it is; where none is
there each run begins without. With no words it tries four commands, each both ways: a shell of three commits and a load of 400 records, to a
folder that is not there, and a settling and a dump.

A run must end as the one that is refused nothing, by status, output and store; or with status 9, and then its output is a first part of that
output, and the store, settled once the leases of the dead are ended, has all that was answered `committed`, and at most the next commit whole;
behind a load it has a first part of the records, in whole transactions, and behind a settling or a dump what it had. Prints how many ended how, and
each run that did neither; the exit status is 0 where there is none. Needs cc. Nothing of this is proved, and the gate does not run it.
The stores stand under /dev/shm, where a flush costs nothing: TMPDIR names another place."""

import argparse
import os
import re
import shutil
import subprocess
import sys
import tempfile
from pathlib import Path

# What stands before the C library: it counts requests, refuses those that it is told to, and tells the count at the end.
LIBRARY = r"""
#include <errno.h>
#include <stdio.h>
#include <stdlib.h>
extern void *__libc_malloc(size_t);
extern void *__libc_realloc(void *, size_t);
static long made, first = -1, last = -1;
static int is_refused(void) {
    if (first < 0) {
        const char *from = getenv("REFUSED_FIRST"), *to = getenv("REFUSED_LAST");
        first = from ? atol(from) : 0, last = to ? atol(to) : 0;
    }
    made++;
    return first <= made && made <= last && (errno = ENOMEM);
}
void *malloc(size_t size) { return is_refused() ? NULL : __libc_malloc(size); }
void *realloc(void *old, size_t size) { return is_refused() ? NULL : __libc_realloc(old, size); }
__attribute__((destructor)) static void tell(void) {
    const char *path = getenv("REFUSED_COUNT");
    first = last = 0;
    FILE *file = path ? fopen(path, "w") : NULL;
    if (file) fprintf(file, "%ld", made), fclose(file);
}
"""

WANT_OF_MEMORY, NO_STORE, PART = 9, 8, 200
OVER_A_FOLDER = ("shell", "settle", "dump", "load")
LINES = b"""insert 1 6b31 7631
insert 2 6b31 7632 61
commit
update 1 6b31 7633
add 2 6b32 1
commit
tree 1
page 1 1
insert 1 6b33 7634
commit
read 1 6b31
scan 1 - -
"""


def records_of(text):
    """Returns the records that the text of a dump spells, each with its tree."""
    records, tree = [], None
    for line in text.decode().splitlines():
        if line.startswith("tree "):
            tree = line.split()[1]
        else:
            records.append((tree, line))
    return records


def text_of(count):
    """Returns the text of a dump of so many records, in two trees."""
    first = count // 3
    text = [f"tree 1 {first}", *(f"{key:08x} {key:04x}" for key in range(first))]
    return "\n".join([*text, f"tree 2 {count - first}", *(f"{key:08x} {key:04x} 61" for key in range(count - first)), ""]).encode()


class Command:
    """A command of the program, its input, and the folder that it is over, where it is over one."""

    def __init__(self, program, library, room, words, text):
        self.program, self.library, self.room, self.words, self.text = program, library, room, words, text
        self.folder = words[-1] if words[0] in OVER_A_FOLDER else None

    def run(self, words, text=b"", refused=None):
        """Returns the status and the output, and how many requests were made where none is refused."""
        first, last = refused or (0, 0)
        told = {"LD_PRELOAD": self.library, "REFUSED_FIRST": str(first), "REFUSED_LAST": str(last)}
        if refused is None:
            told["REFUSED_COUNT"] = f"{self.room}/count"
        ended = subprocess.run(
            [self.program, *words], input=text, env={**os.environ, **told}, stdout=subprocess.PIPE, stderr=subprocess.DEVNULL, timeout=600, check=False
        )
        made = 0 if refused else int(Path(self.room, "count").read_text(encoding="utf-8"))
        return ended.returncode, ended.stdout, made

    def over_a_copy(self, text, refused=None):
        """Runs the command over a copy of its folder, and returns that too."""
        if self.folder is None:
            return (*self.run(self.words, text, refused), None)
        store = f"{self.room}/store"
        shutil.rmtree(store, ignore_errors=True)
        if os.path.isdir(self.folder):
            shutil.copytree(self.folder, store)
        return (*self.run([*self.words[:-1], store], text, refused), store)

    def records_in(self, store):
        """Returns the records of a store, once the leases of the dead are ended and it is settled."""
        for lock in Path(store, "locks").glob("*"):
            lock.unlink()
        status, told, _ = self.run(["settle", store])
        if status == NO_STORE:
            return []
        if status:
            return f"settle ended with {status}: {told.decode()}"
        status, text, _ = self.run(["dump", store])
        return f"dump ended with {status}" if status else records_of(text)

    def states(self):
        """Returns what the store may have: behind each commit of a shell and each part of a load, and else as it was."""
        if self.words[0] == "shell":
            lines = self.text.splitlines(keepends=True)
            ends = [0, *(at + 1 for at, line in enumerate(lines) if line == b"commit\n")]
            return [self.records_in(self.over_a_copy(b"".join(lines[:end]))[3]) for end in ends]
        if self.words[0] == "load":
            records = records_of(self.text)
            return [records[:end] for end in range(0, len(records) + PART, PART)]
        return [self.records_in(self.over_a_copy(self.text)[3])]


def seen(store):
    """Returns each object and message of a store, and nothing of its locks, which have the time in them."""
    if store is None:
        return None
    files = [path for part in ("objects", "queues") for path in Path(store, part).rglob("*")]
    return {str(path): path.is_file() and path.read_bytes() for path in files}


def is_kept(command, states, output, store):
    """Whether a store has what was answered, behind a run that ended for want of memory."""
    if store is None:
        return True
    has = command.records_in(store)
    if command.words[0] == "shell":
        answered = len(re.findall(rb"^\d+ committed \d+$", output, re.MULTILINE))
        return has in states[answered : answered + 2]
    return has in states


def refuse_each(command, goes_on, asked):
    """Refuses each request that is asked for, tells how the runs ended, and returns whether each ended as it must."""
    status, output, made, store = command.over_a_copy(command.text)
    whole = status, output, seen(store)
    states = command.states() if store else []
    same = without = bad = 0
    for number in range(asked.first, min(asked.last or made, made) + 1, asked.every):
        ended, wrote, _, store = command.over_a_copy(command.text, (number, made * 2 if goes_on else number))
        if (ended, wrote, seen(store)) == whole:
            same += 1
        elif ended == WANT_OF_MEMORY and output.startswith(wrote) and is_kept(command, states, wrote, store):
            without += 1
        else:
            bad += 1
            begins = "begin" if output.startswith(wrote) else "do not begin"
            print(f"request {number}: status {ended}, {len(wrote)} of {len(output)} bytes, which {begins} the output; {wrote[-60:]!r}")
    words = [*command.words[:-1], "DIR"] if command.folder else command.words
    print(
        f"{' '.join(words)}{', from each on' if goes_on else ''}: status {status}, {made} requests a run; refused {same + without + bad}: "
        f"{without} ended for want of memory, {same} as if nothing was refused, {bad} otherwise",
        flush=True,
    )
    return not bad


def four(program, library, room):
    """Returns a shell, a settling, a dump and a load, and makes the stores that they are over."""
    make = lambda words, text=b"": Command(program, library, room, words, text)
    waiting, settled, absent = (f"{room}/{name}" for name in ("waiting", "settled", "absent"))
    for store in (waiting, settled):
        make(["shell"]).run(["shell", "1", store], LINES)
    make(["settle"]).run(["settle", settled])
    return [make(["shell", "1", absent], LINES), make(["settle", waiting]), make(["dump", settled]), make(["load", absent], text_of(400))]


def asked_of(words):
    """Reads the words of the command line."""
    parser = argparse.ArgumentParser(usage=__doc__.split("usage: ")[1], add_help=False)
    parser.add_argument("--on", action="store_true")
    parser.add_argument("--from", dest="first", type=int, default=1)
    parser.add_argument("--to", dest="last", type=int, default=0)
    parser.add_argument("--every", type=int, default=1)
    parser.add_argument("program")
    parser.add_argument("words", nargs=argparse.REMAINDER)
    return parser.parse_args(words)


def main(words):
    asked = asked_of(words)
    program = os.path.abspath(asked.program)
    with tempfile.TemporaryDirectory(dir=os.environ.get("TMPDIR", "/dev/shm")) as room:
        source, library = f"{room}/refused.c", f"{room}/refused.so"
        Path(source).write_text(LIBRARY, encoding="utf-8")
        subprocess.run(["cc", "-shared", "-fPIC", "-O1", "-o", library, source], check=True)
        if asked.words:
            text = b"" if sys.stdin.isatty() else sys.stdin.buffer.read()
            return 0 if refuse_each(Command(program, library, room, asked.words, text), asked.on, asked) else 1
        ways = [True] if asked.on else [False, True]
        return 0 if all([refuse_each(command, way, asked) for command in four(program, library, room) for way in ways]) else 1


if __name__ == "__main__":
    sys.exit(main(sys.argv[1:]))
