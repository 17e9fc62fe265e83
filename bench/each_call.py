#!/usr/bin/env python3
"""Kills a shell or a settling at each system call that changes a file, and fails each call that touches one, over a store in a folder.

Three operations: a commit of three changes, a tree checkpoint that cuts its leaf, and a settling of a store with an open commit
and waiting messages. A case is one call, and a hit: the process is killed before the call, or the call fails with EIO or ENOSPC.
Behind each case the dead leases are ended, all clients are opened again, the store is settled and each tree is scanned: what was
answered `committed` is there, what was answered `not-committed` is not, and all else is there whole or not at all.

Then a pipe is put in the place of each file and each folder in turn: a shell and a settling end by themselves. A link to nothing is put in
the place of each: nothing is made where it leads. And `in-use` is given marks of every kind, as a kill or a power failure leaves them: a
mark that names a part of the store is flushed, any other is dropped, and the store is used as ever.

It wants strace. Usage: bench/each_call.py PROGRAM [NAME..]     (commit, cut, settle, pipe, link, mark: all six where none is given)
The stores stand under /dev/shm, where a flush costs nothing: TMPDIR names another place.
"""

import os
import re
import shutil
import subprocess
import sys
import tempfile
from concurrent.futures import ThreadPoolExecutor
from pathlib import Path

CHANGES = {"openat", "mkdir", "write", "pwrite64", "ftruncate", "fsync", "fdatasync", "rename", "unlink"}
TOUCHES = CHANGES | {"flock", "statx", "read", "pread64", "getdents64", "lseek"}
ERRORS = {"write": "ENOSPC", "pwrite64": "ENOSPC", "mkdir": "ENOSPC"}


def inserts(tree, keys):
    return [f"insert {tree} {key:04x} {key:04x}" for key in keys]


FULL = [*inserts(1, range(64)), "commit", "tree 1"]
THREE = ["update 1 0001 aa", "insert 1 0100 bb", "insert 2 0101 cc"]

# what is done before, by clients; the client and lines that are hit (no client: a settling)
OPERATIONS = {
    "commit": ([(1, FULL)], 1, [*THREE, "commit"]),
    "cut": ([(1, [*FULL, *inserts(1, range(64, 96)), "commit"])], 1, ["tree 1"]),
    "settle": ([(1, [*FULL, *inserts(1, range(64, 70)), "commit"]), (2, [*THREE, "commit"])], None, []),
}


class Store:
    """A store, and what is asked of it by the program."""

    def __init__(self, program, folder):
        self.program, self.folder = program, folder

    def words(self, client):
        return ["settle", str(self.folder)] if client is None else ["shell", str(client), str(self.folder)]

    def run(self, client, lines=(), before=()):
        text = "".join(line + "\n" for line in lines)
        done = subprocess.run([*before, self.program, *self.words(client)], input=text, capture_output=True, text=True, timeout=120)
        return done.returncode, done.stdout

    def end_leases(self):
        for lock in (self.folder / "locks").glob("*"):
            if lock.stat().st_size == 16:
                with open(lock, "r+b") as file:
                    file.seek(8)
                    file.write(bytes(8))

    def scans(self):
        _, replies = self.run(1, ["scan 1 - -", "scan 2 - -"])
        return tuple(re.findall(r"^[12] (scan .*)$", replies, re.M))


def calls_of(store, client, lines, work):
    """The calls of the process that touch the folder: their names, each with its number among those of its name."""
    log = work / "calls"
    store.run(client, lines, ["strace", "-o", str(log), "-e", "trace=" + ",".join(sorted(TOUCHES))])
    counts, calls, begun = {}, [], False
    for line in log.read_text().splitlines():
        name = line.split("(", 1)[0]
        counts[name] = counts.get(name, 0) + 1
        begun = begun or str(store.folder) in line
        if begun and name in TOUCHES:
            calls.append((name, counts[name]))
    return calls


def settles(store):
    """What the store holds once every client was opened again and it is settled, or why it is not."""
    store.end_leases()
    for client in (1, 2):
        status, replies = store.run(client)
        if status:
            return f"client {client} does not open: {replies}"
    status, replies = store.run(None)
    return store.scans() if status == 0 else f"not settled: {replies}"


def judge(replies, found, old, new):
    """Why what was found is wrong, or None."""
    if found not in (old, new):
        return f"found {found}"
    told = re.search(r"^[0-9]+ (committed|committed-open|not-committed) ", replies, re.M)
    if told and found != (old if told[1] == "not-committed" else new):
        return f"answered {told[1]}, and found {found}"
    return None


def hit(program, template, operation, case, ends):
    (name, number), how = case
    _, client, lines = operation
    with tempfile.TemporaryDirectory(dir=template.parent) as work:
        store = Store(program, Path(work) / "store")
        shutil.copytree(template, store.folder)
        inject = f"inject={name}:{how}:when={number}"
        _, replies = store.run(client, lines, ["strace", "-o", "/dev/null", "-e", "trace=" + name, "-e", inject])
        found = settles(store)
        return found, judge(replies, found, *ends)


def ends_of(program, template, operation, work):
    """What the settled store holds where the operation was not begun, and where it was done."""
    _, client, lines = operation
    ends = []
    for name, asked in (("old", None), ("new", lines)):
        store = Store(program, work / name)
        shutil.copytree(template, store.folder)
        if asked:
            store.run(client, asked)
        ends.append(settles(store))
    return ends


def prepare(program, name, work):
    before, client, lines = OPERATIONS[name]
    store = Store(program, work / "template")
    for who, what in before:
        store.run(who, what)
    if client is None:
        # A third client dies when it has put its head open, at its second rename of the commit.
        store.run(3, [*inserts(3, (1, 2)), "commit"], ["strace", "-o", "/dev/null", "-e", "trace=rename", "-e", "inject=rename:signal=KILL:when=5"])
        store.end_leases()
    return store.folder


def run(program, name, work):
    operation = OPERATIONS[name]
    template = prepare(program, name, work)
    ends = ends_of(program, template, operation, work)
    traced = Store(program, work / "traced")
    shutil.copytree(template, traced.folder)
    calls = calls_of(traced, operation[1], operation[2], work)
    cases = [(call, "signal=KILL") for call in calls if call[0] in CHANGES]
    cases += [(call, "error=" + ERRORS.get(call[0], "EIO")) for call in calls]
    with ThreadPoolExecutor(os.cpu_count()) as pool:
        results = list(pool.map(lambda case: hit(program, template, operation, case, ends), cases))
    wrong = [(case, why) for case, (_, why) in zip(cases, results) if why]
    for case, why in wrong:
        print(f"{name}: {case}: {why}")
    kills = sum(case[1] == "signal=KILL" for case in cases)
    undone = sum(found == ends[0] != ends[1] for found, _ in results)
    print(f"{name}: {kills} kills and {len(cases) - kills} failed calls, {undone} left it undone, {len(wrong)} wrong", flush=True)
    return len(wrong)


def in_place_of_each(program, work, put):
    """Puts something in the place of each file and folder of a store, and runs a shell and a settling, which end by themselves."""
    template = prepare(program, "settle", work)
    paths = sorted(path.relative_to(template) for path in template.rglob("*"))
    for path in paths:
        store = Store(program, work / "store")
        shutil.copytree(template, store.folder)
        place = store.folder / path
        shutil.rmtree(place) if place.is_dir() else place.unlink()
        put(place)
        for client in (1, None):
            store.run(client, [*THREE, "commit", "tree 1"])
        shutil.rmtree(store.folder)
    return len(paths)


def pipes(program, work):
    count = in_place_of_each(program, work, os.mkfifo)
    print(f"pipe: in the place of each of {count} files and folders, and nothing hung")
    return 0


def links(program, work):
    elsewhere = work / "elsewhere"
    count = in_place_of_each(program, work, lambda place: place.symlink_to(elsewhere))
    made = os.path.lexists(elsewhere)
    print(f"link: to nothing, in the place of each of {count} files and folders, and {'something' if made else 'nothing'} was made there")
    return int(made)


def marks_for(queue):
    """Marks, and whether each names a part of a store that has this queue."""
    wrong = [bytes(7), bytes(33), b"object", b"objects\n", b"objects/", b"objects" + b"s" * 60, b"\xff" * 40, b"no/part", b"locks", b"in-use"]
    wrong += [b"..", b"../elsewhere", b"queues/..", b"queues/../../elsewhere", b"/", b"queues/", b"queues/atomic-41", queue[:-1], queue + b"0", queue + bytes(3)]
    missing = [b"queues/atomic-40", b"queues/updates-10000000000000ffff"]
    return [(mark, False) for mark in [*wrong, *missing]] + [(mark, True) for mark in (b"objects", b"queues", queue)]


def flushed_by(store, log):
    """What the first call of a look flushes, below the store: a shell of a client that has a session open makes one call."""
    store.run(None, (), ["strace", "-y", "-o", str(log), "-e", "trace=flock,fsync,ftruncate"])
    first = log.read_text().split("flock(")[1]
    return [os.path.relpath(path, store.folder) for path in re.findall(r"^fsync\([0-9]+<([^>]*)>", first, re.M)]


def marks(program, work):
    """Puts each mark into `in-use`: the first call flushes the part that it names and nothing else, and leaves none."""
    operation = OPERATIONS["commit"]
    template = prepare(program, "commit", work)
    old, new = ends_of(program, template, operation, work)
    queue = b"queues/" + next(path.name for path in (template / "queues").iterdir()).encode()
    wrong = 0
    for mark, is_part in marks_for(queue):
        stores = [Store(program, work / name) for name in ("flushed", "used")]
        for store in stores:
            shutil.copytree(template, store.folder)
            (store.folder / "in-use").write_bytes(mark)
        flushed = flushed_by(stores[0], work / "log")
        status, replies = stores[1].run(operation[1], operation[2])
        left = [(store.folder / "in-use").read_bytes() for store in stores]
        found = settles(stores[1])
        if (flushed, status, left, found) != ([mark.decode()] if is_part else [], 0, [b"", b""], new):
            wrong += 1
            print(f"mark {mark}: flushed {flushed}, status {status}, left {left}, found {found}: {replies}")
        for store in stores:
            shutil.rmtree(store.folder)
    print(f"mark: {len(marks_for(queue))} marks in `in-use`, {wrong} wrong")
    return wrong


# what is put in the place of files, or into one
OTHERS = {"pipe": pipes, "link": links, "mark": marks}


def main(words):
    program, names = os.path.abspath(words[0]), words[1:] or [*OPERATIONS, *OTHERS]
    wrong = 0
    for name in names:
        with tempfile.TemporaryDirectory(dir=os.environ.get("TMPDIR", "/dev/shm")) as work:
            wrong += OTHERS[name](program, Path(work)) if name in OTHERS else run(program, name, Path(work))
    return min(wrong, 1)


if __name__ == "__main__":
    sys.exit(main(sys.argv[1:]))
