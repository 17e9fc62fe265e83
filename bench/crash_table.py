#!/usr/bin/env python3
"""Cuts off five operations at each of their calls, in each of four ways, lets the store be settled, and looks at the report.

A case is a script, a call of its last operation, and a hit: the session dies before the call, or behind it; or the call
answers Failed, and has not landed, or has. The session dies in any case, its leases run out, the store is settled, and
its report is held against bench/model.py, and against the counts that the script calls for.

Usage: bench/crash_table.py PROGRAM [NAME..]      the scripts of these names, all five where none is given
       bench/crash_table.py --scripts FOLDER      writes the scripts and reports that the crate example_runs has of them
"""

import subprocess
import sys
from concurrent.futures import ThreadPoolExecutor

import model

HITS = ("crash 1", "crash 1 done", "step 1 fail", "step 1 lost")
TAIL = ["crash 1", "wait 600", "settle", "report 1"]


def inserts(keys, width):
    return [f"insert 1 1 {key:0{width}x} 76" for key in keys]


def done(what):
    return [what, "run 1"]


OPENED = done("open 1 1")
FULL = [*OPENED, *inserts(range(1, 65), 2), *done("commit 1"), *done("tree 1 1")]
THREE = [*OPENED, *inserts(range(0x61, 0x64), 2)]
SCRIPTS = {
    "page": (
        "a page checkpoint that goes right",
        [*FULL, "update 1 1 40 75", *done("commit 1"), "insert 1 1 41 76", *done("commit 1"), *done("tree 1 1")],
        "page 1 1 1", 10, (66, 66, 65),
    ),
    "cut": ("a tree checkpoint that cuts a leaf", [*FULL, "insert 1 1 41 76", *done("commit 1")], "tree 1 1", 12, (65, 65, 65)),
    "recovery": (
        "an opening that recovers a commit of three records",
        [*THREE, "commit 1", *["step 1 plain"] * 4, "crash 1", "wait 600"],
        "open 1 1", 11, (3, 3, 3),
    ),
    "commit": ("a commit of three records", THREE, "commit 1", 11, None),
    "root": (
        "a tree checkpoint that cuts the root of a tree of 4,160 records",
        [*OPENED, *(line for at in range(64) for line in [*inserts(range(64 * at + 1, 64 * at + 65), 4), *done("commit 1"), *done("tree 1 1")]),
         *inserts(range(4097, 4161), 4), *done("commit 1")],
        "tree 1 1", 13, (4160, 4160, 4160),
    ),
}


def cases(names):
    for name in names:
        _, lines, last, calls, _ = SCRIPTS[name]
        for call in range(1, calls + 1):
            for hit in HITS:
                yield name, call, hit, "\n".join([*lines, last, *["step 1 plain"] * (call - 1), hit, *TAIL]) + "\n"


def wanted(name, call, hit):
    """How many entries are committed, how many in the order, and how many records there are."""
    if name != "commit":
        return SCRIPTS[name][4]
    # The commit's fourth call puts its open head, behind a send for each record.
    landed = call > 4 or (call == 4 and hit in ("crash 1 done", "step 1 lost"))
    return (3, 3, 3) if landed else (0, 0, 0)


def bound(name, reports):
    """Above the number of calls of any settling of these stores: a commit's records at most are left in each of the queues."""
    left, pages = (64, 70) if name == "root" else (3, 3)
    return 64 * 8 + 5 * left + 16 * 16 + 16 * pages + 2 * left * (8 * pages + 32)


def judge(name, call, hit, schedule, output):
    report = model.check(schedule, output)[-1]
    settled = [it[0] for it in model.replies_of(output) if it[0].startswith("settled ")]
    model.must(len(settled) == 1 and int(settled[0].split(" ")[1]) <= bound(name, report), "the store is not settled within the bound")
    counts = tuple(len(report[it]) for it in ("committed", "order", "contents"))
    model.must(counts == wanted(name, call, hit), f"the report has {counts}, and not {wanted(name, call, hit)}")
    model.must(report["left"] == [0, 0], "something is left")
    if name == "page":
        model.must("40 75" in report["contents"], "the update is not there")
    if name in ("page", "cut"):
        model.must("41 76" in report["contents"], "the insert is not there")


def entry(txn, line):
    what, _, _, *rest = line.split(" ")
    return f"1 1 {txn} {what} {' '.join(rest)}"


def report_of(name):
    """The report of a settled store, of what the script's lines commit: they have one client, and an update that is taken last."""
    committed, txn = [], 1
    _, lines, last, _, _ = SCRIPTS[name]
    for line in [*lines, last]:
        if line.startswith(("insert", "update")):
            committed.append(entry(txn, line))
        txn += line == "commit 1"
    order = sorted(committed, key=lambda it: " update " in it)
    records = model.fold(it.split(" ", 3)[3] for it in order)
    contents = [f"{key} {records[key]}" for key in sorted(records)]
    return [f"committed {len(committed)}", *committed, f"order {len(order)}", *order, f"contents {len(contents)}", *contents, "left 0 0"]


def write_scripts(folder):
    def write(name, lines):
        with open(f"{folder}/{name}", "w") as it:
            it.write("\n".join(lines) + "\n")

    for name in SCRIPTS:
        write(f"{name}.script", [*SCRIPTS[name][1], SCRIPTS[name][2]])
        write(f"{name}.report", [" report 1", *report_of(name)])
    write("nothing.report", [" report 1", "committed 0", "order 0", "contents 0", "left 0 0"])


def main(words):
    if words[:1] == ["--scripts"]:
        write_scripts(words[1])
        return 0

    def run(case):
        name, call, hit, schedule = case
        ran = subprocess.run([words[0], "replay"], input=schedule.encode(), stdout=subprocess.PIPE)
        try:
            model.must(ran.returncode == 0, f"status {ran.returncode}")
            judge(name, call, hit, schedule, ran.stdout.decode())
            return name, None
        except model.Wrong as wrong:
            return name, f"{name}, {hit} at call {call}: {wrong}"

    names = words[1:] or list(SCRIPTS)
    with ThreadPoolExecutor(2) as pool:
        results = list(pool.map(run, cases(names)))
    for _, wrong in results:
        if wrong:
            print(f"NOT as it must be: {wrong}")
    for name in names:
        of = [wrong for it, wrong in results if it == name]
        print(f"{SCRIPTS[name][0]}: {of.count(None)} of {len(of)} cases")
    good = sum(wrong is None for _, wrong in results)
    print(f"{good} of {len(results)} cases are as they must be")
    return 0 if good == len(results) else 1


if __name__ == "__main__":
    sys.exit(main(sys.argv[1:]))
