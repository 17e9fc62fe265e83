#!/usr/bin/env python3
"""A small model of what a schedule commits, with no page, queue or lease in it. It follows the lines and the kinds of
replies, and holds every report against what it follows:

- `committed` is what the lines committed, each transaction whole, one client's in their order;
- `order` has committed entries alone, each once, one client's entries of a key in their order, behind the last order;
- `contents` is the fold of `order`, from no record, in key order, each with its attribute where it has one;
- behind `left 0 0` the order has every committed entry.

A commit that was cut off by a crash, or is in doubt, is committed where the next report says so, and never afterwards.
A report while a commit is half done is not for it: lines and replies do not tell whether its head landed.
A read, a scan or a look-up shows payloads that a session noted for that key, and a look-up records whose attribute and entry one noted. Where a report
said `left 0 0` and no commit began since, each of them that is made by plain calls, of a session that noted nothing, shows just what the report has.
A session without a ledger makes no checkpoint by `work`, and a watchdog no more than its number. Lines and replies are matched by their numbers.

Usage: bench/model.py SCHEDULE REPLIES [..]     prints one line for each pair; status 1 where one is not as the model says
"""

import sys

NOTES = ("insert", "update", "delete", "add")
# What a change behind another one of its key comes to, within one transaction.
NET = {
    ("insert", "insert"): "insert", ("insert", "update"): "insert", ("insert", "delete"): "delete",
    ("update", "insert"): "insert", ("update", "update"): "update", ("update", "delete"): "delete",
    ("delete", "insert"): "insert", ("delete", "update"): "delete", ("delete", "delete"): "delete",
    ("insert", "add"): "insert", ("update", "add"): "update", ("delete", "add"): "delete", ("add", "add"): "add",
    ("add", "insert"): "insert", ("add", "update"): "update", ("add", "delete"): "delete",
}


class Wrong(Exception):
    pass


def must(holds, what):
    if not holds:
        raise Wrong(what)


def plus(payload, amount):
    """A payload of eight bytes with an amount added, modulo 2^64; another stays."""
    return f"{(int(payload, 16) + int(amount)) % 2**64:016x}" if len(payload) == 16 else payload


def entry_of(tree, key, attr):
    """The tree of a record's index, and its key there."""
    return str(int(tree) + 8), f"{len(attr) // 2:02x}{attr}{key}"


def fold(changes):
    """The records that changes come to, each its payload, and its attribute where it has one. Only an insert sets or clears an attribute."""
    records = {}
    for change in changes:
        what, key, *words = change.split(" ")
        if what == "insert":
            records[key] = words
        elif what == "delete":
            records.pop(key, None)
        elif key in records:
            payload, *attr = records[key]
            records[key] = [words[0] if what == "update" else plus(payload, words[0]), *attr]
    return records


def replies_of(text):
    """The replies of an output: for each number its first line and the lines of its report."""
    replies, lines = [], text.split("\n")
    must(lines.pop() == "", "the last reply has no line feed")
    at = 0
    while at < len(lines):
        number, _, said = lines[at].partition(" ")
        must(number == str(len(replies) + 1), f"reply {len(replies) + 1} is not there: {lines[at][:60]}")
        at += 1
        report = None
        if said.startswith("report "):
            report = {}
            for part in ("committed", "order", "contents"):
                word, count = lines[at].split(" ")
                must(word == part, f"reply {number} has no {part}")
                report[part] = lines[at + 1 : at + 1 + int(count)]
                at += 1 + int(count)
            word, *left = lines[at].split(" ")
            must(word == "left", f"reply {number} has no left")
            report["left"] = [int(it) for it in left]
            at += 1
        replies.append((said, report))
    return replies


class Session:
    def __init__(self):
        self.client = self.epoch = 0
        self.buffer = {}
        self.at_work = None
        # Of what it has at work: what was known whole when it began, and whether one of its calls was no plain one.
        self.known, self.odd = {}, False
        # The role and number of its ledger, where a line gave it one.
        self.policy = None


class Model:
    def __init__(self):
        self.sessions = {}
        self.attempts = {}
        self.noted, self.attrs = {}, {}
        # What was tried, in its order: for each transaction its changes, and those of them that nobody knows of yet.
        self.tried, self.doubtful = [], set()
        self.orders = {}
        self.reports = []
        # The records of each tree of which a report said that nothing is left, while no commit began since.
        self.whole = {}
        # Of the trees that were swept, and nothing was done since: how many pages were kept.
        self.swept = {}

    def entries(self, tree, transactions):
        return [f"{client} {epoch} {txn} {change}" for (client, epoch, txn), changes in transactions for of, change in changes if of == tree]

    def line(self, line, said, report):
        what, *words = line.split(" ")
        if said.startswith("refused "):
            return
        if what == "report":
            must(report is not None or not said.startswith("report"), "no report")
            if report is not None:
                self.report(words[0], report)
            return
        if what == "wait":
            return
        if what == "sweep":
            self.sweep(words[0], said)
            return
        self.swept.clear()
        if what == "settle":
            return
        session = self.sessions.setdefault(words[0], Session())
        if what in NOTES:
            must(said == "noted", f"{line}: {said}")
            self.note(session, what, *words[1:])
        elif what == "put":
            must(said == "noted", f"{line}: {said}")
            tree, key, payload, attr = words[1:]
            self.note(session, "insert", tree, key, payload, attr)
            self.note(session, "insert", *entry_of(tree, key, attr), "-")
        elif what == "abort":
            session.buffer = {}
        elif what == "policy":
            must(said == "noted", f"{line}: {said}")
            session.policy = words[1], int(words[2])
        elif what == "work":
            self.work(session, line, said)
        elif what == "crash":
            if session.at_work == "commit":
                self.doubt(self.attempt(session))
            self.sessions[words[0]] = Session()
        elif said == "begun":
            session.at_work = what
            session.known, session.odd = dict(self.whole), False
            if what == "commit":
                self.whole.clear()
            if what == "close":
                session.policy = None
            if what == "open":
                # (a session in doubt that opens again forgets what it noted)
                session.client, session.buffer = words[1], {}
            if what == "commit":
                self.attempts[session.client, session.epoch] = self.attempts.get((session.client, session.epoch), 0) + 1
            session.asked = words[1:]
        elif what in ("run", "step"):
            session.odd |= what == "step" and words[1] != "plain"
            if said != "called":
                self.answer(session, said)
                session.at_work = None

    def sweep(self, tree, said):
        """Of a tree that nothing was done to since its last sweep nothing is removed."""
        word, *counts = said.split(" ")
        if word != "swept":
            self.swept.pop(tree, None)
            return
        must(len(counts) == 2 and all(it.isdigit() for it in counts), f"sweep {tree}: {said}")
        before = self.swept.get(tree)
        must(before in (None, counts[0]), f"sweep {tree}: {said} behind one that kept {before}")
        must(before is None or counts[1] == "0", f"sweep {tree}: {said} behind a sweep")
        self.swept[tree] = counts[0]

    def note(self, session, what, tree, key, *words):
        self.noted.setdefault((tree, key), set()).update([what] if what == "add" else words[:1])
        self.attrs.setdefault((tree, key), set()).update(words[1:])
        before = session.buffer.get((tree, key))
        if before:
            first, _, *old = before.split(" ")
            both = NET[first, what]
            if what == "add" and old:
                words = [str((int(old[0]) + int(words[0])) % 2**64) if first == "add" else plus(old[0], words[0])]
            if both == "insert" and what != "insert":
                # (an insert keeps its attribute under what only sets or raises its payload)
                words = [words[0], *old[1:]]
            what = both
        session.buffer[tree, key] = " ".join([what, key, *([] if what == "delete" else words)])

    def work(self, session, line, said):
        word, *counts = said.split(" ")
        must(word == "worked" and len(counts) == 2, f"{line}: {said}")
        made = sum(int(it) for it in counts)
        must(made == 0 or session.policy is not None, f"{line}: {said}, and the session has no ledger")
        must(made == 0 or session.policy[0] != "watchdog" or made <= session.policy[1], f"{line}: {said}, and the watchdog's number is {session.policy}")

    def may_have(self, tree, key, attr):
        """Whether somebody noted the record with this attribute, and its entry in the index."""
        return attr in self.attrs.get((tree, key), ()) and entry_of(tree, key, attr) in self.noted

    def may_show(self, tree, key, payload):
        """Whether somebody noted the payload, or it may be a sum."""
        noted = self.noted.get((tree, key), ())
        return payload in noted or ("add" in noted and len(payload) == 16)

    def knows(self, session, tree):
        """The records of a tree, where what a session has at work is to show just these, else none."""
        records = self.whole.get(tree)
        return records if records is session.known.get(tree) and not session.odd and not session.buffer else None

    def must_be(self, said, records):
        word, *shown = said.split(" ")
        spelled = [str(len(records)), *(f"{key}={records[key][0]}" for key in sorted(records))]
        at = next((at for at, (one, other) in enumerate(zip(shown, spelled)) if at and one != other), min(len(shown), len(spelled)))
        must(word == "scan" and shown == spelled, f"{' '.join([word, *shown[:1]])}, and the last report has {spelled[0]} records, others from place {at} on; nothing was committed since")

    def is_shown(self, session, said):
        """Holds a read, a scan or a look-up against the last report of a tree, where that has all."""
        tree, *asked = session.asked
        records = self.knows(session, tree)
        if records is None:
            return
        if session.at_work == "read":
            value = f"value {records[asked[0]][0]}" if asked[0] in records else "none"
            must(said == value, f"{said.split(' ')[0]}, and the last report has another one; nothing was committed since")
        elif session.at_work == "scan":
            low, high = asked
            self.must_be(said, {key: it for key, it in records.items() if (low == "-" or low <= key) and (high == "-" or key < high)})
        elif session.at_work == "lookup":
            entries = self.knows(session, entry_of(tree, "", "")[0])
            if entries is not None:
                self.must_be(said, {key: it for key, it in records.items() if it[1:] == asked and entry_of(tree, key, asked[0])[1] in entries})

    def attempt(self, session):
        number = self.attempts[session.client, session.epoch]
        return (session.client, session.epoch, number), [(tree, change) for (tree, _), change in session.buffer.items()]

    def doubt(self, attempt):
        self.tried.append(attempt)
        self.doubtful.add(attempt[0])

    def answer(self, session, said):
        word, *rest = said.split(" ")
        if session.at_work in ("read", "scan", "lookup"):
            self.is_shown(session, said)
        if session.at_work == "open" and word == "opened":
            session.epoch = int(rest[0])
        elif session.at_work == "commit":
            attempt = self.attempt(session)
            if word in ("committed", "committed-open"):
                must(word != "committed" or int(rest[0]) == attempt[0][2], f"{said}: the attempt is {attempt[0][2]}")
                self.tried.append(attempt)
            elif word == "in-doubt":
                self.doubt(attempt)
            else:
                must(word == "not-committed", said)
            session.buffer = {}
        elif session.at_work == "read" and word == "value":
            must(self.may_show(*session.asked, rest[0]), f"{said}: nobody noted it")
        elif session.at_work == "scan" and word == "scan":
            tree, low, high = session.asked
            keys = [it.split("=")[0] for it in rest[1:]]
            must(len(keys) == int(rest[0]) and keys == sorted(set(keys)), "a scan out of order")
            must(all((low == "-" or low <= it) and (high == "-" or it < high) for it in keys), "a scan out of its bounds")
            must(all(self.may_show(tree, *it.split("=")) for it in rest[1:]), "a scan of what nobody noted")

        elif session.at_work == "lookup" and word == "scan":
            tree, attr = session.asked
            keys = [it.split("=")[0] for it in rest[1:]]
            must(len(keys) == int(rest[0]) and keys == sorted(set(keys)), "a look-up out of order")
            must(all(self.may_have(tree, it, attr) for it in keys), "a look-up of what nobody noted with that attribute")
            must(all(self.may_show(tree, *it.split("=")) for it in rest[1:]), "a look-up of what nobody noted")

    def report(self, tree, report):
        for attempt in [it for it in self.tried if it[0] in self.doubtful]:
            entries = self.entries(tree, [attempt])
            if entries:
                has = [it in report["committed"] for it in entries]
                must(all(has) or not any(has), f"transaction {attempt[0]} is committed in part")
                self.doubtful.remove(attempt[0])
                if not all(has):
                    self.tried.remove(attempt)
        told, known = report["committed"], self.entries(tree, self.tried)
        must(sorted(told) == sorted(known), f"committed has {len(told)} entries, and the lines committed {len(known)}")
        for client in {it[0][0] for it in self.tried}:
            of = [it for it in known if it.split(" ")[0] == client]
            must([it for it in told if it.split(" ")[0] == client] == of, f"committed has client {client}'s entries in another order")
        order = report["order"]
        must(len(set(order)) == len(order), "an entry stands twice in the order")
        must(set(order) <= set(told), "the order has an entry that was not committed")
        at = {it: number for number, it in enumerate(told)}
        last = {}
        for it in order:
            client, _, _, _, key, *_ = it.split(" ")
            must(last.get((client, key), -1) < at[it], f"client {client}'s changes of {key} are turned round")
            last[client, key] = at[it]
        before = self.orders.get(tree, [])
        must(order[: len(before)] == before, "the order does not go on from the last one")
        self.orders[tree] = order
        records = fold(it.split(" ", 3)[3] for it in order)
        must(report["contents"] == [" ".join([key, *records[key]]) for key in sorted(records)], "the contents are not the fold of the order")
        must(report["left"] != [0, 0] or len(order) == len(told), "nothing is left, and the order has not all that was committed")
        if report["left"] != [0, 0] or any(it.at_work == "commit" for it in self.sessions.values()):
            self.whole.pop(tree, None)
        elif self.whole.get(tree) != records:
            self.whole[tree] = records
        self.reports.append(report)


def check(schedule, output):
    """Holds an output against its schedule, and returns its reports. Raises Wrong where it is not as the model says."""
    lines, replies = schedule.split("\n")[:-1], replies_of(output)
    must(len(lines) == len(replies), f"{len(lines)} lines and {len(replies)} replies")
    model = Model()
    for number, (line, (said, report)) in enumerate(zip(lines, replies), 1):
        try:
            model.line(line, said, report)
        except Wrong as wrong:
            raise Wrong(f"line {number}, {line}: {wrong}")
    return model.reports


def main(words):
    bad = 0
    for schedule, replies in zip(words[::2], words[1::2]):
        with open(schedule) as lines, open(replies) as output:
            text, said = lines.read(), output.read()
        try:
            reports = check(text, said)
            last = reports[-1] if reports else None
            what = f"; the last has {len(last['committed'])} committed, {len(last['order'])} in order, {len(last['contents'])} contents" if last else ""
            print(f"{schedule}: {text.count(chr(10))} lines, {len(reports)} reports as the model says{what}")
        except Wrong as wrong:
            bad = 1
            print(f"{schedule}: NOT as the model says: {wrong}")
    return bad


if __name__ == "__main__":
    sys.exit(main(sys.argv[1:]))
