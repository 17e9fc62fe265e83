"""What the tools of this folder know of formats: the bytes of objects and messages, names, the files of a store, and the texts of lines.

It follows docs/FORMATS.md, docs/SHELL.md ("The files") and docs/SCHEDULES.md ("Lines"), section by section, and was written from these
pages, not from the program. Nothing here is proved. It reads and never writes.
"""

import re
import time
from dataclasses import dataclass, field

# Limits, as the pages have them.
CLIENTS, TREES, SESSIONS = 64, 16, 16
MOST_KEY, MOST_PAYLOAD, MOST_ATTR, MOST_CHANGES = 64, 1024, 32, 200
MOST_WAIT, MOST_POSITIONS, MOST_INPUT = 1_000_000, 256, 262_144
GREATEST = 2**64 - 1
# The longest that a lease lasts, in ticks; in a folder a tick is a second.
LEASE = {"client": 600, "tree": 60, "page": 30}
LONGEST_LEASE = max(LEASE.values())


# ---- Bytes ----------------------------------------------------------------------------------------------------------


class Damaged(Exception):
    """Bytes in no spelling, and the offset from which on they are in none."""

    def __init__(self, offset, why):
        super().__init__(f"in no spelling from byte {offset} on: {why}")
        self.offset = offset


class Reader:
    """Reads fields one behind another. Each method faults the place where its field begins."""

    def __init__(self, data):
        self.data, self.at = data, 0

    def must(self, holds, at, why):
        if not holds:
            raise Damaged(at, why)

    def take(self, count, at, what):
        self.must(self.at + count <= len(self.data), at, f"{what} is cut short")
        self.at += count
        return self.data[self.at - count : self.at]

    def number(self, size, what, least=0, most=GREATEST):
        at = self.at
        value = int.from_bytes(self.take(size, at, what), "big")
        self.must(least <= value <= most, at, f"{what} is {value}")
        return value

    def u8(self, what, least=0, most=255):
        return self.number(1, what, least, most)

    def u64(self, what, least=0):
        return self.number(8, what, least)

    def low_key(self):
        return self.sized(1, "a low key", 0, MOST_KEY)

    def key(self):
        return self.sized(1, "a key", 1, MOST_KEY)

    def payload(self):
        return self.sized(2, "a payload", 0, MOST_PAYLOAD)

    def attr(self):
        return self.sized(1, "an attribute", 1, MOST_ATTR)

    def sized(self, size, what, least, most):
        at = self.at
        length = int.from_bytes(self.take(size, at, what), "big")
        self.must(least <= length <= most, at, f"{what} of {length} bytes")
        return self.take(length, at, what)

    def tag(self, letter, newest=1):
        """The tag, and the format behind it, from 1 to the newest."""
        self.must(self.data[:1] == letter, 0, f"its tag is not {letter.decode()}")
        self.at = 1
        return self.u8("the format", 1, newest)

    def list_of(self, read, least=0):
        """Items behind continuation bytes; `read` is given the item before."""
        items = []
        while True:
            at = self.at
            if self.u8("a continuation byte", 0, 1) == 0:
                self.must(len(items) >= least, at, "a list without an item")
                return items
            items.append(read(items[-1] if items else None))

    def end(self):
        self.must(self.at == len(self.data), self.at, "bytes follow the last field")


@dataclass(frozen=True)
class Change:
    """An insert, update or delete of a key, or an addition to its payload."""

    what: str
    key: bytes
    payload: bytes = b""
    amount: int = 0
    # What an insert sets beside the payload, where it sets one.
    attr: bytes | None = None

    def __str__(self):
        words = [self.what, text_of(self.key)]
        behind = {"delete": [], "add": [str(self.amount)]}
        attr = [] if self.attr is None else [text_of(self.attr)]
        return " ".join([*words, *behind.get(self.what, [text_of(self.payload), *attr])])


def read_change(reader):
    kind = reader.u8("a kind", 1, 5)
    key = reader.key()
    if kind == 3:
        return Change("delete", key)
    if kind == 4:
        return Change("add", key, amount=reader.u64("an amount", 0))
    if kind == 5:
        return Change("insert", key, reader.payload(), attr=reader.attr())
    return Change(("insert", "update")[kind - 1], key, reader.payload())


@dataclass
class Leaf:
    version: int
    low: bytes
    right: int
    high: bytes
    # For a queue (its page, 0 for the tree's own) and a client the number up to which records are applied.
    done: dict
    # Triples of a key, a payload, and an attribute or None.
    records: list
    # 1, or 2, whose records may have attributes.
    format: int
    level = 0


@dataclass
class Inner:
    version: int
    level: int
    low: bytes
    right: int
    high: bytes
    # Pairs of a low key and a child.
    entries: list


@dataclass
class Tree:
    version: int = 0
    next: int = 2
    level: int = 1
    cursor: dict = field(default_factory=dict)
    entries: list = field(default_factory=lambda: [(b"", 1)])


@dataclass(frozen=True)
class Pending:
    tree: int
    page: int
    number: int
    change: Change


@dataclass
class Head:
    epoch: int = 0
    txn: int = 0
    # How many records the transaction has that is committed and not finished; 0 where the head is settled.
    open: int = 0
    # For a tree and a queue (its page) the last number used.
    counters: dict = field(default_factory=dict)
    pending: list = field(default_factory=list)


@dataclass(frozen=True)
class Atomic:
    client: int
    epoch: int
    txn: int
    index: int
    count: int
    tree: int
    page: int
    number: int
    change: Change


@dataclass(frozen=True)
class Update:
    client: int
    epoch: int
    txn: int
    number: int
    change: Change


def read_fences(reader):
    """The low key, the right page and the high key."""
    low, right = reader.low_key(), reader.u64("the right page")
    at = reader.at
    high = reader.key() if right else b""
    reader.must(not right or high > low, at, "the high key is not above the low key")
    return low, right, high


def read_leaf(data):
    reader = Reader(data)
    format = reader.tag(b"L", newest=2)
    version = reader.u64("the version", 1)
    low, right, high = read_fences(reader)

    def done_item(last):
        at = reader.at
        queue = reader.u64("a queue")
        reader.must(last is None or queue >= last[0], at, "a queue below the one before")
        at = reader.at
        client = reader.u8("a client", 1, CLIENTS)
        reader.must(last is None or (queue, client) > last[:2], at, "a client that is not above the one before")
        return queue, client, reader.u64("a number", 1)

    def record(last):
        at = reader.at
        key = reader.key()
        reader.must((last is None or key > last[0]) and key >= low and (not right or key < high), at, "a key out of its order or its fences")
        payload = reader.payload()
        has_attr = format == 2 and reader.u8("whether an attribute follows", 0, 1)
        return key, payload, reader.attr() if has_attr else None

    done = {(queue, client): number for queue, client, number in reader.list_of(done_item)}
    leaf = Leaf(version, low, right, high, done, reader.list_of(record), format)
    reader.end()
    return leaf


def read_entries(reader, low, high, below=None):
    def entry(last):
        at = reader.at
        key = reader.low_key()
        if last is None:
            reader.must(key == low, at, "a first entry's key that is not the low key")
        else:
            reader.must(key > last[0] and (not high or key < high), at, "a key out of its order or its fences")
        at = reader.at
        child = reader.u64("a child", 1)
        reader.must(below is None or child < below, at, "a child that is not below the next free page")
        return key, child

    return reader.list_of(entry, 1)


def read_inner(data):
    reader = Reader(data)
    reader.tag(b"I")
    version, level = reader.u64("the version", 1), reader.u8("the level", 1)
    low, right, high = read_fences(reader)
    node = Inner(version, level, low, right, high, read_entries(reader, low, high))
    reader.end()
    return node


def read_tree(data):
    reader = Reader(data)
    reader.tag(b"T")
    version, following, level = reader.u64("the version", 1), reader.u64("the next free page", 2), reader.u8("the level", 1)

    def cursor_item(last):
        at = reader.at
        client = reader.u8("a client", 1, CLIENTS)
        reader.must(last is None or client > last[0], at, "a client that is not above the one before")
        return client, reader.u64("a number", 1)

    cursor = dict(reader.list_of(cursor_item))
    tree = Tree(version, following, level, cursor, read_entries(reader, b"", b"", following))
    reader.end()
    return tree


def read_head(data):
    reader = Reader(data)
    reader.tag(b"H")
    epoch, txn = reader.u64("the epoch", 1), reader.u64("the transaction")
    count = reader.u8("the count", 1, MOST_CHANGES) if reader.u8("the phase", 0, 1) else 0

    def counter(last):
        at = reader.at
        tree = reader.u8("a tree", 1, TREES)
        reader.must(last is None or tree >= last[0], at, "a tree below the one before")
        at = reader.at
        page = reader.u64("a queue")
        reader.must(last is None or (tree, page) > last[:2], at, "a queue that is not above the one before")
        return tree, page, reader.u64("a number", 1)

    def pending(_):
        return Pending(reader.u8("a tree", 1, TREES), reader.u64("a queue"), reader.u64("a number", 1), read_change(reader))

    counters = {(tree, page): number for tree, page, number in reader.list_of(counter)}
    head = Head(epoch, txn, count, counters, reader.list_of(pending))
    reader.end()
    return head


def read_atomic(data):
    reader = Reader(data)
    reader.tag(b"A")
    client, epoch, txn = reader.u8("the client", 1, CLIENTS), reader.u64("the epoch", 1), reader.u64("the transaction", 1)
    index = reader.u8("the index", 1)
    count = reader.u8("the count", index, MOST_CHANGES)
    place = reader.u8("the tree", 1, TREES), reader.u64("the queue")
    record = Atomic(client, epoch, txn, index, count, *place, reader.u64("the number", 1), read_change(reader))
    reader.end()
    return record


def read_update(data):
    reader = Reader(data)
    reader.tag(b"P")
    client, epoch, txn = reader.u8("the client", 1, CLIENTS), reader.u64("the epoch", 1), reader.u64("the transaction", 1)
    record = Update(client, epoch, txn, reader.u64("the number", 1), read_change(reader))
    reader.end()
    return record


def read_page(data):
    """A leaf or an inner node, by its tag."""
    return read_inner(data) if data[:1] == b"I" else read_leaf(data)


# ---- Names ----------------------------------------------------------------------------------------------------------


@dataclass(frozen=True, order=True)
class Name:
    """What an object, lock or queue is of: a kind, and a client, or a tree and a page."""

    kind: str
    owner: int
    page: int = 0

    def __str__(self):
        if self.kind in ("page", "pu"):
            return f"{self.kind}:{self.owner}:{self.page}"
        return f"{self.kind}:{self.owner}"


def lock_name(name):
    """The lock that guards an object."""
    return Name("client", name.owner) if name.kind == "head" else name


# ---- The files of a store -------------------------------------------------------------------------------------------

# The numbers in the names of files are hexadecimal: two digits for a client or a tree, sixteen for a page or a message.
OBJECT_FILE = re.compile(r"(head|tree)-([0-9a-f]{2})|(page)-([0-9a-f]{2})([0-9a-f]{16})")
QUEUE_FOLDER = re.compile(r"(atomic)-([0-9a-f]{2})|(updates)-([0-9a-f]{2})([0-9a-f]{16})")
MESSAGE_FILE = re.compile(r"[0-9a-f]{16}")
# Files that stand among others and are no object, lock or message: one that was being written, and the greatest number that a queue gave
# to a message that is gone.
ASIDE, LAST = "aside", "last"
# The folders of a store, and the file beside them that a call locks, in which the folder stands whose names are changing.
PARTS, IN_USE = ("objects", "queues", "locks"), "in-use"


def name_in(pattern, text, kinds):
    """The name that a file's name spells, or None."""
    found = pattern.fullmatch(text)
    if not found:
        return None
    alone, owner, paged, tree, page = found.groups()
    kind = kinds.get(alone or paged, alone or paged)
    number = int(owner or tree, 16)
    most = CLIENTS if kind in ("head", "atomic") else TREES
    if not 1 <= number <= most or (kind == "page" and int(page, 16) == 0):
        return None
    return Name(kind, number, int(page, 16) if page else 0)


def object_in(text):
    return name_in(OBJECT_FILE, text, {})


def queue_in(text):
    return name_in(QUEUE_FOLDER, text, {"updates": "pu"})


def part_in(mark):
    """The part of a store in which names change whose path the bytes of a mark spell, or None."""
    text = mark.decode("ascii", "replace")
    if text in ("objects", "queues"):
        return text
    above, _, folder = text.partition("/")
    return text if above == "queues" and queue_in(folder) else None


def message_in(text):
    """The id of the message whose file has this name, or None."""
    return int(text, 16) if MESSAGE_FILE.fullmatch(text) else None


def object_file(name):
    return f"{name.kind}-{name.owner:02x}" + (f"{name.page:016x}" if name.kind == "page" else "")


def lock_in(data):
    """How often a lock was taken and until when it is held, or None where it is no lock's file. An empty one was never taken."""
    if not data:
        return 0, 0
    return (int.from_bytes(data[:8], "big"), int.from_bytes(data[8:], "big")) if len(data) == 16 else None


# ---- Texts ----------------------------------------------------------------------------------------------------------


def text_of(data):
    """Bytes as lines and replies spell them."""
    return data.hex() or "-"


def bytes_in(text):
    """The bytes that a text spells, or None."""
    if text == "-":
        return b""
    return bytes.fromhex(text) if re.fullmatch(r"([0-9a-f]{2})+", text) else None


def number_in(text):
    """The number that a text spells, or None."""
    return int(text) if re.fullmatch(r"0|[1-9][0-9]{0,19}", text) and int(text) <= GREATEST else None


# ---- Lines of a shell -----------------------------------------------------------------------------------------------

# What follows each word of a shell's lines; a last word in brackets may be left out.
SHELL_LINES = {
    "insert": ("TREE", "KEY", "PAYLOAD", "[ATTR]"),
    "update": ("TREE", "KEY", "PAYLOAD"),
    "delete": ("TREE", "KEY"),
    "add": ("TREE", "KEY", "AMOUNT"),
    "commit": (),
    "abort": (),
    "read": ("TREE", "KEY"),
    "scan": ("TREE", "FROM", "TO"),
    "page": ("TREE", "PAGE"),
    "tree": ("TREE",),
    "renew": (),
}


def is_bound(text):
    return text == "-" or is_key(text)


def is_key(text):
    return 1 <= len(bytes_in(text) or b"") <= MOST_KEY


def is_payload(text):
    data = bytes_in(text)
    return data is not None and len(data) <= MOST_PAYLOAD


def is_attr(text):
    return 1 <= len(bytes_in(text) or b"") <= MOST_ATTR


# What each of these is, and whether a text is one.
SHELL_WORDS = {
    "TREE": (f"a tree, 1 to {TREES}", lambda text: 1 <= (number_in(text) or 0) <= TREES),
    "PAGE": ("a page, 1 and above", lambda text: (number_in(text) or 0) >= 1),
    "KEY": (f"a key of 1 to {MOST_KEY} bytes, two lower-case hexadecimal digits each", is_key),
    "PAYLOAD": (f"a payload of at most {MOST_PAYLOAD} bytes, two lower-case hexadecimal digits each, or -", is_payload),
    "[ATTR]": (f"an attribute of 1 to {MOST_ATTR} bytes, two lower-case hexadecimal digits each", is_attr),
    "AMOUNT": ("a number of 64 bits without leading zeros", lambda text: number_in(text) is not None),
    "FROM": ("a key from which on to list, or - for the first", is_bound),
    "TO": ("a key below which to list, or - for no end", is_bound),
}


def shell_line_fault(words):
    """What was expected of a shell's line that is not in the grammar or would be refused by what it says, or None."""
    if not words or words[0] not in SHELL_LINES:
        return f"one of {', '.join(SHELL_LINES)}"
    wanted = SHELL_LINES[words[0]]
    if not sum(not kind.startswith("[") for kind in wanted) <= len(words) - 1 <= len(wanted):
        return " ".join([words[0], *wanted])
    for kind, word in zip(wanted, words[1:]):
        expected, holds = SHELL_WORDS[kind]
        if not holds(word):
            return f"{expected}, in place of {word}"
    return None


# ---- For people -----------------------------------------------------------------------------------------------------


def moment(seconds):
    """A moment in seconds since the begin of 1970, as a date."""
    try:
        return time.strftime("%Y-%m-%d %H:%M:%S UTC", time.gmtime(seconds))
    except (OverflowError, ValueError, OSError):
        return f"second {seconds}"


def span(seconds):
    """How long a number of seconds is, by its two greatest units."""
    days, rest = divmod(seconds, 86400)
    parts = [(days, "d"), (rest // 3600, "h"), (rest // 60 % 60, "min"), (rest % 60, "s")]
    shown = [f"{value} {unit}" for value, unit in parts if value]
    return " ".join(shown[:2]) or "0 s"
