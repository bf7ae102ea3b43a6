"""What a crash may leave of a file, worked out of the recorded writes and syncs of a program.

A byte that no write touched since the last sync is as that sync left it. Any other byte is
pending: a crash leaves it as it was, as a write since made it, or as anything at all. The writes
of a device may reach it in any order and in any parts. A write that failed may have reached it too,
and a sync that failed settles nothing.
"""
from dataclasses import dataclass

SYNCS = ("fsync", "fdatasync")
CHANGES = (*SYNCS, "pwrite")
SECTORS = (64, 512, 4096)


@dataclass
class Cut:
    """A moment of a recorded run: the number of the call that a crash stopped, what was settled
    then, and the writes that no sync had settled, in their order: offsets and bytes."""

    number: int
    settled: bytes
    pending: list


def cuts(before, calls, file):
    """The moments at which a crash may stop the writes and syncs of a file that was this before:
    within each of these calls, and after the last."""
    settled = bytearray(before)
    pending = []
    for number, call in enumerate(calls):
        if call.file != file or call.name not in CHANGES:
            continue
        if call.name == "pwrite":
            pending.append((call.at, call.moved if call.result >= 0 else call.data))
        yield Cut(number, bytes(settled), list(pending))
        if call.name in SYNCS and call.result == 0:
            settle(settled, pending)
            pending = []
    yield Cut(len(calls), bytes(settled), list(pending))


def settle(settled, pending):
    for at, data in pending:
        settled[at:at + len(data)] = data


def parts_of(write, size):
    """A write in parts that end at multiples of this size."""
    at, data = write
    edges = [at, *range(at - at % size + size, at + len(data), size), at + len(data)]
    return [(start, data[start - at:end - at]) for start, end in zip(edges, edges[1:])]


def some_writes(random, pending):
    return [it for it in pending if random.random() < 0.5]


def some_sectors(random, pending):
    size = random.choice(SECTORS)
    return [part for it in pending for part in parts_of(it, size) if random.random() < 0.5]


def some_bytes(random, pending):
    share = random.choice((0.02, 0.5, 0.98))
    return [part for it in pending for part in parts_of(it, 1) if random.random() < share]


def first_bytes(random, pending):
    """The writes in order, up to some byte."""
    left = random.randint(0, sum(len(data) for _, data in pending))
    kept = []
    for at, data in pending:
        kept.append((at, data[:left]))
        left -= min(left, len(data))
    return kept


def last_bytes(random, pending):
    """The writes from some byte on: those that came later have reached the device, and those
    before not."""
    left = random.randint(0, sum(len(data) for _, data in pending))
    kept = []
    for at, data in reversed(pending):
        begin = max(0, len(data) - left)
        kept.insert(0, (at + begin, data[begin:]))
        left -= len(data) - begin
    return kept


def filled(random, pending):
    """One byte at all pending places."""
    byte = bytes([random.choice((0x00, 0xFF, 0xA7, 0x01))])
    return [(at, byte * len(data)) for at, data in pending]


def garbage(random, pending):
    """Other bytes at some pending places, many of them an open commit byte's."""
    made = some_bytes(random, pending)
    return [(at, bytes([random.choice((0xA7, 0xA7, random.randrange(256)))])) for at, _ in made]


# How the pending bytes are torn. What was written whole, and not at all, are among them.
TEARS = (
    lambda random, pending: [],
    lambda random, pending: pending,
    some_writes,
    some_sectors,
    some_bytes,
    first_bytes,
    last_bytes,
    filled,
    garbage,
)


def fills(cut):
    """The files that the crash leaves with each fill of a stop: at the pending places are the old
    bytes, the new ones, zeros, ones, or the new ones at even places."""
    whole = [part for it in cut.pending for part in parts_of(it, 1)]
    torn = {
        "old": [],
        "new": whole,
        "zero": [(at, b"\0") for at, _ in whole],
        "ones": [(at, b"\xff") for at, _ in whole],
        "mix": [(at, byte) for at, byte in whole if at % 2 == 0],
    }
    for name, parts in torn.items():
        made = bytearray(cut.settled)
        settle(made, parts)
        yield name, bytes(made)


def image(random, cut):
    """A file that the crash may leave."""
    made = bytearray(cut.settled)
    settle(made, random.choice(TEARS)(random, cut.pending))
    return bytes(made)
