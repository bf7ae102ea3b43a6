"""Where the parts of a store lie in its file, and the bytes of rows, entries and manifests, as
docs/layout.md has them.

All offsets of a device are here. `model.py` alone has its own, since it is the other witness: what
it and the program say of a device is compared, and a slip in this module would not be seen there.
"""
import hashlib
from dataclasses import dataclass

SECTOR = 4096
OPEN = b"\xa7"
CLOSED = b"\x00"
PUT = 1
DELETE = 2
KEY_LEN = 20
# The kind and the key of a row, in front of its value.
ROW_HEAD = 1 + KEY_LEN
DIGEST = 20

# The header: its version, and where it has each of the six numbers.
VERSION = 9
HEADER_NUMBERS = {"v": 13, "b": 17, "cap": 21, "nl": 25, "nh": 29, "s": 33}
HEADER_LEN = 37

# The offsets of the two manifest slots, and what a slot has behind its commit byte. First comes the body.
SLOTS = (SECTOR, 2 * SECTOR)
GENERATION = 1
ACTIVE = 9
FROZEN = 13
HASHES = 45
SORTED = 113
COUNT = 117
# Then there may be digests: of sixteen hash stores, and of the sorted store.
HASH_DIGESTS = 121
SORTED_DIGEST = 441
SLOT_LEN = 461
# The bit of a slot's byte 1 that says that there are digests.
LONG_FORM = 0x80

# What is in front of all regions.
FIRST_LOG = 3 * SECTOR


def up(count):
    """A number of bytes, rounded up to whole sectors."""
    return -(-count // SECTOR) * SECTOR


def key_bytes(word):
    """The key of a line's word: forty digits, or `=` and a name."""
    return hashlib.sha1(word[1:].encode()).digest() if word.startswith("=") else bytes.fromhex(word)


@dataclass
class Layout:
    """The six numbers of a store, and what follows from them."""

    values: int
    buckets: int
    rows: int
    logs: int
    hashes: int
    entries: int

    @classmethod
    def of(cls, words):
        return cls(*map(int, words.split()))

    @property
    def slots(self):
        return 4 * self.buckets

    @property
    def row_len(self):
        return ROW_HEAD + self.values

    @property
    def entry_len(self):
        return KEY_LEN + self.values

    def commits(self, log):
        return FIRST_LOG + log * (up(self.rows) + up(self.rows * self.row_len))

    def bodies(self, log):
        return self.commits(log) + up(self.rows)

    def hash_region(self, number):
        return self.commits(self.logs) + number * up(self.slots * self.row_len)

    def sorted_region(self, number):
        return self.hash_region(self.hashes) + number * up(self.entries * self.entry_len)

    @property
    def size(self):
        return self.sorted_region(2)

    @property
    def header(self):
        """The header of a new store without its commit byte."""
        numbers = (2, self.values, self.buckets, self.rows, self.logs, self.hashes, self.entries)
        return b"SILTFLSH" + b"".join(it.to_bytes(4, "big") for it in numbers)

    def row(self, kind, word, value=None):
        """A row: its kind, its key and its value in digits, zeros for a delete."""
        return (
            bytes([kind])
            + key_bytes(word)
            + (bytes.fromhex(value) if value else bytes(self.values))
        )

    def buckets_of(self, word):
        """The two buckets of a key."""
        key = key_bytes(word)
        return int.from_bytes(key[:2], "big") % self.buckets, int.from_bytes(
            key[2:4], "big"
        ) % self.buckets

    def place(self, at):
        """The name of the part of the file that has this offset."""
        edges = (
            (SECTOR, "header"),
            (FIRST_LOG, "manifest"),
            (self.commits(self.logs), "log"),
            (self.hash_region(self.hashes), "hash"),
            (self.size, "sorted"),
        )
        return next(name for end, name in edges if at < end)


def ids(numbers, room):
    """A count and the numbers, newest first, with zeros in the places that are left."""
    return b"".join(
        it.to_bytes(4, "big") for it in [len(numbers), *numbers] + [0] * (room - len(numbers))
    )


def sha1(data):
    return hashlib.sha1(data).digest()


def slot_of(generation):
    """The offset of the manifest slot that has this generation."""
    return SLOTS[generation % 2]


def closing_place(slot, is_closed):
    """Where one zero is written before a slot gets another body: over its commit byte, or, if that is
    closed already, over the last byte of its sector."""
    return slot + SECTOR - 1 if is_closed else slot


def manifest(generation, active, frozen=(), hashes=(), region=0, entries=()):
    """The 460 bytes behind a manifest's commit byte. Of each hash store come its region and the bytes of
    its slots, and of each sorted entry its bytes."""
    body = [
        ((LONG_FORM << 56) + generation).to_bytes(8, "big"),
        active.to_bytes(4, "big"),
        ids(list(frozen), 7),
        ids([it for it, _ in hashes], 16),
        region.to_bytes(4, "big"),
        len(entries).to_bytes(4, "big"),
    ]
    digests = b"".join(sha1(slots) for _, slots in hashes)
    return b"".join(body) + digests.ljust(16 * DIGEST, b"\0") + sha1(b"".join(entries))


def as_version_1(image):
    """The same store as a device of version 1 that no manifest was written to since: its open slots
    have no digests."""
    made = bytearray(image)
    made[VERSION:VERSION + 4] = (1).to_bytes(4, "big")
    for slot in SLOTS:
        if made[slot:slot + 1] == OPEN:
            made[slot + GENERATION] &= ~LONG_FORM
            made[slot + HASH_DIGESTS:slot + SLOT_LEN] = bytes(SLOT_LEN - HASH_DIGESTS)
    return bytes(made)
