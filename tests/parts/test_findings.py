"""What a check and an opening find on devices of given bytes.

The tables have the place of each changed byte, the new byte, and what is then found: a refusal, or
the numbers of a report. All were worked out by hand. test_damage.py makes random damages.
"""
import unittest

from files import DamageCase
from layout import Layout, manifest

# Geometries: small, with logs of eight rows, and with logs of one row.
SMALL = "2 2 4 2 2 8"
EIGHT = "2 2 8 2 2 16"
ONE = "2 2 1 2 2 4"

UNKNOWN = "refused 1 NotFormatted"
HEADER = "refused 3 Damaged header"
LENGTH = "refused 3 Damaged length"
NO_SLOT = "refused 3 Damaged no slot"
SLOT_0 = "refused 3 Damaged slot 0"
SLOT_1 = "refused 3 Damaged slot 1"
CHARGE = "refused 3 Damaged charge"
CROWDED = "refused 4 Crowded"
SORTED_DIGEST = "refused 3 Damaged sorted digest"
NEWEST = "refused 3 Damaged hash 1 digest"
OLDER = "refused 3 Damaged hash 0 digest"


def log(region, row):
    return f"refused 3 Damaged log {region} row {row}"


def hashed(region, slot):
    return f"refused 3 Damaged hash {region} slot {slot}"


def entry(number):
    return f"refused 3 Damaged sorted {number}"


def report(
    layout=1,
    generation=0,
    active=0,
    active_rows=0,
    frozen=0,
    frozen_rows=0,
    hashes=0,
    hash_rows=0,
    entries=0,
    charge=0,
):
    """The lines of a check that finds nothing wrong."""
    return [f"generation {generation}", f"active log {active} rows {active_rows}",
            f"frozen logs {frozen} rows {frozen_rows}", f"hash stores {hashes} rows {hash_rows}",
            f"sorted entries {entries}", f"charge {charge}", f"layout {layout}"]


def key(*first):
    """The key with these first bytes, and zeros behind them."""
    return bytes(first).ljust(20, b"\0").hex()


def with_bytes(image, *changes):
    """The image with these lists of single bytes in place, one list after the other."""
    made = bytearray(image)
    for places in changes:
        for at, byte in places:
            made[at] = byte
    return made


class FindingCase(DamageCase):
    version = 1

    def new(self, geometry, lines=()):
        self.path("store").unlink(missing_ok=True)
        return self.store(geometry, lines).read_bytes()

    def assert_found(self, image, found, note=""):
        """A check finds this. An opening finds the same, and so does a check behind it."""
        if isinstance(found, str):
            self.assert_refused(image, found, note)
            return
        self.path("store").write_bytes(image)
        self.compare_check(note)
        self.assertEqual(self.check_report().lines, found, note)
        self.assertEqual(self.silt("run", "store").out, "opened\n", note)
        self.assertEqual(self.check_report().lines, found, note)

    def assert_each(self, whole, cases):
        """Each case has lists of changes that are made one after the other."""
        for number, (changes, found) in enumerate(cases):
            self.assert_found(with_bytes(whole, *changes), found, f"case {number}")

    def assert_in_turn(self, image, turns):
        """Bytes are changed one after the other. Each time the finding that comes first is
        reported."""
        for at, byte, found in turns:
            image = with_bytes(image, [(at, byte)])
            self.assert_found(image, found, f"{byte} at {at}")


# Single changed bytes of a small store with two rows, and what is found.
TWO_ROWS = {"active_rows": 2, "charge": 2}
BYTES = [
    # the header's commit byte, the magic bytes and the version
    (0, 0x00, UNKNOWN),
    (0, 0xFF, UNKNOWN),
    (1, ord("s"), UNKNOWN),
    (8, ord("I"), UNKNOWN),
    (9, 1, UNKNOWN),
    (12, 0, UNKNOWN),
    (12, 3, UNKNOWN),
    (12, 9, UNKNOWN),
    # under version 2 a slot has digests
    (12, 2, SLOT_0),
    # the six numbers: each past its limits, or within them with another size
    (16, 0, HEADER),
    (15, 0x11, HEADER),
    (20, 3, HEADER),
    (24, 0, HEADER),
    (24, 9, HEADER),
    (28, 1, HEADER),
    (28, 9, HEADER),
    (32, 0, HEADER),
    (32, 17, HEADER),
    (36, 0, HEADER),
    (33, 2, HEADER),
    (28, 3, LENGTH),
    (32, 1, LENGTH),
    # manifest slot 0: commit byte, generation, active log, count of frozen logs, count of hash stores,
    # sorted region and count
    (4096, 0x00, NO_SLOT),
    # the bit that says that digests follow; they are zeros
    (4097, 0x80, SORTED_DIGEST),
    (4097, 1, report(**TWO_ROWS, generation=1 << 56)),
    (4104, 1, SLOT_0),
    (4104, 2, report(**TWO_ROWS, generation=2)),
    (4108, 1, report(active=1)),
    (4108, 2, SLOT_0),
    (4112, 1, SLOT_0),
    (4144, 1, report(**TWO_ROWS, hashes=1)),
    # hash region 0 is named twice
    (4144, 2, SLOT_0),
    (4144, 3, SLOT_0),
    (4212, 1, report(**TWO_ROWS)),
    (4212, 2, SLOT_0),
    (4216, 1, report(active_rows=2, entries=1, charge=3)),
    # two sorted entries, both with keys of zeros, and more entries than there is room for
    (4216, 2, entry(1)),
    (4216, 9, SLOT_0),
    (4217, 1, report(**TWO_ROWS)),
    # slot 1 with generation 0, which belongs into slot 0
    (8192, 0xA7, SLOT_1),
    (8192, 0xFF, report(**TWO_ROWS)),
    # the rows: their commit bytes from 12,288 on, and their kinds from 16,384 on, 23 bytes apart
    (16384, 3, log(0, 0)),
    (16407, 0, log(0, 1)),
    (16407, 255, log(0, 1)),
    (16430, 3, report(**TWO_ROWS)),
    (12288, 0xFF, report()),
    (12289, 0x00, report(active_rows=1, charge=1)),
    # more puts than there may be sorted entries
    (36, 1, CHARGE),
    (36, 2, report(**TWO_ROWS)),
]

# Devices of this length: the first bytes of that one and a byte more. Two of them have another
# number of buckets.
CUTS = [
    (0, [], UNKNOWN),
    (36, [], UNKNOWN),
    (37, [], LENGTH),
    (12288, [], LENGTH),
    (45055, [], LENGTH),
    (45057, [], LENGTH),
    (45055, [(20, 3)], HEADER),
    (45057, [(20, 3)], HEADER),
]

IN_TURN = [
    (36, 1, CHARGE),
    (16407, 3, log(0, 1)),
    (16384, 3, log(0, 0)),
    (4096, 0, NO_SLOT),
    (28, 3, LENGTH),
    (20, 3, HEADER),
    (12, 9, UNKNOWN),
]


class TwoRows(FindingCase):
    """A small store with two acknowledged rows."""

    def setUp(self):
        super().setUp()
        self.whole = self.new(SMALL, [f"put {key(1)} 0001", f"put {key(2)} 0002", "flush"])

    def test_each_byte(self):
        self.assert_found(self.whole, report(**TWO_ROWS))
        for at, byte, found in BYTES:
            self.assert_found(with_bytes(self.whole, [(at, byte)]), found, f"{byte} at {at}")

    def test_other_lengths(self):
        """Shorter than a header, or of another length than the header says. Bad numbers come before
        the length."""
        for length, changes, found in CUTS:
            self.assert_found(
                with_bytes((self.whole + b"\0")[:length], changes), found, f"length {length}"
            )

    def test_the_first_damage(self):
        self.assert_in_turn(self.whole, IN_TURN)


# A store of two buckets and logs of eight rows, with something in each part. The active log has the
# keys 1 to 4, which fill a bucket, and after a closed commit byte key 5 of the same bucket. Log 1 is
# frozen and has key 0. Hash store 0 has the keys 0 and 1, and a mark in slot 4. Hash store 1 is
# older and empty. There are three sorted entries.
WHOLE = [
    (4112, 1), (4116, 1),
    (12288, 0xA7), (12289, 0xA7), (12290, 0xA7), (12291, 0xA7),
    (16384, 1), (16385, 1),
    (16407, 1), (16408, 2),
    (16430, 1), (16431, 3),
    (16453, 1), (16454, 4),
    (16476, 1), (16477, 5),
    (20480, 0xA7), (24576, 1),
    (4144, 2), (4152, 1),
    (28672, 1), (28695, 1), (28696, 1), (28764, 2), (28766, 1),
    (4216, 3), (36864, 1), (36886, 2), (36908, 2), (36927, 1),
    # values, which no opening reads
    (16406, 9), (28694, 9), (28717, 9), (36885, 9), (36907, 9),
]
OF_WHOLE = report(
    active_rows=4, frozen=1, frozen_rows=1, hashes=2, hash_rows=3, entries=3, charge=10
)

# One finding each, in the order in which an opening looks for them.
PLANTS = [
    ([(0, 0x00)], UNKNOWN),
    ([(5, ord("f"))], UNKNOWN),
    ([(12, 9)], UNKNOWN),
    ([(16, 0)], HEADER),
    ([(20, 3)], HEADER),
    ([(28, 9)], HEADER),
    ([(32, 1)], LENGTH),
    # the active log is frozen too; log 1 is frozen twice; a third hash store; a hash store twice
    ([(4108, 1)], SLOT_0),
    ([(4112, 2), (4120, 1)], SLOT_0),
    ([(4144, 3)], SLOT_0),
    ([(4152, 0)], SLOT_0),
    ([(8192, 0xA7)], SLOT_1),
    ([(16407, 3)], log(0, 1)),
    ([(12292, 0xA7)], CROWDED),
    ([(24576, 0)], log(1, 0)),
    # the key of slot 0 again; a row outside its key's buckets; an unknown kind
    ([(28741, 2)], hashed(0, 3)),
    ([(28787, 1)], hashed(0, 5)),
    ([(28833, 3)], hashed(0, 7)),
    ([(32768, 0xA7)], hashed(1, 0)),
    ([(36886, 1)], entry(1)),
    ([(36908, 1)], entry(2)),
    ([(36, 9)], CHARGE),
]
# How many of them are in the header.
IN_HEADER = 6
# No slot is open. That is found after damage in slot 1, and before damage in what the slots name.
CLOSED = [(4096, 0x00)]


class EachPart(FindingCase):
    """A store with something in each part."""

    def setUp(self):
        super().setUp()
        self.whole = with_bytes(self.new(EIGHT), WHOLE)

    def test_as_it_is(self):
        self.assert_found(self.whole, OF_WHOLE)

    def test_the_first_of_each_two(self):
        """Each damage is found alone, and of each two damages the first in the order is
        reported."""
        for number, (first, found) in enumerate(PLANTS):
            for second, _ in PLANTS[number:]:
                self.assert_found(
                    with_bytes(self.whole, first, second), found, f"{first} and {second}"
                )

    def test_no_slot_is_open(self):
        """Then neither slot 0 nor what the slots name is looked at."""
        for number, (plant, found) in enumerate(PLANTS):
            comes_before = number <= IN_HEADER or found == SLOT_1
            self.assert_found(
                with_bytes(self.whole, plant, CLOSED),
                found if comes_before else NO_SLOT,
                f"{plant}",
            )

    def test_one_byte_short(self):
        """Only damage of the header is found before that."""
        for number, (plant, found) in enumerate(PLANTS):
            self.assert_found(
                with_bytes(self.whole[:-1], plant),
                found if number < IN_HEADER else LENGTH,
                f"{plant}",
            )


# The commit bytes of log 0 are at 12,288 and its bodies at 16,384, 23 bytes each; those of log 1 at 20,480
# and 24,576. Log 0 has a put and a delete, and log 1, which is frozen, a put.
THREE_ROWS = [
    (4112, 1),
    (4116, 1),
    (12288, 0xA7),
    (12289, 0xA7),
    (16384, 1),
    (16407, 2),
    (16408, 7),
    (20480, 0xA7),
    (24576, 1),
]
OF_THREE_ROWS = {"active_rows": 2, "frozen": 1, "frozen_rows": 1}
# The rows of a log end at the first closed commit byte. A row after that does not count, though its commit byte
# is open.
CUT_OFF = [(12288, 0xA7), (12290, 0xA7), (16384, 1), (16407, 3), (16430, 3)]
# The slots of hash store 0 begin at 28,672, with 23 bytes each, and the first four of them are
# bucket 0. That bucket has two puts, and slot 4 has a delete of a key of bucket 1.
HASHED_ROWS = [(4144, 1), (28672, 1), (28695, 1), (28696, 1), (28764, 2), (28766, 1)]
ROWS = [
    ([THREE_ROWS], report(**OF_THREE_ROWS, charge=2)),
    ([CUT_OFF], report(active_rows=1, charge=1)),
    ([THREE_ROWS, HASHED_ROWS], report(**OF_THREE_ROWS, hashes=1, hash_rows=3, charge=4)),
]

# Hash store 1, whose slots begin at 32,768, is the newest. Hash store 0 comes after it.
TWO_HASHED = [(4144, 2), (4148, 1)]
BOTH_DAMAGED = [(28672, 3), (32929, 3)]
# Each of the eight slots of hash store 1 has a put. Its key begins with the number of the slot and
# belongs into that slot's bucket.
EIGHT_HASHED = [(32768 + 23 * slot, 1) for slot in range(8)]
EIGHT_HASHED += [(32769 + 23 * slot, slot) for slot in range(8)]
EIGHT_HASHED += [(32770 + 23 * slot, slot // 4) for slot in range(8)]
# A put, and a delete, in slot 3 of hash store 0.
PUT_HASHED = [(28741, 1), (28742, 3)]
DELETE_HASHED = [(28741, 2)]
# The store may have as many as eight puts. With one more in the older hash store there are too
# many, but a delete there does not count.
HASHED = [
    ([TWO_HASHED, BOTH_DAMAGED], hashed(1, 7)),
    ([TWO_HASHED, BOTH_DAMAGED, [(4148, 0), (4152, 1)]], hashed(0, 0)),
    ([TWO_HASHED, EIGHT_HASHED], report(hashes=2, hash_rows=8, charge=8)),
    ([TWO_HASHED, EIGHT_HASHED, PUT_HASHED], CHARGE),
    (
        [TWO_HASHED, EIGHT_HASHED, PUT_HASHED, DELETE_HASHED],
        report(hashes=2, hash_rows=9, charge=8),
    ),
]

# The entries of sorted region 0 begin at 36,864 and those of region 1 at 40,960, with 22 bytes
# each: a key and its value. The first two keys differ in their first byte, the last two in their
# last one.
THREE_ENTRIES = [(4216, 3), (36864, 1), (36886, 2), (36908, 2), (36927, 1)]
# The manifest names sorted region 1. Its three entries rise, and those of region 0 do not.
OTHER_REGION = [(4212, 1)]
OTHER_ENTRIES = [(40982, 1), (41004, 2), (36886, 0)]
SORTED = [
    ([THREE_ENTRIES], report(entries=3, charge=3)),
    (
        [THREE_ENTRIES, THREE_ROWS, HASHED_ROWS],
        report(**OF_THREE_ROWS, hashes=1, hash_rows=3, entries=3, charge=7),
    ),
    ([[(4216, 1)]], report(entries=1, charge=1)),
    ([THREE_ENTRIES, OTHER_REGION], entry(1)),
    ([THREE_ENTRIES, OTHER_REGION, OTHER_ENTRIES], report(entries=3, charge=3)),
]

# Eight entries whose keys rise in their first byte.
EIGHT_ENTRIES = [(4216, 8)] + [(36864 + 22 * number, number) for number in range(1, 8)]
PUT_LOGGED = [(12288, 0xA7), (16384, 1)]
DELETE_LOGGED = [(16384, 2)]
# An entry is damaged if its key is not above the one before it, and the first such entry is
# reported. Eight entries fill the store, so a put in the log is too many, and a delete is not.
# Damaged entries come before the number of puts.
RISING = [
    ([THREE_ENTRIES, [(36864, 5), (36886, 4), (36908, 3)]], entry(1)),
    ([THREE_ENTRIES, [(36927, 0)]], entry(2)),
    ([EIGHT_ENTRIES], report(entries=8, charge=8)),
    ([EIGHT_ENTRIES, [(36996, 8)]], entry(7)),
    ([EIGHT_ENTRIES, PUT_LOGGED], CHARGE),
    ([EIGHT_ENTRIES, PUT_LOGGED, DELETE_LOGGED], report(active_rows=1, entries=8, charge=8)),
    ([EIGHT_ENTRIES, PUT_LOGGED, [(37018, 6)]], entry(7)),
]

# Changes of an empty store, and bytes that are then changed one after the other.
TURNS = [
    # the number of puts; kinds of rows; the commit byte of the first row, after which no row counts
    ([THREE_ROWS], [
        (36, 1, CHARGE),
        (24576, 3, log(1, 0)),
        (16407, 0, log(0, 1)),
        (16384, 3, log(0, 0)),
        (12288, 0xFF, log(1, 0)),
    ]),
    # a row of an unknown kind, then one in another bucket than its key's, then one with the key of
    # an earlier slot. The logs are looked at before that.
    ([HASHED_ROWS], [
        (36, 1, CHARGE),
        (28833, 3, hashed(0, 7)),
        (28811, 2, hashed(0, 7)),
        (28810, 1, hashed(0, 6)),
        (28789, 1, hashed(0, 6)),
        (28787, 1, hashed(0, 5)),
        (12288, 0xA7, log(0, 0)),
    ]),
    # two keys are equal, whatever their values; then one is below the key before it; then an
    # earlier one is. The hash stores and the logs are looked at before that.
    ([HASHED_ROWS, THREE_ENTRIES], [
        (36927, 0, entry(2)),
        (36928, 9, entry(2)),
        (36908, 1, entry(2)),
        (36886, 1, entry(1)),
        (36886, 0, entry(1)),
        (28833, 3, hashed(0, 7)),
        (12288, 0xA7, log(0, 0)),
    ]),
]

# The keys 01.. to 05.. fall into one bucket, of four slots.
FIVE_ROWS = [(12288 + row, 0xA7) for row in range(5)]
FIVE_ROWS += [it for row in range(5) for it in ((16384 + 23 * row, 1), (16385 + 23 * row, row + 1))]


class Crafted(FindingCase):
    """Empty stores with rows and entries that are written by hand."""

    def test_rows_and_entries(self):
        whole = self.new(SMALL)
        for cases in (ROWS, HASHED, SORTED, RISING):
            self.assert_each(whole, cases)

    def test_one_damage(self):
        """Slot 1 of generation 0, two entries of one key, a row of kind 3, the last byte missing,
        all bytes zeros."""
        whole = self.new(SMALL)
        self.assert_each(whole, [([[(8192, 0xA7)]], SLOT_1), ([[(4216, 2)]], entry(1)),
                                 ([[(12288, 0xA7), (16384, 3)]], log(0, 0))])
        self.assert_found(whole[:-1], LENGTH)
        self.assert_found(bytes(len(whole)), UNKNOWN)

    def test_the_first_damage(self):
        whole = self.new(SMALL)
        for changes, turns in TURNS:
            self.assert_in_turn(with_bytes(whole, *changes), turns)

    def test_a_crowded_log(self):
        whole = self.new(EIGHT)
        self.assert_found(with_bytes(whole, FIVE_ROWS), CROWDED)
        self.assert_found(
            with_bytes(whole, FIVE_ROWS, [(12292, 0)]), report(active_rows=4, charge=4)
        )


class NewStore(FindingCase):
    version = 2

    def test_its_bytes_are_zeros(self):
        """Behind the header and the manifest."""
        whole = self.new(SMALL)
        numbers = "000000020000000200000004000000020000000200000008"
        self.assertEqual(whole[:37].hex(), "a753494c54464c534800000002" + numbers)
        self.assertEqual(whole[4096:4557], b"\xa7" + manifest(0, 0))
        self.assertEqual(
            [at for at in (*range(37, 4096), *range(4557, len(whole))) if whole[at]], []
        )
        self.assert_found(whole, report(layout=2))


# A store with logs of one row. Key 1 was merged into sorted region 1. Key 2 is in hash store 0, and
# key 3 in hash store 1, the newest. Key 4 waits in log 1. Slot 1 of the manifest is current, with
# generation 7. In generation 6 log 0 is frozen in place of hash store 1.
CONVERT = ["convert"] * 9
MERGE = ["merge"] * 10
THREE_STORES = [
    f"put {key(1)} 0001",
    f"put {key(2)} 0002",
    *CONVERT,
    *MERGE,
    f"put {key(3)} 0003",
    *CONVERT,
    f"put {key(4)} 0004",
    *CONVERT,
]
IN_STORES = {"generation": 7, "active": 1, "hashes": 2, "hash_rows": 2, "entries": 1, "charge": 3}
OF_STORES = report(2, **IN_STORES)
OF_OLD_STORES = report(1, **IN_STORES)
# Changes of one byte each: in the value of an entry, of a row of the older hash store, and of a row
# of the newest one.
ENTRY = [(40981, 9)]
OLDER_ROW = [(28694, 9)]
NEWEST_ROW = [(32790, 9)]
# Slots of an unknown kind: the first one of the older hash store, and the second one of each.
OLDER_SLOT_0 = [(28672, 3)]
OLDER_SLOT_1 = [(28695, 3)]
NEWEST_SLOT_1 = [(32791, 3)]
# The header has version 1. The current slot says that no digests follow, and so does the other
# slot.
OLD = [(12, 1)]
SHORT = [(8193, 0x00)]
OTHER_SHORT = [(4097, 0x00)]
# A digest is compared after the slots or entries of its own store are looked at, and before the
# next store.
OF_DIGESTS = [
    ([], OF_STORES),
    ([OLDER_ROW], OLDER),
    ([NEWEST_ROW], NEWEST),
    ([OLDER_ROW, NEWEST_ROW], NEWEST),
    ([NEWEST_ROW, NEWEST_SLOT_1], hashed(1, 1)),
    ([NEWEST_ROW, OLDER_SLOT_0], NEWEST),
    ([OLDER_ROW, OLDER_SLOT_1], hashed(0, 1)),
    ([ENTRY, OLDER_ROW], OLDER),
    # one entry more, whose key is zeros
    ([ENTRY, [(8312, 2)]], entry(1)),
    ([ENTRY, [(36, 1)]], SORTED_DIGEST),
    ([[(36, 1)]], CHARGE),
]
# On a device of version 2 each open slot has digests. On one of version 1 it may have none. Then
# none is compared, whatever is there, and the layout that is reported follows from the current
# slot.
OF_VERSIONS = [
    ([SHORT], SLOT_1),
    ([OTHER_SHORT], SLOT_0),
    ([OLD], OF_STORES),
    ([OLD, OTHER_SHORT], OF_STORES),
    ([OLD, OTHER_SHORT, OLDER_ROW], OLDER),
    ([OLD, SHORT], OF_OLD_STORES),
    ([OLD, SHORT, NEWEST_ROW, OLDER_ROW, ENTRY], OF_OLD_STORES),
    ([OLD, SHORT, OLDER_SLOT_0], hashed(0, 0)),
    # the current slot is closed
    (
        [[(8192, 0)]],
        report(
            2,
            generation=6,
            active=1,
            frozen=1,
            frozen_rows=1,
            hashes=1,
            hash_rows=1,
            entries=1,
            charge=3,
        ),
    ),
]
# The same device without digests. If a slot then says that it has digests, they are zeros. They are
# compared only if the slot is current.
OF_VERSION_1 = [
    ([], OF_OLD_STORES),
    ([NEWEST_ROW, OLDER_ROW, ENTRY], OF_OLD_STORES),
    ([[(4097, 0x80)]], OF_OLD_STORES),
    ([[(8193, 0x80)]], NEWEST),
    ([[(12, 2)]], SLOT_0),
]
# The digests of the current slot: where each field begins, its length, and what is found if one of
# its bytes is another. Nothing compares the digests past the two hash stores, nor those of the
# other slot.
FIELDS = [
    (8313, 20, NEWEST),
    (8333, 20, OLDER),
    (8353, 280, OF_STORES),
    (8633, 20, SORTED_DIGEST),
    (8653, 3, OF_STORES),
    (4217, 340, OF_STORES),
]


class WithDigests(FindingCase):
    version = 2

    def setUp(self):
        super().setUp()
        self.whole = self.new(ONE, THREE_STORES)

    def test_digests(self):
        self.assert_each(self.whole, OF_DIGESTS)

    def test_versions(self):
        self.assert_each(self.whole, OF_VERSIONS)

    def test_each_byte_of_a_digest(self):
        for begin, count, found in FIELDS:
            for at in range(begin, begin + count):
                image = with_bytes(self.whole, [(at, self.whole[at] ^ 1)])
                self.path("store").write_bytes(image)
                self.assertEqual(
                    self.check_report().lines,
                    [found] if isinstance(found, str) else found,
                    f"byte {at}",
                )

    def test_exchanged_digests(self):
        """That of the newest hash store is compared first."""
        newest = self.whole[8313:8333]
        older = self.whole[8333:8353]
        self.assert_found(self.whole[:8313] + older + newest + self.whole[8353:], NEWEST)


class WithoutDigests(FindingCase):
    def test_no_digest_is_compared(self):
        self.assert_each(self.new(ONE, THREE_STORES), OF_VERSION_1)


class Frozen(FindingCase):
    """What a check reports after the first log was frozen."""

    version = 2

    def assert_filled(self, keys, frozen_rows):
        """After puts of these keys all are found. The last one is in the next log."""
        puts = [f"put {key(*it)} 00{it[4]:02x}" for it in keys]
        gets = [f"get {key(*it)}" for it in keys]
        self.new(EIGHT, [*puts, "flush"])
        replies = self.silt("run", "store", text="".join(line + "\n" for line in gets)).lines
        self.assertEqual(replies, ["opened", *(f"value 00{it[4]:02x}" for it in keys)])
        self.assertEqual(
            self.check_report().lines,
            report(
                2,
                generation=1,
                active=1,
                active_rows=1,
                frozen=1,
                frozen_rows=frozen_rows,
                charge=frozen_rows + 1,
            ),
        )

    def test_five_keys_of_one_bucket(self):
        """The fifth finds no place."""
        self.assert_filled([(it, 0, 0, 0, 0) for it in range(1, 6)], 4)

    def test_nine_keys_of_two_buckets(self):
        self.assert_filled([(0, 0, 0, 1, it) for it in range(1, 10)], 8)

    def test_the_manifest_names_the_frozen_log(self):
        whole = self.new(SMALL, [f"put {key(it)} 00{it:02x}" for it in range(1, 6)])
        self.assertEqual(whole[8192:8653], b"\xa7" + manifest(1, 1, frozen=[0]))
        self.assertEqual(whole[4096:4098], b"\xa7\x80")


class LongestValues(FindingCase):
    version = 2

    def test_a_value_of_4096_bytes(self):
        """It is found by a get and by a dump, also after the store is opened again."""
        value = "07" * 4096
        name = key(1)
        self.new("4096 2 4 2 2 8")
        self.assertEqual(Layout.of("4096 2 4 2 2 8").size, len(self.image()))
        ran = self.silt("run", "store", text=f"put {name} {value}\nflush\nget {name}\n")
        self.assertEqual(ran.lines, ["opened", "accepted 1", "acknowledged 1", f"value {value}"])
        self.assertEqual(
            self.silt("run", "store", text=f"get {name}\n").lines, ["opened", f"value {value}"]
        )
        self.assertEqual(self.silt("dump", "store").lines, [f"put {name} {value}"])


if __name__ == "__main__":
    unittest.main()
