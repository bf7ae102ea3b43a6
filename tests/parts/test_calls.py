"""The order of the calls of the system: which writes and syncs each call of the store makes, and
how many reads.

What is due is worked out of the table in docs/layout.md: the device calls of each call of the
store. A disk in a file has three buffers of adjacent writes, and makes those of a buffer one write:
before a sync, when its room is full, and when a fourth place is written.

On a device of version 1 the same calls are due: the classes with `OfVersion1` run all tests there.
"""
from commands import Commands
from engine import SYNC, Engine
from harness import PROVED, scaled
from layout import (
    CLOSED,
    DELETE,
    HEADER_LEN,
    KEY_LEN,
    OPEN,
    PUT,
    ROW_HEAD,
    SLOT_LEN,
    SLOTS,
    Layout,
    closing_place,
    manifest,
    slot_of,
)
from watch import WatchedCase

# How many buffers a disk in a file has, and how many bytes fit one.
BUFFERS = 3
ROOM = 65536
# The mark of a shard: a run and a server read it before they open a store, and a format before it formats.
MARK = (2048, 37)
# What each opening and each check reads first: the header and the two manifest slots.
HEAD = [(0, HEADER_LEN), (SLOTS[0], SLOT_LEN), (SLOTS[1], SLOT_LEN)]
G = "2 2 4 2 2 8"
# Keys whose two buckets are both bucket 0 of two. The first bucket of LATER is bucket 1.
A, B, C, D, E = (f"{n:02}".ljust(40, "0") for n in range(1, 6))
LATER = "0001".ljust(40, "0")


class Buffers:
    """The calls of the system that device calls become. The buffer that was used last is the
    first."""

    def __init__(self):
        self.calls = []
        self.held = [(0, b"")] * BUFFERS

    def go_out(self):
        """The last buffer is written out, and the first is an empty one."""
        at, held = self.held.pop()
        if held:
            self.calls.append(("pwrite", at, held))
        self.held.insert(0, (0, b""))

    def continued(self, at, count):
        """The first buffer that so many bytes from there continue, or an empty one, if they fit it
        and it overlaps none before it."""
        for n, (start, held) in enumerate(self.held):
            begins = at == start + len(held) or not held
            apart = all(
                not held or not other or start + len(held) <= first or first + len(other) <= start
                for first, other in self.held[:n]
            )
            if begins and len(held) + count <= ROOM and apart:
                return n
        return None

    def write(self, at, data):
        n = self.continued(at, len(data))
        if n is None:
            for _ in range(1 if len(data) <= ROOM else BUFFERS):
                self.go_out()
            if len(data) > ROOM:
                return self.calls.append(("pwrite", at, data))
            n = 0
        start, held = self.held.pop(n)
        self.held.insert(0, (start if held else at, held + data))

    def read(self, at, count):
        """A read makes no call if a buffer has all its bytes."""
        if not any(start <= at <= at + count <= start + len(held) for start, held in self.held):
            self.calls.append(("pread", at, count))

    def make(self, device_calls):
        """Makes these device calls. The calls of the system that come of it."""
        self.calls = []
        for call in device_calls:
            if call == SYNC:
                for _ in range(BUFFERS):
                    self.go_out()
                self.calls.append(SYNC)
            elif call[0] == "pread":
                self.read(*call[1:])
            else:
                self.write(*call)
        return self.calls


class Rules:
    """The device calls of the table, for one layout."""

    def __init__(self, words):
        self.layout = Layout.of(words)

    def row(self, log, place, kind, key, value=None):
        at = self.layout.bodies(log) + place * self.layout.row_len
        row = self.layout.row(kind, key, value)
        return [(at, row[:ROW_HEAD]), (at + ROW_HEAD, row[ROW_HEAD:])]

    def flush(self, log, first, count):
        return [SYNC, (self.layout.commits(log) + first, OPEN * count), SYNC]

    def prepare(self, log):
        return [(self.layout.commits(log), CLOSED * self.layout.rows), SYNC]

    def manifest(self, body, is_closed):
        """The writes of a manifest's body, into a slot whose commit byte is closed already or not."""
        slot = slot_of(body[7])
        return [
            (closing_place(slot, is_closed), CLOSED),
            SYNC,
            (slot + 1, body),
            SYNC,
            (slot, OPEN),
            SYNC,
        ]

    def slot(self, region, slot, row=None):
        """A slot of a conversion, which without a row gets zeros."""
        at = self.layout.hash_region(region) + slot * self.layout.row_len
        return [(at, row or bytes(self.layout.row_len))]

    def slots(self, region, rows):
        """All slots of a conversion, one list for each step. These have rows."""
        return [self.slot(region, n, rows.get(n)) for n in range(self.layout.slots)]

    def hash_store(self, region, rows):
        """A hash store as a manifest names it: its region and the bytes of its slots."""
        return region, b"".join(data for ((_, data),) in self.slots(region, rows))

    def entry(self, region, place, key, value):
        entry = self.layout.row(PUT, key, value)[1:]
        return [(self.layout.sorted_region(region) + place * self.layout.entry_len, entry)]

    def entries(self, pairs):
        """The sorted entries of these keys and values, as a manifest names them."""
        return [self.layout.row(PUT, key, value)[1:] for key, value in pairs if value]

    def empty_store(self):
        """What formatting writes."""
        return (
            [(0, CLOSED), SYNC, (SLOTS[1], CLOSED)]
            + self.prepare(0)
            + self.manifest(manifest(0, 0), False)
            + [(1, self.layout.header), SYNC, (0, OPEN), SYNC]
        )


def changes(calls):
    """The writes and syncs of the store's file."""
    made = {"pwrite": lambda it: ("pwrite", it.at, it.data), "fdatasync": lambda _: SYNC}
    made |= {name: lambda it: (it.name, it.file) for name in ("fsync", "ftruncate")}
    return [made[it.name](it) for it in calls if it.name in made]


def reads(calls):
    """The reads of the store's file: their offsets and lengths."""
    return [(it.at, it.asked) for it in calls if it.name == "pread"]


def by_line(calls):
    """The calls before `opened`, and then those after each reply up to the next."""
    parts = [[]]
    for call in calls:
        if call.file == "standard output":
            parts.append([])
        else:
            parts[-1].append(call)
    return parts[:-1]


class CallCase(WatchedCase):
    def calls_of(self, lines, **plans):
        """The calls that opening and each of these lines make."""
        return by_line(self.record_by_lines(lines, **plans)[1])

    def judge(self, steps, **plans):
        """Judges the writes and syncs of lines, of which each comes with the device calls that
        are due."""
        buffers = Buffers()
        got = self.calls_of([line for line, _ in steps], **plans)[1:]
        for (line, device_calls), calls in zip(steps, got, strict=True):
            self.assertEqual(changes(calls), buffers.make(device_calls), line)
        return got


class Writes(CallCase):
    """Writes and syncs, with the geometry 2 2 4 2 2 8: logs of four rows, tables of eight slots."""

    def setUp(self):
        super().setUp()
        self.rules = Rules(G)

    def put(self, place, key, value, log=0):
        return f"put {key} {value}", self.rules.row(log, place, PUT, key, value)

    def fill(self, log=0):
        """The puts of four rows into an empty log, and the flush after them."""
        puts = [self.put(n, key, f"000{n + 1}", log) for n, key in enumerate((A, B, C, D))]
        return [*puts, ("flush", self.rules.flush(log, 0, 4))]

    def rows(self, count=4):
        """The rows of such a log, by their slots in the table: all four in the first bucket."""
        keys = (A, B, C, D)[:count]
        return {n: self.rules.layout.row(PUT, key, f"000{n + 1}") for n, key in enumerate(keys)}

    def freeze(self, body, is_closed, log=1):
        return self.rules.prepare(log) + self.rules.manifest(body, is_closed)

    def converted(self, rows):
        """The manifest behind the first conversion."""
        return manifest(2, 1, hashes=[self.rules.hash_store(0, rows)])

    def convert(self, rows, body, is_closed, region=0):
        """All steps of a conversion: each slot, and the manifest that names the hash store."""
        slots = [("convert", it) for it in self.rules.slots(region, rows)]
        return [*slots, ("convert", [SYNC, *self.rules.manifest(body, is_closed)])]

    def frozen_log(self):
        """Log 0 is frozen, and the first row of log 1 is settled."""
        first = manifest(1, 1, frozen=[0])
        put = self.rules.row(1, 0, PUT, E, "0005")
        return (
            self.fill()
            + [
                (f"put {E} 0005", self.freeze(first, True) + put),
                ("flush", self.rules.flush(1, 0, 1)),
            ]
        )

    def hash_store(self):
        """And then log 0 is converted."""
        return self.frozen_log() + self.convert(self.rows(), self.converted(self.rows()), False)

    def test_puts_and_flushes(self):
        self.store(G)
        self.judge(
            [
                self.put(0, A, "0102"),
                ("flush", self.rules.flush(0, 0, 1)),
                ("flush", []),
                self.put(1, B, "0304"),
                self.put(2, C, "0506"),
                ("flush", self.rules.flush(0, 1, 2)),
            ]
        )

    def test_a_delete(self):
        self.store(G)
        self.judge(
            [(f"delete {A}", self.rules.row(0, 0, DELETE, A)), ("flush", self.rules.flush(0, 0, 1))]
        )

    def test_a_swap(self):
        """The two writes of a put if it is accepted, and else none."""
        self.store(G)
        swap = f"swap {A} 0102 0304", self.rules.row(0, 1, PUT, A, "0304")
        self.judge(
            [
                self.put(0, A, "0102"),
                swap,
                ("flush", self.rules.flush(0, 0, 2)),
                (swap[0], []),
                (f"swap {B} 0000 0304", []),
                ("flush", []),
            ]
        )

    def test_swaps_from_and_to_no_value(self):
        """The two writes of a put or of a delete if they are accepted, and else none."""
        self.store(G)
        first = f"swap {A} - 0102", self.rules.row(0, 0, PUT, A, "0102")
        last = f"swap {A} 0102 -", self.rules.row(0, 1, DELETE, A)
        self.judge(
            [
                (last[0], []),
                first,
                (first[0], []),
                ("flush", self.rules.flush(0, 0, 1)),
                (f"swap {A} - -", []),
                last,
                (last[0], []),
                ("flush", self.rules.flush(0, 1, 1)),
            ]
        )

    def test_a_swap_that_freezes(self):
        self.store(G)
        due = self.freeze(manifest(1, 1, frozen=[0]), True) + self.rules.row(1, 0, PUT, D, "0005")
        self.judge(
            self.fill()
            + [
                (f"swap {D} 0005 0004", []),
                (f"swap {D} 0004 0005", due),
                ("flush", self.rules.flush(1, 0, 1)),
            ]
        )

    def test_swaps_from_and_to_no_value_that_freeze(self):
        due = self.freeze(manifest(1, 1, frozen=[0]), True)
        for line, row in (
            (f"swap {E} - 0005", (PUT, E, "0005")),
            (f"swap {D} 0004 -", (DELETE, D)),
        ):
            self.store(G)
            differing = [(f"swap {D} - 0005", []), (f"swap {E} 0005 -", [])]
            self.judge(
                [
                    *self.fill(),
                    *differing,
                    (line, due + self.rules.row(1, 0, *row)),
                    ("flush", self.rules.flush(1, 0, 1)),
                ]
            )

    def test_lines_that_write_nothing(self):
        self.store(G)
        self.judge(
            [
                ("flush", []),
                (f"get {A}", []),
                ("convert", []),
                ("merge", []),
                ("pot", []),
                (f"put {A} 01", []),
                (f"swap {A} 0102 0304", []),
                (f"swap {A} 0102 03", []),
                (f"swap {A} 0102 -", []),
                (f"swap {A} - -", []),
            ]
        )

    def test_a_freeze_with_rows_waiting(self):
        self.store(G)
        due = self.rules.flush(0, 0, 4) + self.freeze(manifest(1, 1, frozen=[0]), True)
        self.judge(
            self.fill()[:-1] + [(f"put {E} 0005", due + self.rules.row(1, 0, PUT, E, "0005"))]
        )

    def test_a_freeze_with_none_waiting(self):
        self.store(G)
        self.judge(self.frozen_log())

    def test_a_delete_that_freezes(self):
        self.store(G)
        due = self.freeze(manifest(1, 1, frozen=[0]), True) + self.rules.row(1, 0, DELETE, E)
        self.judge(self.fill() + [(f"delete {E}", due), ("flush", self.rules.flush(1, 0, 1))])

    def test_no_room_and_a_full_store(self):
        self.store(G)
        puts = [self.put(n, key, "0009", 1) for n, key in enumerate((A, B, C), 1)]
        self.judge(
            self.frozen_log()
            + [
                *puts,
                (f"put {D} 0009", []),
                (f"delete {D}", []),
                (f"swap {D} 0004 0009", []),
                (f"swap {D} 0001 0009", []),
                (f"swap {D} 0004 -", []),
                (f"swap {LATER} - 0009", []),
            ]
        )

    def test_a_conversion(self):
        self.store(G)
        self.judge(self.hash_store() + [("convert", [])])

    def test_a_conversion_with_rows_waiting(self):
        """The bytes of a waiting row wait beside the slots, and its commit byte stays closed."""
        self.store(G)
        steps = self.convert(self.rows(), self.converted(self.rows()), False)
        row = self.put(1, A, "0006", 1)
        self.judge(self.frozen_log() + [row, *steps, ("flush", self.rules.flush(1, 1, 1))])

    def test_a_conversion_between_rows(self):
        """Slots and rows by turns are one write each, at the sync."""
        self.store(G)
        steps = self.convert(self.rows(), self.converted(self.rows()), False)
        rows = [self.put(1, A, "0006", 1), self.put(2, B, "0007", 1)]
        self.judge(self.frozen_log() + [steps[0], rows[0], steps[1], rows[1], *steps[2:]])

    def test_a_conversion_of_overwritten_rows(self):
        """Of each key the last row, in the key's slot; a delete is a row."""
        self.store(G)
        row = self.rules.layout.row
        puts = [
            self.put(0, A, "0001"),
            self.put(1, LATER, "0002"),
            self.put(2, A, "0003"),
            (f"delete {LATER}", self.rules.row(0, 3, DELETE, LATER)),
            ("flush", self.rules.flush(0, 0, 4)),
        ]
        freeze = (
            self.freeze(manifest(1, 1, frozen=[0]), True) + self.rules.row(1, 0, PUT, E, "0005")
        )
        slots = {0: row(PUT, A, "0003"), 4: row(DELETE, LATER)}
        self.judge(
            [
                *puts,
                (f"put {E} 0005", freeze),
                ("flush", self.rules.flush(1, 0, 1)),
                *self.convert(slots, self.converted(slots), False),
            ]
        )

    def merge(self, entries, body, gathered=8, region=1):
        """All steps of a merge: slots that are gathered, keys with their values or None, and the
        manifest."""
        steps = [("merge", [])] * gathered
        place = 0
        for key, value in entries:
            steps.append(("merge", self.rules.entry(region, place, key, value) if value else []))
            place += value is not None
        return [*steps, ("merge", [SYNC, *self.rules.manifest(body, False)])]

    def merged(self):
        """And then the hash store is merged into sorted region 1."""
        entries = [(A, "0001"), (B, "0002"), (C, "0003"), (D, "0004")]
        return (
            self.hash_store()
            + self.merge(entries, manifest(3, 1, region=1, entries=self.rules.entries(entries)))
        )

    def test_a_merge(self):
        self.store(G)
        self.judge(self.merged() + [("merge", [])])

    def test_a_merge_between_rows(self):
        """Entries and rows by turns are one write each, at the sync."""
        self.store(G)
        steps = self.merged()
        row = self.put(1, A, "0006", 1)
        self.judge([*steps[:-4], row, *steps[-4:]])

    def test_a_merge_of_overwritten_and_deleted_keys(self):
        """The next merge: a deleted key is left out, an overwritten one and an old entry are
        written."""
        self.store(G)
        row = self.rules.layout.row
        lines = [
            (f"delete {B}", self.rules.row(1, 1, DELETE, B)),
            self.put(2, C, "0007", 1),
            ("flush", self.rules.flush(1, 1, 2)),
            self.put(3, LATER, "0008", 1),
            ("flush", self.rules.flush(1, 3, 1)),
        ]
        old = self.rules.entries([(A, "0001"), (B, "0002"), (C, "0003"), (D, "0004")])
        freeze = self.freeze(manifest(4, 0, frozen=[1], region=1, entries=old), False, log=0)
        lines.append((f"put {D} 0009", freeze + self.rules.row(0, 0, PUT, D, "0009")))
        slots = {
            0: row(PUT, E, "0005"),
            1: row(DELETE, B),
            2: row(PUT, C, "0007"),
            4: row(PUT, LATER, "0008"),
        }
        body = manifest(5, 0, hashes=[self.rules.hash_store(0, slots)], region=1, entries=old)
        entries = [(LATER, "0008"), (A, "0001"), (B, None), (C, "0007"), (D, "0004"), (E, "0005")]
        self.judge(
            self.merged()
            + lines
            + self.convert(slots, body, False)
            + self.merge(
                entries, manifest(6, 0, region=0, entries=self.rules.entries(entries)), region=0
            )
        )

    def test_a_conversion_beside_a_merge(self):
        """Their steps by turns are one write each, at the sync, and the hash store that comes stays
        in front."""
        words = "2 2 1 3 3 8"
        self.rules = Rules(words)
        first = [f"put {A} 0001", f"put {B} 0002", "flush"]
        second = [f"put {C} 0003", "flush"]
        self.store(words, [*first, *["convert"] * 9, *second, *["merge"] * 8])
        # Opening forgets the merge under way. Log 1 is frozen, and the hash store in region 0 has
        # key A.
        rows = {0: self.rules.layout.row(PUT, B, "0002")}
        old = self.rules.hash_store(0, {0: self.rules.layout.row(PUT, A, "0001")})
        new = self.rules.hash_store(1, rows)
        entries = [(A, "0001")]
        converts = self.convert(rows, manifest(4, 0, hashes=[new, old]), False, region=1)
        merges = self.merge(
            entries, manifest(5, 0, hashes=[new], region=1, entries=self.rules.entries(entries))
        )
        self.judge([*merges[:8], *converts[:4], merges[8], *converts[4:], merges[9]])

    def test_more_than_the_buffers_take(self):
        """Rows of 4,117 bytes: forty-five and the head of another fit the three buffers. The next
        bytes write out the buffer that was filled first."""
        words = "4096 16 64 2 2 64"
        self.rules = Rules(words)
        self.store(words)
        keys = [f"{n:04x}{n + 1:04x}".ljust(40, "0") for n in range(48)]
        puts = [self.put(n, key, f"{n:02x}" * 4096) for n, key in enumerate(keys)]
        got = self.judge([*puts, ("flush", self.rules.flush(0, 0, 48))])
        self.assertEqual([len(changes(it)) for it in got[44:47]], [0, 1, 0])

    def test_a_missing_sync_is_refused(self):
        """Sync 1 is the opening's, 2 and 3 are a flush's."""
        for number in (2, 3):
            self.store(G)
            with self.assertRaises(AssertionError):
                self.judge(
                    [self.put(0, A, "0102"), ("flush", self.rules.flush(0, 0, 1))],
                    drop=f"fdatasync:{number}",
                )


class WritesOfVersion1(Writes):
    version = 1


class Jobs(CallCase):
    """What the jobs of the program call, from the opening of the file on."""

    def opened(self, calls, flags, lock, file="store"):
        """Judges that the null device is opened for streams that may be closed, and then the file
        so, and that it is locked before anything else is done. Returns the rest."""
        null, first, second, *rest = [it for it in calls if it.file == file or it.name == "open"]
        self.assertEqual((null.name, null.file, null.asked & 0o303), ("open", "/dev/null", 0o2))
        self.assertEqual((first.name, first.file, first.asked & 0o303), ("open", file, flags))
        self.assertEqual((second.name, second.asked, second.result), ("flock", lock, 0))
        return rest

    def test_an_opening(self):
        self.store(G, [f"put {A} 0001", "flush"])
        calls = self.opened(self.calls_of([])[0], 0o2, 6)
        self.assertEqual(changes(calls), [("fsync", "store"), SYNC])
        self.assertEqual(reads(calls), [MARK, *HEAD, (12288, 4), (16384, ROW_HEAD)])
        self.assertEqual([it.name for it in calls[:4]], ["fsync", "pread", "fdatasync", "pread"])

    def test_an_opening_that_seals(self):
        """Commit bytes after the first closed one are open: those after it are closed, and it is not
        touched."""
        path = self.store(G, [f"put {A} 0001", "flush"])
        content = bytearray(path.read_bytes())
        content[12288:12292] = OPEN + CLOSED + OPEN + b"\x01"
        path.write_bytes(content)
        calls = self.opened(self.calls_of([])[0], 0o2, 6)
        self.assertEqual(
            changes(calls), [("fsync", "store"), SYNC, ("pwrite", 12290, bytes(2)), SYNC]
        )
        self.assertEqual(calls[-3].name, "pread", "the commit bytes are closed after the last read")

    def test_an_opening_with_other_closed_commit_bytes(self):
        """Bytes that open no commit byte are no reason to write."""
        path = self.store(G)
        content = bytearray(path.read_bytes())
        content[12288:12292] = b"\x01\x02\x00\xff"
        path.write_bytes(content)
        self.assertEqual(changes(self.calls_of([])[0]), [("fsync", "store"), SYNC])

    def judge_format(self, looks, filled, *options):
        """The folder is synced, what the file holds is looked at, and only then it is given its
        length, filled and synced. A file that is not there is made for this job alone."""
        due = Buffers().make(Rules(G).empty_store())
        held = self.path("store").read_bytes() if self.path("store").exists() else None
        ended, calls = self.recorded("format", "store", *G.split(), *options)
        self.assertEqual(ended.out, "formatted 45056\n")
        if held is not None:
            mine = next(it for it in calls if it.file == "store" and it.name == "open")
            self.assertEqual((mine.asked & 0o303, mine.error), (0o302, "EEXIST"))
            calls.remove(mine)
        rest = self.opened(calls, 0o302 if held is None else 0o102, 6)
        folder = [it for it in calls if it.file == "."]
        fill = [("pwrite", 0, (held or b"").ljust(45056, b"\0"))] if filled else []
        self.assertEqual(
            changes(folder + rest),
            [("fsync", "."), ("ftruncate", "store"), *fill, ("fsync", "store"), *due],
        )
        self.assertEqual([it.at for it in calls if it.name == "ftruncate"], [45056])
        names = [it.name for it in calls]
        at = names.index("ftruncate")
        self.assertLess(names.index("fsync"), at)
        self.assertEqual(reads(calls[:at]), looks, "what is lost")
        self.assertEqual(reads(calls[at:]), [(0, 45056), MARK] if filled else [MARK])

    def test_a_format(self):
        # Of a store it reads the header, what a check reads, and the header again for its numbers.
        check = [*HEAD, (12288, 4)]
        for options in ((), ("--sparse",)):
            self.path("store").unlink(missing_ok=True)
            for looks in ([], [*2 * HEAD[:1], *check]):
                self.judge_format(looks, not options, *options)
                if self.version == 1:
                    self.make_old()

    def test_a_check(self):
        """It reads what an opening reads, and the header once more for its numbers, and makes no
        sync."""
        self.store(G, [f"put {A} 0001", "flush"])
        calls = self.opened(self.recorded("check", "store")[1], 0o0, 5)
        self.assertEqual(changes(calls), [])
        self.assertEqual(reads(calls), [*HEAD, (12288, 4), (16384, ROW_HEAD), HEAD[0]])

    def test_a_run_that_tends(self):
        """A put that freezes finds the log frozen before converted: its steps come before the next
        line."""
        self.store(G)
        puts = [f"put {key} 0001" for key in (A, B, C, D, E)]
        _, plain = self.record_by_lines([*puts, *["convert"] * 9, f"get {A}"])
        self.store(G)
        ended, tended = self.recorded(
            "run", "store", "--tend", text="".join(f"{it}\n" for it in [*puts, f"get {A}"])
        )
        self.assertEqual(ended.lines[-1], "value 0001")
        self.assertEqual(changes(tended), changes(plain))

    def test_a_script_touches_no_file(self):
        ended, calls = self.recorded("script", *G.split(), text="put =a 0001\nflush\nget =a\n")
        self.assertEqual(ended.lines[-1], "value 0001")
        self.assertEqual(
            [it.file for it in calls if it.name in ("open", "pwrite", "fsync", "fdatasync")],
            ["/dev/null"],
        )

    def test_replies_come_after_the_last_sync(self):
        self.store(G)
        ended, calls = self.recorded("run", "store", text="put =abc 0102\nflush\n")
        names = [it.name for it in calls if it.file in ("store", "standard output")]
        self.assertEqual(
            names[-7:], ["write", "pwrite", "fdatasync", "pwrite", "fdatasync", "write", "close"]
        )


class JobsOfVersion1(Jobs):
    version = 1


# How many reads: tables of 64 buckets. Each key has two buckets of its own.
WIDE = "2 64 8 4 4 64"


def key(number, more=0):
    """The key with two buckets of its own, and others in the same two buckets."""
    return f"{number:04x}{32 + number:04x}{more:04x}".ljust(40, "0")


class Reads(CallCase):
    """How many reads each line makes. The docstrings say what the design needs."""

    def setUp(self):
        super().setUp()
        self.layout = Layout.of(WIDE)

    def row(self, place, length, log=0):
        return self.layout.bodies(log) + place * self.layout.row_len, length

    def slot(self, bucket, length, region=0):
        return self.layout.hash_region(region) + 4 * bucket * self.layout.row_len, length

    def judge_reads(self, steps):
        got = self.calls_of([line for line, _ in steps])[1:]
        for (line, due), calls in zip(steps, got, strict=True):
            self.assertEqual(reads(calls), due, line)

    def puts(self, numbers):
        return [f"put {key(n)} {n:04x}" for n in numbers]

    def test_keys_of_the_active_log(self):
        """A candidate costs one read: its head for a put, its row for a get. A buffered one
        costs none."""
        self.store(WIDE, self.puts(range(2)) + ["flush"])
        self.judge_reads(
            [
                (f"get {key(0)}", [self.row(0, 23)]),
                (f"get {key(9)}", []),
                (f"put {key(5)} 0001", []),
                (f"delete {key(6)}", []),
                (f"get {key(5)}", []),
                (f"put {key(5)} 0002", []),
                (f"delete {key(5)}", []),
                (f"get {key(5)}", []),
                (f"put {key(1)} 0002", [self.row(1, ROW_HEAD)]),
                (f"delete {key(0)}", [self.row(0, ROW_HEAD)]),
                ("flush", []),
                (f"get {key(0)}", [self.row(7, 23)]),
            ]
        )

    def test_keys_that_share_buckets(self):
        """Each candidate before the key's own costs a read, and so does each of an absent key."""
        first = key(3)
        second = key(3, 1)
        absent = key(3, 2)
        self.store(WIDE, [f"put {first} 0001", f"put {second} 0002", "flush"])
        both = [self.row(0, 23), self.row(1, 23)]
        self.judge_reads(
            [
                (f"get {first}", both[:1]),
                (f"get {second}", both),
                (f"get {absent}", both),
                (f"put {absent} 0003", [self.row(0, ROW_HEAD), self.row(1, ROW_HEAD)]),
            ]
        )

    def test_swaps_of_the_active_log(self):
        """A key of the active log costs two reads, its row and the head of a put. A buffered one
        costs none, an absent one none either. A swap that differs reads the row alone."""
        self.store(WIDE, self.puts(range(2)) + ["flush"])
        row = self.row(1, 23)
        head = self.row(1, ROW_HEAD)
        self.judge_reads(
            [
                (f"swap {key(1)} 0002 0003", [row]),
                (f"swap {key(1)} 0001 0003", [row, head]),
                (f"swap {key(1)} 0001 0004", []),
                (f"swap {key(1)} 0003 0004", []),
                (f"swap {key(9)} 0000 0001", []),
                ("flush", []),
                (f"swap {key(1)} 0003 0004", [self.row(3, 23)]),
                (f"swap {key(1)} 0004 0005", [self.row(3, 23), self.row(3, ROW_HEAD)]),
            ]
        )

    def test_swaps_from_and_to_no_value(self):
        """A missing key costs what a get of it costs, and then what a put costs. A swap to no value
        costs what any swap of that key does."""
        self.store(WIDE, self.puts(range(2)) + [f"delete {key(2)}", "flush"])
        row = self.row(1, 23)
        head = self.row(1, ROW_HEAD)
        gone = self.row(2, 23)
        self.judge_reads(
            [
                (f"swap {key(1)} - 0003", [row]),
                (f"swap {key(1)} 0001 -", [row, head]),
                (f"swap {key(1)} 0001 -", []),
                (f"swap {key(1)} - 0004", []),
                (f"swap {key(9)} 0001 -", []),
                (f"swap {key(9)} - 0001", []),
                (f"swap {key(2)} 0001 -", [gone]),
                (f"swap {key(2)} - 0002", [gone, self.row(2, ROW_HEAD)]),
            ]
        )

    def test_swaps_of_keys_that_share_buckets(self):
        """A swap reads what a get reads, and then what a put reads."""
        first = key(3)
        second = key(3, 1)
        absent = key(3, 2)
        self.store(WIDE, [f"put {first} 0001", f"put {second} 0002", "flush"])
        rows = [self.row(0, 23), self.row(1, 23)]
        heads = [self.row(0, ROW_HEAD), self.row(1, ROW_HEAD)]
        self.judge_reads(
            [
                (f"swap {absent} 0001 0003", rows),
                (f"swap {second} 0001 0003", rows),
                (f"swap {absent} 0001 -", rows),
                (f"swap {absent} - 0003", rows + heads),
            ]
        )
        self.store(WIDE, [f"put {first} 0001", f"put {second} 0002", "flush"])
        self.judge_reads([(f"swap {second} 0002 0003", rows + heads)])
        self.store(WIDE, [f"put {first} 0001", f"put {second} 0002", "flush"])
        self.judge_reads([(f"swap {second} - 0003", rows), (f"swap {second} 0002 -", rows + heads)])

    def test_swaps_in_a_full_store(self):
        """The charge comes behind the comparison, and before the reads of a put."""
        self.store("2 64 8 4 4 2", [f"put {key(1)} 0001", f"put {key(2)} 0002", "flush"])
        self.layout = Layout.of("2 64 8 4 4 2")
        self.judge_reads(
            [
                (f"put {key(1)} 0003", []),
                (f"swap {key(1)} 0001 0003", [self.row(0, 23)]),
                (f"swap {key(2)} 0001 0003", [self.row(1, 23)]),
                (f"swap {key(3)} - 0003", []),
                (f"swap {key(2)} 0002 -", [self.row(1, 23), self.row(1, ROW_HEAD)]),
            ]
        )

    def frozen(self):
        """Keys 0 to 7 in log 0, which is frozen, and key 8 in log 1."""
        self.store(WIDE, self.puts(range(9)) + ["flush"])

    def test_keys_of_a_frozen_log(self):
        """A put asks the active log alone."""
        self.frozen()
        self.judge_reads(
            [
                (f"get {key(2)}", [self.row(2, 23)]),
                (f"get {key(8)}", [self.row(0, 23, log=1)]),
                (f"put {key(3)} 0009", []),
                (f"delete {key(4)}", []),
                (f"get {key(20)}", []),
                (f"swap {key(5)} 0006 0009", [self.row(5, 23)]),
                (f"swap {key(5)} 0005 0009", [self.row(5, 23)]),
                (f"swap {key(20)} 0014 0009", []),
                (f"swap {key(6)} - 0009", [self.row(6, 23)]),
                (f"swap {key(6)} 0006 -", [self.row(6, 23)]),
                (f"swap {key(20)} - 0009", []),
            ]
        )

    def test_a_conversion(self):
        """One read for each slot with a row, none for the others, and none at its end."""
        self.frozen()
        steps = {4 * n: [self.row(n, 23)] for n in range(8)}
        self.judge_reads([("convert", steps.get(n, [])) for n in range(self.layout.slots + 1)])

    def test_keys_of_a_hash_store(self):
        self.frozen()
        self.silt("run", "store", text="convert\n" * 257)
        self.judge_reads(
            [
                (f"get {key(2)}", [self.slot(2, 23)]),
                (f"put {key(3)} 0009", []),
                (f"delete {key(4)}", []),
                (f"get {key(20)}", []),
                (f"get {key(4)}", []),
                (f"swap {key(4)} 0004 0009", []),
                (f"swap {key(5)} 0006 0009", [self.slot(5, 23)]),
                (f"swap {key(5)} 0005 0009", [self.slot(5, 23)]),
                (f"swap {key(6)} - 0009", [self.slot(6, 23)]),
                (f"swap {key(6)} 0006 -", [self.slot(6, 23)]),
            ]
        )

    def merged(self):
        """And then keys 0 to 7 are entries, in sorted region 1."""
        self.frozen()
        self.silt("run", "store", text="convert\n" * 257 + "merge\n" * (256 + 8 + 1))

    def entry(self, place, length=22):
        return self.layout.sorted_region(1) + place * self.layout.entry_len, length

    def test_keys_of_the_sorted_store(self):
        """One read, of the entry at the one place at which the key can be."""
        self.merged()
        gets = [(f"get {key(n)}", [self.entry(n)]) for n in range(8)]
        self.judge_reads(
            [
                *gets,
                (f"put {key(3)} 0009", []),
                (f"delete {key(4)}", []),
                (f"get {key(4)}", []),
                (f"swap {key(5)} 0006 0009", [self.entry(5)]),
                (f"swap {key(5)} 0005 0009", [self.entry(5)]),
                (f"swap {key(6)} - 0009", [self.entry(6)]),
                (f"swap {key(6)} 0006 -", [self.entry(6)]),
            ]
        )

    def test_absent_keys_of_a_sorted_store(self):
        """At most one read."""
        self.merged()
        keys = [key(n, n) for n in range(9, 30)] + ["ff" * 20, "00" * 20]
        lines = [
            line
            for it in keys
            for line in (f"get {it}", f"swap {it} 0001 0002", f"swap {it} 0001 -")
        ]
        lines += [f"swap {it} - 0001" for it in keys[:4]]
        for line, calls in zip(lines, self.calls_of(lines)[1:], strict=True):
            self.assertLessEqual(len(reads(calls)), 1, line)

    def test_a_merge(self):
        """The slots of a hash store by one read of at most 64 KiB, and the value of each row
        that is written."""
        self.frozen()
        self.silt("run", "store", text="convert\n" * 257)
        slots = [("merge", [(self.layout.hash_region(0), 256 * 23)])] + [("merge", [])] * 255
        values = [("merge", [(self.slot(n, 0)[0] + ROW_HEAD, 2)]) for n in range(8)]
        self.judge_reads([*slots, *values, ("merge", [])])

    def test_a_merge_with_old_entries(self):
        """The old entries by one read. One that stays and a delete cost none of their own."""
        self.merged()
        lines = (
            [f"delete {key(0)}", f"put {key(3)} 0009"]
            + self.puts(range(10, 15))
            + ["flush", f"put {key(20)} 0001"]
        )
        self.silt("run", "store", text="\n".join(lines) + "\nflush\n" + "convert\n" * 257)
        got = self.calls_of(["merge"] * (256 + 14))[1:]
        self.assertEqual(
            [reads(it) for it in got[:256]], [[(self.layout.hash_region(0), 256 * 23)]] + [[]] * 255
        )
        due = (
            [[self.entry(0, 8 * 22)]] + [[]] * 2 + [[(self.slot(3, 0)[0] + ROW_HEAD, 2)]] + [[]] * 4
        )
        due += [[(self.slot(n, 0)[0] + ROW_HEAD, 2)] for n in (8, 10, 11, 12, 13, 14)]
        self.assertEqual([reads(it) for it in got[256:]], due + [[]] * (14 - len(due)))

    def test_an_opening(self):
        """The commit bytes and each row of the named logs, the slots and the entries by reads of at
        most 64 KiB."""
        self.merged()
        lines = self.puts(range(10, 17)) + ["flush"]
        lines += [f"put {key(20)} 0001", "flush", ""]
        self.silt("run", "store", text="\n".join(lines))
        calls = self.calls_of([])[0]
        active = [(self.layout.commits(0), 8), self.row(0, ROW_HEAD)]
        frozen = [(self.layout.commits(1), 8)] + [self.row(n, ROW_HEAD, log=1) for n in range(8)]
        self.assertEqual(reads(calls), [MARK] + HEAD + active + frozen + [self.entry(0, 8 * 22)])
        self.silt("run", "store", text="convert\n" * 257)
        slots = [(self.layout.hash_region(0), 256 * 23)]
        self.assertEqual(
            reads(self.calls_of([])[0]), [MARK] + HEAD + active + slots + [self.entry(0, 8 * 22)]
        )

    def test_long_values(self):
        """A row or an entry of more than 512 bytes takes two reads: its head, and the value of a
        put."""
        words = "493 64 2 4 4 64"
        self.layout = Layout.of(words)
        value = "ab" * 493
        self.store(words, [f"put {key(1)} {value}", f"delete {key(2)}", "flush"])
        whole = [self.row(0, ROW_HEAD), (self.row(0, 0)[0] + ROW_HEAD, 493)]
        self.judge_reads(
            [
                (f"get {key(1)}", whole),
                (f"get {key(2)}", [self.row(1, ROW_HEAD)]),
                (f"swap {key(1)} {'ab' * 492}ac {value}", whole),
                (f"swap {key(2)} {value} {value}", [self.row(1, ROW_HEAD)]),
                (f"swap {key(2)} {value} -", [self.row(1, ROW_HEAD)]),
                (f"swap {key(1)} - {value}", whole),
            ]
        )
        self.silt("run", "store", text=f"put {key(3)} {value}\nflush\n" + "convert\n" * 257)
        at = self.slot(1, 0)[0]
        self.judge_reads(
            [
                (f"get {key(1)}", [(at, ROW_HEAD), (at + ROW_HEAD, 493)]),
                (f"get {key(2)}", [self.slot(2, ROW_HEAD)]),
            ]
        )
        self.silt("run", "store", text="merge\n" * (256 + 3))
        at = self.entry(0)[0]
        self.judge_reads([(f"get {key(1)}", [(at, KEY_LEN), (at + KEY_LEN, 493)])])


class ReadsOfVersion1(Reads):
    version = 1


def all_calls(calls):
    """The reads, writes and syncs of the store's file."""
    made = {
        "pread": lambda it: ("pread", it.at, it.asked),
        "pwrite": lambda it: ("pwrite", it.at, it.data),
    }
    return [
        made.get(it.name, lambda _: SYNC)(it) for it in calls if it.name in (*made, "fdatasync")
    ]


class Random(CallCase):
    """Random lines: each reply, and all device calls of each, as the rules have them, on devices of
    both versions."""

    def keys(self, count, buckets):
        """Keys. Many share their buckets if there are few of these."""
        heads = [self.random.randrange(buckets) for _ in range(2 * count)]
        return [
            f"{heads[2 * n]:04x}{heads[2 * n + 1]:04x}{self.random.getrandbits(128):032x}"
            for n in range(count)
        ]

    def some_lines(self, made, engine):
        """A line, or steps of what there is to do in the background."""
        work = ["convert"] * bool(engine.frozen) + ["merge"] * bool(engine.hashes)
        if work and (self.random.random() < 0.1 or len(engine.frozen) + 1 == engine.layout.logs):
            return [self.random.choice(work)] * self.random.randint(1, engine.layout.slots + 4)
        return made.lines(1)

    def answered(self, engine, keys, count):
        """Lines, each with its reply, its device calls before and after the place at which a
        look-up of an absent key may read an entry, and these entries."""
        made = Commands(self.random, keys, engine.layout.values)
        steps = []
        while len(steps) < count:
            for line in self.some_lines(made, engine):
                reply = engine.answer(line)
                parts = engine.calls[:engine.absent_at], engine.calls[engine.absent_at:]
                steps.append((line, reply, parts, engine.entry_reads() if engine.is_absent else []))
        return steps

    def try_lines(self, geometry, keys, count):
        """Lines on a new store. A look-up of an absent key may read one entry, of which the rules
        do not say which."""
        layout = Layout.of(geometry)
        buffers = Buffers()
        steps = self.answered(Engine(layout), self.keys(keys, layout.buckets), count)
        self.version = self.random.choice((1, 2))
        self.store(geometry)
        replies, calls = self.record_by_lines([line for line, _, _, _ in steps])
        for n, (step, reply, part) in enumerate(
            zip(steps, replies[1:], by_line(calls)[1:], strict=True)
        ):
            line, due_reply, parts, entries = step
            first, last = map(buffers.make, parts)
            self.assertEqual(reply, due_reply, f"line {n}: {line}")
            self.assertIn(
                all_calls(part),
                [[*first, *last]] + [[*first, it, *last] for it in entries],
                f"line {n}: {line}",
            )

    def test_small_stores(self):
        for _ in range(scaled(16 if PROVED else 4)):
            words = (
                2,
                self.random.choice((2, 4)),
                self.random.randint(1, 8),
                self.random.randint(2, 5),
                self.random.randint(1, 3),
                self.random.choice((12, 64)),
            )
            self.try_lines(" ".join(map(str, words)), self.random.choice((6, 12, 30)), 500)

    def test_full_tables(self):
        """Logs that may have as many rows as their tables have slots: entries move, and the rule
        gives up."""
        for _ in range(scaled(6 if PROVED else 2)):
            self.try_lines("1 8 32 3 2 250", 200, 900)

    def test_more_buckets(self):
        for _ in range(scaled(3 if PROVED else 1)):
            self.try_lines("9 32 100 3 2 300", 250, 2500)

    def test_rows_of_several_sectors(self):
        self.try_lines("480 4 16 3 2 60", 20, 600)
