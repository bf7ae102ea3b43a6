"""A model of the whole product: each byte of a device, and each line that the program prints.

It is written from the rules of layout, lines and replies alone, and keeps whole rows where the
program keeps tags and places. It knows both versions of the layout. Nothing here calls the program.

It stands apart and imports no other helper, though `layout.py` has the same places: the two were
worked out of docs/layout.md independently, and tests compare them by the program's files. An offset
that both took from one place could be wrong in both.

    run_script(geometry, data)     what `silt script` prints for these bytes of standard input
    Device(image)                  a device with shown and settled bytes, and pending ranges
    open_store(device)             an open store; `answer_lines` gives its replies
    examine(image)                 what a store consists of, or the first finding
    report(contents)               what `silt check` prints
    format_device(device, geometry)
"""
import hashlib
import re
import struct
from dataclasses import dataclass, field

SECTOR = 4096
OPEN = 0xA7
MAGIC = b"SILTFLSH"
HEADER_LENGTH = 37
# The header versions that a store may have. The last one is that of a new store.
VERSIONS = (1, 2)
PUT, DELETE = 1, 2
LAST_GENERATION = 2**63 - 1
LAST_TURN = 127
LONGEST_LINE = 16600
LONGEST_NAME = 8000
FILLS = ("old", "new", "zero", "ones", "mix")

NAMES = {
    1: "NotFormatted",
    2: "BadGeometry",
    3: "Damaged",
    4: "Crowded",
    5: "Device",
    6: "NoMemory",
    7: "StoreFull",
    8: "NoRoom",
    9: "Failed",
    10: "Spent",
    20: "BadLine",
    21: "BadKey",
    22: "BadValue",
    23: "LineTooLong",
}


class Refused(Exception):
    """A refusal, with the place of what is damaged."""

    def __init__(self, number, place=""):
        super().__init__(number, place)
        self.text = f"refused {number} {NAMES[number]}" + (f" {place}" if place else "")


class Fault(Exception):
    """A device call failed."""


# ---------------------------------------------------------------- geometry


def whole_sectors(length):
    return -(-length // SECTOR) * SECTOR


@dataclass(frozen=True)
class Geometry:
    """The six numbers of a store, and where each region begins."""

    v: int
    b: int
    cap: int
    nl: int
    nh: int
    s: int

    def in_limits(self):
        return (
            1 <= self.v <= 4096
            and self.b in [2**i for i in range(1, 16)]
            and 1 <= self.cap <= 4 * self.b
            and 2 <= self.nl <= 8
            and 1 <= self.nh <= 16
            and 1 <= self.s <= 16_777_216
        )

    @property
    def numbers(self):
        return (self.v, self.b, self.cap, self.nl, self.nh, self.s)

    @property
    def words(self):
        return " ".join(map(str, self.numbers))

    @property
    def row_length(self):
        return 21 + self.v

    @property
    def entry_length(self):
        return 20 + self.v

    @property
    def slots(self):
        return 4 * self.b

    def commits_at(self, log):
        one = whole_sectors(self.cap) + whole_sectors(self.cap * self.row_length)
        return 3 * SECTOR + log * one

    def rows_at(self, log):
        return self.commits_at(log) + whole_sectors(self.cap)

    def hash_at(self, region):
        return self.commits_at(self.nl) + region * whole_sectors(self.slots * self.row_length)

    def sorted_at(self, region):
        return self.hash_at(self.nh) + region * whole_sectors(self.s * self.entry_length)

    @property
    def size(self):
        return self.sorted_at(2)

    def buckets(self, key):
        """The first and the second bucket of a key. They may be one."""
        first, second = struct.unpack(">HH", key[:4])
        return first % self.b, second % self.b


# ---------------------------------------------------------------- device


class Device:
    """A row of bytes as a device is: what reads give, what is settled, and what is pending.

    The call of number `stop_at`, a write or a sync, fails, and so does every later one.
    `calls` has each call: (offset, bytes) of a write, and None for a sync.
    """

    def __init__(self, image, stop_at=0):
        self.shown = bytearray(image)
        self.settled = bytearray(image)
        self.pending = []
        self.calls = []
        self.stop_at = stop_at

    def count_call(self, call):
        self.calls.append(call)
        if self.stop_at and len(self.calls) >= self.stop_at:
            raise Fault

    def write(self, at, data):
        end = at + len(data)
        assert end <= len(self.shown)
        self.shown[at:end] = data
        self.pending.append((at, end))
        self.count_call((at, bytes(data)))

    def sync(self):
        self.count_call(None)
        for at, end in self.pending:
            self.settled[at:end] = self.shown[at:end]
        self.pending = []

    def left_by_stop(self, fill):
        """The image that a stop leaves: settled bytes, and at pending places what the fill says."""
        image = bytearray(self.settled)
        for at, end in self.pending:
            if fill == "new":
                image[at:end] = self.shown[at:end]
            elif fill == "zero":
                image[at:end] = bytes(end - at)
            elif fill == "ones":
                image[at:end] = b"\xff" * (end - at)
            elif fill == "mix":
                even = at + at % 2
                image[even:end:2] = self.shown[even:end:2]
        return image

    def pending_places(self):
        return {place for at, end in self.pending for place in range(at, end)}


# ---------------------------------------------------------------- tables and stores


class Table:
    """The slots of a log's keys. An entry is a key; its row is the key's last one in the log."""

    def __init__(self, geometry):
        self.geometry = geometry
        self.keys = [None] * geometry.slots

    def other_bucket(self, key, bucket):
        first, second = self.geometry.buckets(key)
        return second if bucket == first else first

    def free_slot(self, bucket):
        return next((i for i in range(4 * bucket, 4 * bucket + 4) if self.keys[i] is None), None)

    def path_for(self, key):
        """The slots through which entries move, the free one last. None: the rule gives up."""
        bucket, second = self.geometry.buckets(key)
        for one in (bucket, second):
            if (free := self.free_slot(one)) is not None:
                return [free]
        path = []
        for turn in range(LAST_TURN + 1):
            victim = self.victim(bucket, turn, path)
            if victim is None:
                return None
            path.append(victim)
            bucket = self.other_bucket(self.keys[victim], bucket)
            if (free := self.free_slot(bucket)) is not None:
                return [*path, free]
        return None

    def victim(self, bucket, turn, path):
        for i in range(4):
            slot = 4 * bucket + (turn + i) % 4
            if slot not in path and self.other_bucket(self.keys[slot], bucket) != bucket:
                return slot
        return None

    def add(self, key):
        """Places a key where it is new. False: the rule gives up, and nothing is changed."""
        if key in self.keys:
            return True
        path = self.path_for(key)
        if path is None:
            return False
        for i in range(len(path) - 1, 0, -1):
            self.keys[path[i]] = self.keys[path[i - 1]]
        self.keys[path[0]] = key
        return True

    def has_place_for(self, key):
        return key in self.keys or self.path_for(key) is not None


@dataclass
class Log:
    """A log: its rows as (kind, key, value), the oldest first, and how many have open commit bytes."""

    region: int
    table: Table
    rows: list = field(default_factory=list)
    open_commits: int = 0

    def newest_first(self):
        return reversed(self.rows)

    def last_row(self, key):
        return next((row for row in self.newest_first() if row[1] == key), None)


@dataclass
class HashStore:
    """A hash region: for each slot its row, or None. The digest is that of the bytes of all
    slots."""

    region: int
    slots: list
    digest: bytes

    def newest_first(self):
        return (row for row in self.slots if row)


@dataclass
class SortedStore:
    """A sorted region: its entries as put rows. The digest is that of their bytes."""

    region: int
    entries: list
    digest: bytes

    def newest_first(self):
        return iter(self.entries)


@dataclass
class Contents:
    """What a manifest names, in memory. Frozen logs and hash stores are newest first. The layout is
    2 if the manifest has digests."""

    geometry: Geometry
    layout: int
    generation: int
    active: Log
    frozen: list
    hashes: list
    sorted: SortedStore
    slots_open: list

    def stores(self):
        return [self.active, *self.frozen, *self.hashes, self.sorted]

    def charge(self):
        return sum(row[0] == PUT for store in self.stores() for row in store.newest_first())

    def digests(self):
        return Digests(tuple(it.digest for it in self.hashes), self.sorted.digest)

    def first_row(self, key):
        rows = (row for store in self.stores() for row in store.newest_first())
        return next((row for row in rows if row[1] == key), None)


# ---------------------------------------------------------------- manifests


def digest(data):
    return hashlib.sha1(data).digest()


@dataclass(frozen=True)
class Digests:
    """The digests of the hash stores that a manifest names, newest first, and of its sorted
    store."""

    hashes: tuple
    sorted: bytes

    def encode(self):
        return b"".join(self.hashes).ljust(20 * 16, b"\0") + self.sorted


@dataclass(frozen=True)
class Body:
    """What a manifest slot says. In the short form it has no digests."""

    generation: int
    active: int
    frozen: tuple
    hashes: tuple
    sorted: int
    count: int
    digests: Digests | None

    def encode(self):
        frozen = [*self.frozen, *[0] * (7 - len(self.frozen))]
        hashes = [*self.hashes, *[0] * (16 - len(self.hashes))]
        numbers = (self.active, len(self.frozen), *frozen, len(self.hashes), *hashes)
        form = LONG_FORM if self.digests else 0
        body = struct.pack(">Q28I", form + self.generation, *numbers, self.sorted, self.count)
        return body + (self.digests.encode() if self.digests else b"")


# The bit of the generation's field that says that digests follow the body.
LONG_FORM = 2**63
BODY_LENGTH = 120
SLOT_LENGTH = 1 + BODY_LENGTH + 20 * 17


def decode_digests(data, hash_count):
    """The digests behind a body."""
    digests = [data[at : at + 20] for at in range(BODY_LENGTH, SLOT_LENGTH - 1, 20)]
    return Digests(tuple(digests[:hash_count]), digests[16])


def decode_body(data, slot, geometry, version):
    """The body of an open slot, or None where it is not well formed."""
    field, active, frozen_count, *rest = struct.unpack(">Q28I", data[:BODY_LENGTH])
    frozen = rest[:7]
    hash_count = rest[7]
    hashes = rest[8:24]
    sorted_region, count = rest[24:]
    is_long, generation = divmod(field, LONG_FORM)
    if frozen_count > geometry.nl - 1 or hash_count > geometry.nh:
        return None
    logs = [active, *frozen[:frozen_count]]
    hashes = hashes[:hash_count]
    good = (
        (is_long or version == 1)
        and generation % 2 == slot
        and all(it < geometry.nl for it in logs)
        and len(set(logs)) == len(logs)
        and all(it < geometry.nh for it in hashes)
        and len(set(hashes)) == len(hashes)
        and sorted_region in (0, 1)
        and count <= geometry.s
    )
    if not good:
        return None
    digests = decode_digests(data, hash_count) if is_long else None
    return Body(generation, active, tuple(logs[1:]), tuple(hashes), sorted_region, count, digests)


def slot_at(slot):
    return SECTOR * (1 + slot)


def write_manifest(device, body, commit_is_open):
    """Writes a body into its slot. A commit byte that is closed already is not touched first."""
    at = slot_at(body.generation % 2)
    device.write(at if commit_is_open else at + SECTOR - 1, b"\0")
    device.sync()
    device.write(at + 1, body.encode())
    device.sync()
    device.write(at, bytes([OPEN]))
    device.sync()


# ---------------------------------------------------------------- what a check looks for


def examine(image):
    """What the store of an image consists of. Raises the first finding."""
    version, geometry = examine_header(image)
    body, slots_open = examine_slots(image, version, geometry)
    active, *frozen = [examine_log(image, geometry, it) for it in (body.active, *body.frozen)]
    said = body.digests or Digests((None,) * len(body.hashes), None)
    hashes = [examine_hash(image, geometry, *it) for it in zip(body.hashes, said.hashes)]
    entries = examine_sorted(image, geometry, body, said.sorted)
    layout = 2 if body.digests else 1
    contents = Contents(
        geometry, layout, body.generation, active, frozen, hashes, entries, slots_open
    )
    if contents.charge() > geometry.s:
        raise Refused(3, "charge")
    return contents


def examine_header(image):
    header = bytes(image[:HEADER_LENGTH])
    if len(header) < HEADER_LENGTH or header[0] != OPEN or header[1:9] != MAGIC:
        raise Refused(1)
    version, *numbers = struct.unpack(">7I", header[9:])
    if version not in VERSIONS:
        raise Refused(1)
    geometry = Geometry(*numbers)
    if not geometry.in_limits():
        raise Refused(3, "header")
    if len(image) != geometry.size:
        raise Refused(3, "length")
    return version, geometry


def examine_slots(image, version, geometry):
    slots_open, bodies = [], []
    for slot in (0, 1):
        at = slot_at(slot)
        slots_open.append(image[at] == OPEN)
        if slots_open[slot]:
            body = decode_body(bytes(image[at + 1 : at + SLOT_LENGTH]), slot, geometry, version)
            if body is None:
                raise Refused(3, f"slot {slot}")
            bodies.append(body)
    if not bodies:
        raise Refused(3, "no slot")
    return max(bodies, key=lambda it: it.generation), slots_open


def row_at(image, at, geometry):
    return (
        image[at],
        bytes(image[at + 1 : at + 21]),
        bytes(image[at + 21 : at + geometry.row_length]),
    )


def examine_log(image, geometry, region):
    log = Log(region, Table(geometry))
    for i in range(geometry.cap):
        if image[geometry.commits_at(region) + i] != OPEN:
            break
        row = row_at(image, geometry.rows_at(region) + i * geometry.row_length, geometry)
        if row[0] not in (PUT, DELETE):
            raise Refused(3, f"log {region} row {i}")
        if not log.table.add(row[1]):
            raise Refused(4)
        log.rows.append(row)
    log.open_commits = len(log.rows)
    return log


def examine_hash(image, geometry, region, said):
    """A hash store, whose digest has to be the one that is said, if one is."""
    at = geometry.hash_at(region)
    slots = []
    seen = set()
    for i in range(geometry.slots):
        row = row_at(image, at + i * geometry.row_length, geometry)
        if row[0] == 0:
            slots.append(None)
            continue
        if row[0] > 2 or i // 4 not in geometry.buckets(row[1]) or row[1] in seen:
            raise Refused(3, f"hash {region} slot {i}")
        seen.add(row[1])
        slots.append(row)
    found = digest(image[at : at + geometry.slots * geometry.row_length])
    if said not in (None, found):
        raise Refused(3, f"hash {region} digest")
    return HashStore(region, slots, found)


def examine_sorted(image, geometry, body, said):
    """The sorted store, whose digest has to be the one that is said, if one is."""
    begin = geometry.sorted_at(body.sorted)
    entries = []
    for i in range(body.count):
        at = begin + i * geometry.entry_length
        entry = (
            PUT,
            bytes(image[at : at + 20]),
            bytes(image[at + 20 : at + geometry.entry_length]),
        )
        if entries and entry[1] <= entries[-1][1]:
            raise Refused(3, f"sorted {i}")
        entries.append(entry)
    found = digest(image[begin : begin + body.count * geometry.entry_length])
    if said not in (None, found):
        raise Refused(3, "sorted digest")
    return SortedStore(body.sorted, entries, found)


def report(contents):
    """The lines that a check prints."""
    hash_rows = sum(1 for store in contents.hashes for _ in store.newest_first())
    return [
        f"generation {contents.generation}",
        f"active log {contents.active.region} rows {len(contents.active.rows)}",
        f"frozen logs {len(contents.frozen)} rows {sum(len(it.rows) for it in contents.frozen)}",
        f"hash stores {len(contents.hashes)} rows {hash_rows}",
        f"sorted entries {len(contents.sorted.entries)}",
        f"charge {contents.charge()}",
        f"layout {contents.layout}",
    ]


def check(image):
    """What `silt check` prints for this image, and its status."""
    try:
        return report(examine(image)), 0
    except Refused as refused:
        return [refused.text], 1


# ---------------------------------------------------------------- format and open


def format_device(device, geometry):
    """Makes an empty store on a device of the geometry's length."""
    device.write(0, b"\0")
    device.sync()
    device.write(slot_at(1), b"\0")
    prepare_log(device, geometry, 0)
    write_manifest(device, Body(0, 0, (), (), 0, 0, Digests((), digest(b""))), commit_is_open=True)
    device.write(1, MAGIC + struct.pack(">7I", VERSIONS[-1], *geometry.numbers))
    device.sync()
    device.write(0, bytes([OPEN]))
    device.sync()


def formatted_image(geometry):
    device = Device(bytes(geometry.size))
    format_device(device, geometry)
    return device.shown


def prepare_log(device, geometry, region):
    device.write(geometry.commits_at(region), bytes(geometry.cap))
    device.sync()


def open_store(device):
    """Opens the store of a device. Raises Refused, 5 too."""
    try:
        device.sync()
        contents = examine(device.shown)
        seal(device, contents.geometry, contents.active)
    except Fault:
        raise Refused(5) from None
    return Store(device, contents)


def seal(device, geometry, log):
    """Closes the commit bytes past a log's first closed one, where any of them is open."""
    at = geometry.commits_at(log.region) + len(log.rows) + 1
    end = geometry.commits_at(log.region) + geometry.cap
    if OPEN in device.shown[at:end]:
        device.write(at, bytes(end - at))
        device.sync()


# ---------------------------------------------------------------- the store


@dataclass
class Conversion:
    log: Log
    region: int
    written: list = field(default_factory=list)


@dataclass
class Merge:
    """A merge of the last `taken` hash stores: slots still to gather, and rows still to decide."""

    taken: int
    region: int
    to_gather: int
    to_decide: list
    entries: list = field(default_factory=list)


class Store:
    """An open store. `answer` does one event and gives its reply."""

    def __init__(self, device, contents):
        self.device = device
        self.contents = contents
        self.geometry = contents.geometry
        self.accepted = 0
        self.failed = False
        self.conversion = self.merging = None
        # How often logs froze, and how often a key found no place: for tests that count cases.
        self.freezes = self.crowded = 0

    def answer(self, event, *words):
        if self.failed:
            return Refused(9).text
        try:
            return getattr(self, event)(*words)
        except Refused as refused:
            return refused.text
        except Fault:
            self.failed = True
            return Refused(5).text

    # Commands and gets.

    def get(self, key):
        row = self.contents.first_row(key)
        return f"value {row[2].hex()}" if row and row[0] == PUT else "absent"

    def put(self, key, value):
        if self.contents.charge() == self.geometry.s:
            raise Refused(7)
        return self.take(PUT, key, value)

    def delete(self, key):
        return self.take(DELETE, key, bytes(self.geometry.v))

    def swap(self, key, old, new):
        """A put, or a delete for no new value, if the key has the old value, or has none for no old
        one."""
        row = self.contents.first_row(key)
        if (row[2] if row and row[0] == PUT else None) != old:
            return "differs"
        return self.delete(key) if new is None else self.put(key, new)

    def take(self, kind, key, value):
        if not self.active_takes(key):
            self.freeze()
        log = self.contents.active
        geometry = self.geometry
        at = geometry.rows_at(log.region) + len(log.rows) * geometry.row_length
        self.device.write(at, bytes([kind]) + key)
        self.device.write(at + 21, value)
        log.rows.append((kind, key, value))
        log.table.add(key)
        self.accepted += 1
        return f"accepted {self.accepted}"

    def active_takes(self, key):
        log = self.contents.active
        if len(log.rows) == self.geometry.cap:
            return False
        has_place = log.table.has_place_for(key)
        self.crowded += not has_place
        return has_place

    def freeze(self):
        """Sets the active log in front of the frozen ones, and begins another."""
        now = self.contents
        used = {it.region for it in (now.active, *now.frozen)}
        free = [it for it in range(self.geometry.nl) if it not in used]
        if not free:
            raise Refused(8)
        self.refuse_last_generation()
        self.open_waiting_commits()
        prepare_log(self.device, self.geometry, free[0])
        now.frozen.insert(0, now.active)
        now.active = Log(free[0], Table(self.geometry))
        self.next_manifest()
        self.freezes += 1

    def flush(self):
        self.open_waiting_commits()
        return f"acknowledged {self.accepted}"

    def open_waiting_commits(self):
        log = self.contents.active
        waiting = len(log.rows) - log.open_commits
        if waiting:
            at = self.geometry.commits_at(log.region) + log.open_commits
            self.device.sync()
            self.device.write(at, bytes([OPEN]) * waiting)
            self.device.sync()
            log.open_commits = len(log.rows)

    # Manifests.

    def refuse_last_generation(self):
        if self.contents.generation == LAST_GENERATION:
            raise Refused(10)

    def next_manifest(self):
        """Writes what the contents name now as the next generation, with digests."""
        now = self.contents
        now.generation += 1
        slot = now.generation % 2
        frozen, hashes = (tuple(it.region for it in some) for some in (now.frozen, now.hashes))
        count = len(now.sorted.entries)
        body = Body(
            now.generation,
            now.active.region,
            frozen,
            hashes,
            now.sorted.region,
            count,
            now.digests(),
        )
        write_manifest(self.device, body, now.slots_open[slot])
        now.slots_open[slot], now.layout = True, 2

    # Work in the background.

    def convert(self):
        if not self.conversion:
            now = self.contents
            if not now.frozen:
                return "idle"
            used = {it.region for it in now.hashes}
            free = [it for it in range(self.geometry.nh) if it not in used]
            if not free:
                return "waiting"
            self.conversion = Conversion(now.frozen[-1], free[0])
        if len(self.conversion.written) == self.geometry.slots:
            return self.finish_conversion()
        self.convert_slot()
        return "moved"

    def convert_slot(self):
        work = self.conversion
        length = self.geometry.row_length
        slot = len(work.written)
        key = work.log.table.keys[slot]
        data = bytes(length)
        if key is not None:
            kind, _, value = work.log.last_row(key)
            data = bytes([kind]) + key + value
        self.device.write(self.geometry.hash_at(work.region) + slot * length, data)
        work.written.append(data)

    def finish_conversion(self):
        self.refuse_last_generation()
        work = self.conversion
        now = self.contents
        self.device.sync()
        now.frozen.pop()
        rows = [key and work.log.last_row(key) for key in work.log.table.keys]
        now.hashes.insert(0, HashStore(work.region, rows, digest(b"".join(work.written))))
        self.next_manifest()
        self.conversion = None
        return "finished"

    def merge(self):
        if not self.merging:
            if not self.contents.hashes:
                return "idle"
            self.begin_merge()
        work = self.merging
        if work.to_gather:
            work.to_gather -= 1
        elif work.to_decide:
            self.decide_row(work, work.to_decide[0])
            work.to_decide.pop(0)
        else:
            return self.finish_merge()
        return "moved"

    def begin_merge(self):
        now = self.contents
        newest = {}
        for store in (*now.hashes, now.sorted):
            for row in store.newest_first():
                newest.setdefault(row[1], row)
        rising = sorted(newest.values(), key=lambda row: row[1])
        count = len(now.hashes)
        self.merging = Merge(count, 1 - now.sorted.region, count * self.geometry.slots, rising)

    def decide_row(self, work, row):
        if row[0] == PUT:
            at = (
                self.geometry.sorted_at(work.region)
                + len(work.entries) * self.geometry.entry_length
            )
            self.device.write(at, row[1] + row[2])
            work.entries.append(row)

    def finish_merge(self):
        self.refuse_last_generation()
        work = self.merging
        now = self.contents
        self.device.sync()
        now.hashes = now.hashes[: -work.taken]
        entries = b"".join(key + value for _, key, value in work.entries)
        now.sorted = SortedStore(work.region, work.entries, digest(entries))
        self.next_manifest()
        self.merging = None
        return "finished"


# ---------------------------------------------------------------- lines


# The events that lines may ask for, and how many words stand behind the first one.
EVENTS = {b"put": 2, b"delete": 1, b"swap": 3, b"get": 1, b"flush": 0, b"convert": 0, b"merge": 0}


def split_lines(data):
    """The lines of some bytes, as (bytes without line ends, their counted length)."""
    for line in data.split(b"\n")[:-1]:
        yield line.removesuffix(b"\r"), len(line)


def read_line(line, length, v):
    """The event of a line that is not empty. Raises the refusal of a line that is not good."""
    if length > LONGEST_LINE:
        raise Refused(23)
    event, *words = line.split(b" ")
    if EVENTS.get(event) != len(words):
        raise Refused(20)
    if not words:
        return (event.decode(),)
    key, *values = words
    key = read_key(key)
    if event != b"swap":
        return event.decode(), key, *[read_value(it, v) for it in values]
    old, new = (None if it == b"-" else read_value(it, v) for it in values)
    if old is None and new is None:
        raise Refused(22)
    return "swap", key, old, new


def read_key(word):
    if re.fullmatch(rb"[0-9a-fA-F]{40}", word):
        return bytes.fromhex(word.decode())
    if re.fullmatch(rb"=[\x21-\x7e]{1,%d}" % LONGEST_NAME, word):
        return hashlib.sha1(word[1:]).digest()
    raise Refused(21)


def read_value(word, v):
    if re.fullmatch(rb"[0-9a-fA-F]{%d}" % (2 * v), word):
        return bytes.fromhex(word.decode())
    raise Refused(22)


def read_stop(line, length):
    """The call and the fill of a line that ends a life, or None for any other line."""
    found = re.fullmatch(rb"stop ([0-9]{1,10}) ([a-z]+)", line)
    if not found or length > LONGEST_LINE:
        return None
    call = int(found[1])
    fill = found[2].decode()
    return (call, fill) if call < 2**32 and fill in FILLS else None


def answer_lines(store, lines):
    """The replies of an open store to lines, as a run gives them."""
    replies = []
    for line, length in lines:
        if not line and length <= LONGEST_LINE:
            continue
        try:
            event = read_line(line, length, store.geometry.v)
        except Refused as refused:
            replies.append(refused.text)
        else:
            replies.append(store.answer(*event))
    return replies


def run_life(image, lines, stop_at=0):
    """One life on a device of this image: what it prints, its device, and its store or None."""
    device = Device(image, stop_at)
    try:
        store = open_store(device)
    except Refused as refused:
        return [refused.text], device, None
    return ["opened", *answer_lines(store, lines)], device, store


def split_lives(data):
    """The lives of a script, each as (lines, call, fill). The last one has no fill."""
    lives, lines = [], []
    for line, length in split_lines(data):
        if stop := read_stop(line, length):
            lives.append((lines, *stop))
            lines = []
        else:
            lines.append((line, length))
    return [*lives, (lines, 0, None)]


def run_script(geometry, data):
    """What a script prints, line by line."""
    if not geometry.in_limits():
        return [Refused(2).text]
    image = formatted_image(geometry)
    printed = []
    for lines, stop_at, fill in split_lives(data):
        said, device, _ = run_life(image, lines, stop_at)
        printed += said
        if fill:
            printed.append("stopped")
            image = device.left_by_stop(fill)
    return printed
