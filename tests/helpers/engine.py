"""A store as its rules describe it: what it replies to a line, and which device calls that takes.

It is written from docs/layout.md and docs/architecture.md, for lines of run alone and for a
store that is opened empty. Device calls are as in test_calls: writes (an offset and bytes),
SYNC, and reads (an offset and a length).
"""
from layout import CLOSED, DELETE, OPEN, PUT, ROW_HEAD, closing_place, key_bytes, manifest, slot_of

SYNC = ("fdatasync",)
TURNS = 128
# What one read of slots or of entries takes at most.
PIECE = 65536


class Table:
    """The table of a log: of each slot its tag and its place."""

    def __init__(self, buckets):
        self.slots = [None] * (4 * buckets)

    def candidates(self, pair):
        """The slots that a key with these two buckets may have."""
        first, second = pair
        ways = [(first, second)] + [(second, first)] * (first != second)
        return [
            4 * bucket + n
            for bucket, tag in ways
            for n in range(4)
            if self.slots[4 * bucket + n] and self.slots[4 * bucket + n][0] == tag
        ]

    def free(self, bucket):
        """The lowest free slot of a bucket."""
        return next((n for n in range(4 * bucket, 4 * bucket + 4) if not self.slots[n]), None)

    def victim(self, bucket, turn, path):
        for n in range(4):
            slot = 4 * bucket + (turn + n) % 4
            if slot not in path and self.slots[slot][0] != bucket:
                return slot
        return None

    def walk(self, bucket):
        """The slots of a path to a free one, or None."""
        path = []
        for turn in range(TURNS):
            victim = self.victim(bucket, turn, path)
            if victim is None:
                return None
            path.append(victim)
            bucket = self.slots[victim][0]
            if self.free(bucket) is not None:
                return [*path, self.free(bucket)]
        return None

    def plan(self, pair):
        """The path by which a new key is placed, of one slot if that is free, or None."""
        for bucket in pair:
            if self.free(bucket) is not None:
                return [self.free(bucket)]
        return self.walk(pair[0])

    def place(self, path, pair, place):
        """Moves the entries of a path, and enters a place into its first slot."""
        for start, end in reversed(list(zip(path, path[1:]))):
            self.slots[end] = start // 4, self.slots[start][1]
        first, second = pair
        self.slots[path[0]] = (second if path[0] // 4 == first else first), place


class Log:
    def __init__(self, region, buckets):
        self.region = region
        self.rows = []
        self.settled = 0
        self.table = Table(buckets)


class Engine:
    def __init__(self, layout):
        self.layout = layout
        self.calls = []
        self.accepted = 0
        self.generation = 0
        self.active = Log(0, layout.buckets)
        self.frozen = []
        self.hashes = []
        self.region = 0
        self.entries = []
        self.is_spare_closed = True
        self.conversion = self.merge = None
        self.is_absent = False
        self.absent_at = 0

    def answer(self, line):
        """The reply to a line. The device calls that it takes are then in `calls`. If `is_absent`,
        it looked up a key that has no row and no entry, and may have read one entry more, behind
        the first `absent_at` calls."""
        self.calls = []
        self.is_absent = False
        self.absent_at = 0
        word, *rest = line.split()
        return getattr(self, f"do_{word}")(*rest)

    # What the device calls are.

    def read(self, at, count):
        self.calls.append(("pread", at, count))

    def write(self, at, data):
        self.calls.append((at, data))

    def sync(self):
        self.calls.append(SYNC)

    def body_at(self, log, place):
        return self.layout.bodies(log.region) + place * self.layout.row_len

    def slot_at(self, region, slot):
        return self.layout.hash_region(region) + slot * self.layout.row_len

    def slot_bytes(self, row):
        """A slot of a hash store. Without a row it has zeros."""
        return self.layout.row(*row) if row else bytes(self.layout.row_len)

    def slots_bytes(self, slots):
        return b"".join(self.slot_bytes(row) for row in slots)

    def entry_bytes(self, key, value):
        return self.layout.row(PUT, key, value)[1:]

    def write_manifest(self):
        """The next generation, of the stores as they now are."""
        self.generation += 1
        slot = slot_of(self.generation)
        frozen = [it.region for it in self.frozen]
        hashes = [(it, self.slots_bytes(slots)) for it, slots in self.hashes]
        entries = [self.entry_bytes(*it) for it in self.entries]
        body = manifest(self.generation, self.active.region, frozen, hashes, self.region, entries)
        self.write(closing_place(slot, self.is_spare_closed), CLOSED)
        self.sync()
        self.write(slot + 1, body)
        self.sync()
        self.write(slot, OPEN)
        self.sync()
        self.is_spare_closed = False

    # Puts, deletes and flushes.

    def charge(self):
        rows = self.active.rows + [row for log in self.frozen for row in log.rows]
        rows += [row for _, slots in self.hashes for row in slots if row]
        return len(self.entries) + sum(row[0] == PUT for row in rows)

    def do_put(self, key, value):
        if self.charge() == self.layout.entries:
            return "refused 7 StoreFull"
        return self.add(PUT, key, value)

    def do_delete(self, key):
        return self.add(DELETE, key, None)

    def do_swap(self, key, old, new):
        """The look-up of a get, and then all of a put, or of a delete for no new value."""
        if self.do_get(key) != ("absent" if old == "-" else f"value {old}"):
            return "differs"
        return self.do_delete(key) if new == "-" else self.do_put(key, new)

    def add(self, kind, key, value):
        pair = self.layout.buckets_of(key)
        path = None
        if len(self.active.rows) < self.layout.rows:
            slot = self.look_up(self.active, key, ROW_HEAD)
            path = self.active.table.plan(pair) if slot is None else [slot]
        if path is None:
            if not self.freeze():
                return "refused 8 NoRoom"
            path = self.active.table.plan(pair)
        place = len(self.active.rows)
        row = self.layout.row(kind, key, value)
        self.write(self.body_at(self.active, place), row[:ROW_HEAD])
        self.write(self.body_at(self.active, place) + ROW_HEAD, row[ROW_HEAD:])
        self.active.table.place(path, pair, place)
        self.active.rows.append((kind, key, value))
        self.accepted += 1
        return f"accepted {self.accepted}"

    def do_flush(self):
        waiting = len(self.active.rows) - self.active.settled
        if waiting:
            self.sync()
            self.write(self.layout.commits(self.active.region) + self.active.settled, OPEN * waiting)
            self.sync()
            self.active.settled += waiting
        return f"acknowledged {self.accepted}"

    def freeze(self):
        """Another log takes the active one's place, if one is free."""
        used = {it.region for it in (self.active, *self.frozen)}
        region = next((n for n in range(self.layout.logs) if n not in used), None)
        if region is None:
            return False
        self.do_flush()
        self.write(self.layout.commits(region), CLOSED * self.layout.rows)
        self.sync()
        self.frozen.insert(0, self.active)
        self.active = Log(region, self.layout.buckets)
        self.write_manifest()
        return True

    # Gets. A row of at most 512 bytes is read whole.

    def look_up(self, log, key, count):
        """The slot of a key in a log's table: so many bytes of each candidate are read."""
        for slot in log.table.candidates(self.layout.buckets_of(key)):
            place = log.table.slots[slot][1]
            self.read(self.body_at(log, place), count)
            if key_bytes(log.rows[place][1]) == key_bytes(key):
                return slot
        return None

    def look_up_hashed(self, region, slots, key):
        """The row of a key in a hash store. The tag of a row is the number of its key's other
        bucket."""
        first, second = self.layout.buckets_of(key)
        for bucket, tag in [(first, second)] + [(second, first)] * (first != second):
            for slot in range(4 * bucket, 4 * bucket + 4):
                if slots[slot] and self.other_bucket(slot, slots[slot][1]) == tag:
                    self.read(self.slot_at(region, slot), self.layout.row_len)
                    if slots[slot][1] == key:
                        return slots[slot]
        return None

    def other_bucket(self, slot, key):
        first, second = self.layout.buckets_of(key)
        return second if slot // 4 == first else first

    def do_get(self, key):
        for log in (self.active, *self.frozen):
            slot = self.look_up(log, key, self.layout.row_len)
            if slot is not None:
                return self.found(log.rows[log.table.slots[slot][1]])
        for region, slots in self.hashes:
            row = self.look_up_hashed(region, slots, key)
            if row:
                return self.found(row)
        place = next((n for n, (its, _) in enumerate(self.entries) if its == key), None)
        if place is None:
            self.is_absent = True
            self.absent_at = len(self.calls)
            return "absent"
        self.calls.append(self.entry_reads()[place])
        return f"value {self.entries[place][1]}"

    def entry_reads(self):
        """The reads of each entry."""
        at = self.layout.sorted_region(self.region)
        count = self.layout.entry_len
        return [("pread", at + n * count, count) for n in range(len(self.entries))]

    def found(self, row):
        return f"value {row[2]}" if row[0] == PUT else "absent"

    # Conversions.

    def do_convert(self):
        if self.conversion is None:
            used = {region for region, _ in self.hashes}
            region = next((n for n in range(self.layout.hashes) if n not in used), None)
            if not self.frozen or region is None:
                return "waiting" if self.frozen else "idle"
            self.conversion = region, []
        region, slots = self.conversion
        if len(slots) < self.layout.slots:
            return self.convert_slot(region, slots)
        self.conversion = None
        self.frozen.pop()
        self.hashes.insert(0, (region, slots))
        self.sync()
        self.write_manifest()
        return "finished"

    def convert_slot(self, region, slots):
        log = self.frozen[-1]
        row = None
        entry = log.table.slots[len(slots)]
        if entry:
            self.read(self.body_at(log, entry[1]), self.layout.row_len)
            row = log.rows[entry[1]]
        self.write(self.slot_at(region, len(slots)), self.slot_bytes(row))
        slots.append(row)
        return "moved"

    # Merges.

    def do_merge(self):
        if self.merge is None:
            if not self.hashes:
                return "idle"
            self.merge = Merge(self.hashes, self.entries)
        merge = self.merge
        if merge.gathered < len(merge.stores) * self.layout.slots:
            return self.gather(merge)
        if merge.waiting or merge.old:
            return self.decide(merge)
        self.merge = None
        del self.hashes[len(self.hashes) - len(merge.stores):]
        self.region = 1 - self.region
        self.entries = merge.made
        self.sync()
        self.write_manifest()
        return "finished"

    def gather(self, merge):
        store, slot = divmod(merge.gathered, self.layout.slots)
        region, slots = merge.stores[store]
        most = PIECE // self.layout.row_len
        if slot % most == 0:
            self.read(
                self.slot_at(region, slot),
                min(most, self.layout.slots - slot) * self.layout.row_len,
            )
        if slots[slot]:
            merge.waiting.setdefault(slots[slot][1], (slots[slot], region, slot))
        merge.gathered += 1
        return "moved"

    def decide(self, merge):
        """The lowest key that waits or is an old entry."""
        passed = len(self.entries) - len(merge.old)
        most = PIECE // self.layout.entry_len
        if merge.old and passed % most == 0 and merge.is_ahead != passed:
            merge.is_ahead = passed
            self.read(
                self.layout.sorted_region(self.region) + passed * self.layout.entry_len,
                min(most, len(merge.old)) * self.layout.entry_len,
            )
        key = min([*merge.waiting, *(its for its, _ in merge.old[:1])], key=key_bytes)
        value = merge.old.pop(0)[1] if merge.old and merge.old[0][0] == key else None
        if key in merge.waiting:
            row, region, slot = merge.waiting.pop(key)
            value = row[2] if row[0] == PUT else None
            if value:
                self.read(self.slot_at(region, slot) + ROW_HEAD, self.layout.values)
        if value:
            at = (
                self.layout.sorted_region(1 - self.region) + len(merge.made) * self.layout.entry_len
            )
            self.write(at, self.entry_bytes(key, value))
            merge.made.append((key, value))
        return "moved"


class Merge:
    """A merge of these hash stores, newest first, and of these entries."""

    def __init__(self, stores, entries):
        self.stores = list(stores)
        self.old = list(entries)
        self.made = []
        self.gathered = 0
        self.waiting = {}
        self.is_ahead = None
