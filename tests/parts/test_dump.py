"""Dumps: each entry of a store as a line that puts it, in the order of the keys, and the way
back."""
import model
from files import DamageCase
from harness import PROVED, scaled
from layout import CLOSED, OPEN, Layout

COUNT = scaled(40 if PROVED else 8)
# A geometry whose log takes all keys of a random store, whatever the length of its values.
ROOMY = "16 64 2 2 4000"


def entries_of(contents):
    """The value of each key that has one, in the order of the keys."""
    keys = {row[1] for store in contents.stores() for row in store.newest_first()}
    rows = [contents.first_row(key) for key in sorted(keys)]
    return [(key, value) for kind, key, value in rows if kind == model.PUT]


def lines_of(entries):
    return "".join(f"put {key.hex()} {value.hex()}\n" for key, value in entries)


class Dumps(DamageCase):
    def assert_dumped(self, expected, note, name="store"):
        ran = self.silt("dump", name)
        self.assertEqual((ran.out, ran.status, ran.err), (expected, 0, ""), note)

    def test_dumps_of_random_stores(self):
        for number in range(COUNT):
            image, contents = self.make_rich_store()
            note = f"store {number} of {contents.geometry.words}"
            expected = lines_of(entries_of(contents))
            self.assert_dumped(expected, note)
            self.assertEqual(self.image(), image, f"{note}: the dump changed the file")

    def test_a_dump_fills_a_store_of_another_geometry(self):
        for number in range(COUNT):
            _, contents = self.make_rich_store()
            dumped = self.silt("dump", "store").out
            self.path("other").unlink(missing_ok=True)
            self.store(f"{contents.geometry.v} {ROOMY}", [*dumped.splitlines(), "flush"], "other")
            self.assert_dumped(dumped, f"store {number}", "other")

    def test_an_empty_store_has_no_lines(self):
        self.store("2 2 4 2 2 8")
        self.assert_dumped("", "an empty store")

    def test_a_dump_of_more_than_one_write(self):
        values = {self.random.randbytes(20): self.random.randbytes(1000) for _ in range(200)}
        lines = lines_of(sorted(values.items()))
        self.store("1000 64 256 2 2 1000", [*lines.splitlines(), "flush"])
        self.assert_dumped(lines, "200 values")

    def test_a_dump_closes_no_stale_commit_byte(self):
        geometry = "2 2 4 2 2 8"
        self.store(geometry, ["put =a 0001", "put =b 0002", "flush"])
        image = bytearray(self.image())
        commits = Layout.of(geometry).commits(0)
        # The commit byte of the third row is open, behind which lie zeros, and that of the second
        # one is not.
        image[commits + 1:commits + 3] = CLOSED + OPEN
        self.path("store").write_bytes(image)
        expected = lines_of(entries_of(model.examine(bytes(image))))
        self.assert_dumped(expected, "a stale commit byte")
        self.assertEqual(self.image(), bytes(image))

    def test_a_damaged_store_is_refused(self):
        image, _ = self.make_rich_store()
        for damaged in (image[:-1], b"", b"\0" + image[1:]):
            self.path("store").write_bytes(damaged)
            expected, _ = model.check(damaged)
            ran = self.silt("dump", "store")
            self.assertEqual((ran.lines, ran.status), (expected, 1))

    def test_a_missing_file_and_one_in_use_are_refused(self):
        missing = self.silt("dump", "missing")
        self.assertEqual((missing.out, missing.status), ("refused 5 Device\n", 1))
        self.store("2 2 4 2 2 8")
        with self.start("run", "store") as running:
            self.assertEqual(running.stdout.readline(), b"opened\n")
            used = self.silt("dump", "store")
            self.assertEqual((used.out, used.status), ("refused 5 Device\n", 1))
            running.communicate()
