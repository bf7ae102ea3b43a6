"""Random stores in files: replies, reports and each settled byte are the model's, on devices of
both versions of the layout."""
import model
from files import FileCase
from harness import PROVED, scaled
from lines import Maker, join_lines, make_geometry

COUNT = scaled(200 if PROVED else 40)


class Stores(FileCase):
    def test_stores_of_random_runs(self):
        for number in range(COUNT):
            geometry = make_geometry(self.random, self.random.random() < 0.3)
            note = f"store {number} of {geometry.words}"
            self.path("store").unlink(missing_ok=True)
            self.store(geometry.words)
            self.assertEqual(self.image(), model.formatted_image(geometry), note)
            maker = Maker(self.random, geometry, geometry.cap == geometry.slots)
            for turn in range(self.random.choice([1, 1, 2, 3])):
                if self.random.random() < 0.3:
                    self.make_old()
                lines = (
                    maker.lines(self.random.randint(1, 150)) + self.random.choice([[], [b"flush"]])
                )
                data = join_lines(lines) + self.random.choice([b"", b"flush"])
                self.compare_run(data, f"{note}, run {turn}: {data!r}")
            self.compare_check(note)

    def test_a_forced_format_makes_any_file_an_empty_store(self):
        for number in range(COUNT // 10):
            geometry = make_geometry(self.random)
            old = self.random.randbytes(
                self.random.choice([0, 1, geometry.size, 2 * geometry.size])
            )
            self.path("store").write_bytes(old)
            ran = self.silt("format", "store", *geometry.numbers, "--force")
            self.assertEqual(ran.out, f"formatted {geometry.size}\n")
            self.compare_check(f"store {number} of {geometry.words}")
            self.assertEqual(self.check_report().lines[-2:], ["charge 0", "layout 2"])
            self.compare_run(
                b"get =a\nput =a " + b"00" * geometry.v + b"\nflush\nget =a\n", f"store {number}"
            )


# The digests of no entries, of the hash store after five puts and a conversion, and of the entries
# of the merge behind it. They were worked out by another program.
NOTHING = "da39a3ee5e6b4b0d3255bfef95601890afd80709"
HASHED = "a6410a3234dc02409fe682dc58d19a3c59f4f943"
MERGED = "577a07b59a0efa7c9cfd45700c3c11a24ee2ace3"


class WorkedBytes(FileCase):
    """The bytes of a store of `2 2 4 2 2 8`, written out by hand."""

    def key(self, digits):
        return digits.ljust(40, "0")

    def assert_bytes(self, at, digits):
        length = len(digits) // 2
        self.assertEqual(self.image()[at : at + length].hex(), digits, f"at {at}")

    def test_bytes_after_format(self):
        self.store("2 2 4 2 2 8")
        header = "a753494c54464c534800000002000000020000000200000004000000020000000200000008"
        self.assert_bytes(0, header)
        self.assert_bytes(4096, "a780" + "00" * 119 + "00" * 320 + NOTHING)
        self.assert_bytes(8192, "00")
        self.assertEqual(len(self.image()), 45056)

    def test_bytes_after_a_put_and_a_flush(self):
        self.store("2 2 4 2 2 8", ["put =abc 0102", "flush"])
        self.assert_bytes(12288, "a700")
        self.assert_bytes(16384, "01a9993e364706816aba3e25717850c26c9cd0d89d0102")

    def test_bytes_after_a_freeze_and_a_conversion(self):
        puts = [f"put {self.key(f'0{i}')} 000{i}" for i in range(1, 6)]
        self.store("2 2 4 2 2 8", [*puts, "flush"])
        first = "a7800000000000000100000001" + "00000001" + "00000000" * 26
        self.assert_bytes(8192, first + "00" * 320 + NOTHING)
        self.assert_bytes(12288, "a7a7a7a7")
        self.assert_bytes(20480, "a700")
        self.silt("run", "store", text="convert\n" * 9)
        self.assert_bytes(28672, "01" + self.key("01") + "0001")
        second = "a7800000000000000200000001" + "00" * 32 + "00000001" + "00" * 72
        self.assert_bytes(4096, second + HASHED + "00" * 300 + NOTHING)

    def test_bytes_after_a_merge(self):
        puts = [f"put {self.key(f'0{i}')} 000{i}" for i in range(1, 6)]
        self.store("2 2 4 2 2 8", [*puts, "flush", *["convert"] * 9, *["merge"] * 13])
        self.assert_bytes(40960, "".join(self.key(f"0{i}") + f"000{i}" for i in range(1, 5)))
        third = "a7800000000000000300000001" + "00" * 100 + "00000001" + "00000004"
        self.assert_bytes(8192, third + "00" * 320 + MERGED)
