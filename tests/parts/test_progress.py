"""The line that shows on a terminal how far a long opening is.

It is written again after reads of 16 MiB, or of 65,536 heads of rows. It ends before any other note
or reply, and after that there is none.
"""
import unittest

from harness import PROVED, without_note
from layout import COUNT, KEY_LEN, OPEN, SLOTS, Layout, as_version_1
from terminal import on_terminal
from watch import WatchedCase, read_record, watching

# A read counts with its bytes, but with so many at least.
STEP = 1 << 24
LEAST = 256
# One log of many rows. The file has 14,430,208 bytes.
MANY_ROWS = "1 32768 131072 2 1 131072"
ROWS = Layout.of(MANY_ROWS)
ERRORS = "standard error"
SLOW = unittest.skipUnless(PROVED, "a build with checks takes long for this")
# What a long opening of it shows, and what ends that.
LINE = "\rsilt: opening: 1 MiB read of a file of 13 MiB"
END = ", 100 percent of what it needs\n"


class Progress(WatchedCase):
    def make_rows(self, count):
        """A store whose log has so many rows. An opening reads the head of each by itself."""
        self.path("store").unlink(missing_ok=True)
        self.store(MANY_ROWS)
        self.keys = [self.random.randbytes(20) for _ in range(count)]
        with self.path("store").open("r+b") as file:
            file.seek(ROWS.commits(0))
            file.write(OPEN * count)
            file.seek(ROWS.bodies(0))
            file.write(b"".join(b"\x01" + key + b"\x07" for key in self.keys))

    def make_entries(self, count, length):
        """A store with so many sorted entries, and values of this length. An opening reads many
        together."""
        geometry = f"{length} 2 4 2 2 {count}"
        self.store(geometry)
        layout = Layout.of(geometry)
        image = bytearray(as_version_1(self.path("store").read_bytes()))
        image[SLOTS[0] + COUNT:SLOTS[0] + COUNT + 4] = count.to_bytes(4, "big")
        for number in range(count):
            at = layout.sorted_region(0) + number * layout.entry_len
            image[at:at + KEY_LEN] = number.to_bytes(KEY_LEN, "big")
        self.path("store").write_bytes(image)

    def on_terminal(self, *words, **how):
        """A watched run on a terminal: its status, its output, and what the terminal shows."""
        env = watching(self, log="record")
        status, out, shown = on_terminal(self, *words, env=env, **how)
        return status, out, without_note(shown)

    def check_times(self):
        """The line was written right behind each read that made it due, and before the next one.
        Behind the first reply, or another note, there is none. Returns what all reads count, and
        what those before the first reply count."""
        cost = read = 0
        due = []
        said = ""
        size = self.path("store").stat().st_size
        opened = None
        for call in read_record(self.path("record")):
            if call.file == ERRORS:
                said += call.moved.decode()
            elif call.name == "write" and opened is None:
                opened = cost
            elif call.name == "pread":
                self.assertEqual(
                    said.count("\rsilt: opening: "), len(due) + (opened is not None and due != [])
                )
                before = cost
                cost = cost + max(call.result, LEAST)
                read = read + call.result
                if cost // STEP > before // STEP and opened is None:
                    due.append(
                        f"\rsilt: opening: {read >> 20} MiB read of a file of {size >> 20} MiB"
                    )
        self.assertTrue(without_note(said).startswith("".join(due)), said)
        return cost, opened

    def test_a_long_filling(self):
        """A new file shows how much of it is written, each 16 MiB. A sparse one shows nothing."""
        geometry = "100 32768 32768 4 1 100000"
        status, out, shown = self.on_terminal("format", "new", *geometry.split())
        size = self.path("new").stat().st_size
        self.assertEqual((status, out), (0, f"formatted {size}\n"))
        line = "\rsilt: new file: {} MiB written of {} MiB"
        parts = [line.format(done, size >> 20) for done in (*range(16, size >> 20, 16), size >> 20)]
        self.assertGreater(size, 2 * STEP)
        self.assertEqual(shown, "".join(parts) + "\n")
        for options in (("--sparse", "--force"), ()):
            status, out, shown = self.on_terminal("format", "small", *"2 2 4 2 2 8".split(), *options)
            self.assertEqual((status, out), (0, "formatted 45056\n"))
            self.assertNotIn("new file", shown)

    def test_a_long_opening(self):
        """Each job shows it that opens a store."""
        self.make_rows(66_000)
        jobs = [
            ("run store", "opened\n", None),
            ("tend store", "opened\nconverted 0 steps, merged 0 steps\n", None),
            ("serve store 0", "opened\n", 1),
        ]
        for words, out, replies in jobs if PROVED else jobs[:1]:
            _, printed, shown = self.on_terminal(*words.split(), replies=replies)
            self.assertEqual((printed, shown), (out, LINE + LINE + END), words)
            self.check_times()

    @SLOW
    def test_a_dump(self):
        """It reads the rows once more, before it prints the first one."""
        self.make_rows(66_000)
        status, out, shown = self.on_terminal("dump", "store")
        self.assertEqual(
            (status, out), (0, "".join(f"put {key.hex()} 07\n" for key in sorted(self.keys)))
        )
        self.assertTrue(shown.startswith(LINE) and shown.endswith(END), shown)
        self.check_times()

    def test_a_check(self):
        """It shows the line too, and then what a check says."""
        self.make_rows(66_000)
        status, out, shown = self.on_terminal("check", "store")
        numbers = (
            "silt: store: V 1, B 32768, CAP 131072, NL 2, NH 1, S 131072; charge 66000 of 131072\n"
        )
        self.assertEqual((status, shown), (0, LINE + LINE + END + numbers))
        self.check_times()

    def test_a_finding_at_the_end_of_a_long_opening(self):
        """The line ends before what is wrong is reported."""
        self.make_rows(66_000)
        at = ROWS.bodies(0) + 65_990 * ROWS.row_len
        with self.path("store").open("r+b") as file:
            file.seek(at)
            file.write(b"\x03")
        note = f"silt: store: a row of a log is damaged, at byte {at}\n"
        status, out, shown = self.on_terminal("run", "store")
        self.assertEqual((status, out), (1, "refused 3 Damaged log 0 row 65990\n"))
        self.assertEqual(shown, LINE + LINE + END + note)

    def test_a_short_opening(self):
        """It shows nothing, and neither do the reads of gets, which would have made the line
        due."""
        self.make_rows(65_000)
        lines = "".join(f"get {key.hex()}\n" for key in self.keys[:40])
        self.assertEqual(
            self.on_terminal("run", "store", text=lines), (0, "opened\n" + "value 07\n" * 40, "")
        )
        cost, opened = self.check_times()
        self.assertTrue(STEP - 40 * LEAST < opened < STEP < cost, (opened, cost))

    def test_no_terminal(self):
        self.make_rows(66_000)
        self.assert_ends("run store", "opened\n")

    @SLOW
    def test_a_long_opening_of_entries(self):
        """Reads of many entries: they count with their bytes, and the line is due twice."""
        self.make_entries(66_000, 490)
        status, out, shown = self.on_terminal("run", "store")
        lines = [f"\rsilt: opening: {it} MiB read of a file of 64 MiB" for it in (16, 32, 32)]
        self.assertEqual((status, out, shown), (0, "opened\n", "".join(lines) + END))
        cost, _ = self.check_times()
        self.assertEqual(cost // STEP, 2)
