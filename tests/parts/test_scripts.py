"""Random scripts of several lives: the program prints what the model prints."""
import model
from harness import PROVED, Case, scaled
from lines import Maker, join_lines
from scripted import ScriptCase

COUNT = scaled(3000 if PROVED else 300)
# Replies that a batch of scripts must have seen, or its scripts are too tame.
SEEN = [
    "accepted",
    "acknowledged",
    "value",
    "absent",
    "differs",
    "idle",
    "waiting",
    "moved",
    "finished",
    "opened",
    "stopped",
]
SEEN_REFUSALS = [5, 7, 8, 9, 20, 21, 22, 23]


class Scripts(ScriptCase):
    def test_short_scripts(self):
        counts = self.compare(COUNT // 4, [1, 2, 2, 3], 12)
        self.assertTrue(counts["stopped"] and counts["accepted"])

    def test_scripts_that_fill_tables(self):
        counts = self.compare(COUNT // 8, [1, 1, 2], 100, full_tables=True)
        self.assertTrue(counts["value"] and counts["finished"])

    def test_scripts_of_one_long_life(self):
        counts = self.compare(COUNT // 4, [1], 120)
        wanted = (
            "finished",
            "waiting",
            "swapped",
            "from none",
            "to none",
            "refused 7",
            "refused 8",
        )
        self.assertEqual([it for it in wanted if not counts[it]], [], "no script led to these")

    def test_scripts_of_many_lives(self):
        counts = self.compare(3 * COUNT // 8, [2, 3, 4, 6], 60)
        wanted = SEEN + [f"refused {it}" for it in SEEN_REFUSALS]
        self.assertEqual([it for it in wanted if not counts[it]], [], "no script led to these")


class LongScripts(ScriptCase):
    """Many lines of few keys, and many lives. Of sixteen lines some three are puts, and most are
    steps in the background."""

    KINDS = ["put", "delete", "get", "flush", "swap", "convert", "merge"]

    def long_maker(self, numbers, count):
        """A maker of lines for this geometry and so many keys."""
        geometry = model.Geometry(*numbers)
        maker = Maker(self.random, geometry)
        maker.keys = [
            bytes([0, it, 0, it // 4]).ljust(20, b"\0").hex().encode() for it in range(count)
        ]
        return geometry, maker

    def long_lines(self, maker, count, weights):
        """So many lines, each step in the background by itself."""
        kinds = self.random.choices(self.KINDS, weights, k=count)
        return [
            kind.encode()
            if kind in ("convert", "merge", "flush") else getattr(maker, f"make_{kind}")()[0]
            for kind in kinds
        ]

    def test_two_thousand_lines_of_one_life(self):
        """After each fifty all forty keys are asked for."""
        geometry, maker = self.long_maker((2, 4, 8, 3, 3, 200), 40)
        gets = [b"get " + key for key in maker.keys]
        lines = []
        for _ in range(40):
            lines += self.long_lines(maker, 50, [3, 1, 1, 1, 1, 4, 5]) + gets
        printed = self.assert_printed(geometry, join_lines(lines))
        self.assertGreater(printed.count("finished"), 20)

    def test_a_hundred_lives(self):
        """Each stops at one of its first calls, at its end, or past it."""
        for numbers in 3 * ((2, 2, 3, 3, 2, 30), (2, 2, 1, 2, 2, 12), (2, 2, 8, 4, 1, 40)):
            geometry, maker = self.long_maker(numbers, 10)
            text = b""
            for _ in range(100):
                lines = self.long_lines(maker, 120, [5, 1, 1, 1, 1, 3, 4])
                text += (
                    join_lines(lines)
                    + b"stop %d %s\n" % (
                        self.random.randrange(256),
                        self.random.choice(model.FILLS).encode(),
                    )
                )
            printed = self.assert_printed(geometry, text)
            self.assertGreater(printed.count("finished"), 50, numbers)


class Worked(Case):
    """Scripts whose ends and empty lines matter, letter for letter. tests/rows has those that are
    whole lines."""

    def assert_printed(self, text, *lines):
        out = "".join(line + "\n" for line in lines)
        self.assert_ends("script 2 2 4 2 2 8", out, text=text)

    def test_no_line(self):
        self.assert_printed("", "opened")

    def test_a_stop_at_the_end(self):
        """Behind it comes a life without lines."""
        self.assert_printed("stop 0 old\n", "opened", "stopped", "opened")

    def test_carriage_returns_and_a_last_line_without_its_end(self):
        """One carriage return is removed. What is behind the last line feed gets no reply."""
        text = "put =abc 0102\r\n\r\n\nflush\r\r\nget =abc\r\nget =abc"
        self.assert_printed(text, "opened", "accepted 1", "refused 20 BadLine", "value 0102")

    def test_lives_without_lines(self):
        """They are opened and stopped too. A stop may be at a call that never comes."""
        for stop, end in (
            ("stop 0 old", "\n"),
            ("stop 4294967295 old", "\n"),
            ("stop 0000000000 mix", "\r\n"),
        ):
            text = (
                f"flush\nno line\n{stop}{end}"
                f"\r\n{stop}{end}"
                f"flush\n{stop}{end.removesuffix(chr(10))}"
            )
            self.assert_printed(
                text,
                "opened",
                "acknowledged 0",
                "refused 20 BadLine",
                "stopped",
                "opened",
                "stopped",
                "opened",
                "acknowledged 0",
            )
