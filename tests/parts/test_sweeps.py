"""Worked lives, and a stop at each of their device calls, with each fill.

Behind a stop the next life finds a beginning of the accepted commands that holds the acknowledged
ones. Two more lives put a key, and do all work in the background. The program prints what the model
prints, also how many keys a merge decides. A script has no line that lists all keys: `stops` of
silt_tests compares the list of the entries on devices of both versions, and test_cuts.py the dumps
of real files.
"""
import model
from commands import answer, differs, done, is_command, maps_after
from harness import PROVED
from scripted import ScriptCase

# A build with checks tries every so many stops.
EVERY = 1 if PROVED else 9
CONVERT = ["convert"] * 9
MERGE = ["merge"]
SMALL = "2 2 4 2 2 8"
THREE_PUTS = ["put 01 0001", "put 02 0002", "put 03 0003", "flush"]
PUT_AND_DELETE = ["put 01 0001", "flush", "delete 01", "flush"]
TWO_UNFLUSHED = ["put 01 0001", "flush", "put 01 0002", "get 01", "put 02 0003"]
FIVE_PUTS = [f"put 0{it} 000{it}" for it in range(1, 6)] + ["flush"]
# Swaps that compare with a waiting value, a wrong one, a flushed one, and a deleted one.
SWAPS = [
    "put 01 0001",
    "swap 01 0001 0002",
    "flush",
    "swap 01 0001 0003",
    "swap 01 0002 0004",
    "delete 01",
    "swap 01 0004 0005",
]
# Swaps from no value and to none. The second one and the fourth one differ.
SWAPS_OF_NONE = [
    "swap 01 - 0001",
    "swap 01 - 0002",
    "flush",
    "swap 01 0001 -",
    "swap 01 0001 -",
    "swap 01 - 0003",
    "flush",
]
CONVERTED = FIVE_PUTS + CONVERT
# The second put freezes the first log, which becomes the hash store of the first merge. A delete
# and another put freeze two more logs, and the second merge takes the hash stores of these. The
# last put is still in a log.
MERGED_TWICE = [
    "put 01 0102",
    "put 02 0304",
    *CONVERT,
    *MERGE * 10,
    "delete 01",
    *CONVERT,
    "put 03 0506",
    *CONVERT,
    *MERGE * 19,
    "get 01",
    "get 02",
    "get 03",
    "flush",
]
# Two more hash stores are made while a merge is in progress, which leaves them alone.
CONVERTED_MEANWHILE = [
    "put 01 0001",
    "put 02 0002",
    *CONVERT,
    "put 01 0003",
    *MERGE * 3,
    *CONVERT,
    "put 02 0004",
    *CONVERT,
    *MERGE * 7,
    "get 01",
    "get 02",
]
# There is one hash region. So a second conversion waits until the first hash store is merged.
MERGED_FOR_ROOM = [
    "put 01 0001",
    "put 02 0002",
    "put 03 0003",
    *CONVERT,
    "convert",
    *MERGE * 10,
    "convert",
]
# A life, how many device calls it makes, a swap behind it, and how many calls that makes: the two
# of its row; also two for the gates of the next log and six for the manifest; and the three of a
# flush too, since the row of the full log waits.
SWAPPED_CONVERSION = CONVERTED, 40, "swap 02 0002 0006", 2
SWAPPED_MERGES = MERGED_TWICE, 106, "swap 02 0304 0607", 10
SWAPPED_MEANWHILE = CONVERTED_MEANWHILE, 95, "swap 01 0003 0005", 13
# The keys of the lives, one of zeros, one that nobody puts, and one of ones, as torn rows may have.
KEYS = [f"0{it}".ljust(40, "0") for it in range(8)] + ["f" * 40]


def spelled(lines):
    """The lines with their keys spelled out."""
    return [
        " ".join(it.ljust(40, "0") if i == 1 else it for i, it in enumerate(line.split()))
        for line in lines
    ]


def joined(lines):
    return "".join(line + "\n" for line in lines).encode()


def split_at(printed, word):
    """The parts of a list between the places of a word."""
    parts = [[]]
    for line in printed:
        if line == word:
            parts.append([])
        else:
            parts[-1].append(line)
    return parts


class Sweeps(ScriptCase):
    def sweep(self, numbers, lines, calls, first=0):
        """Stops the life at each of its calls, or at those from the first of these on, at its end,
        and behind it. It makes exactly so many."""
        geometry = model.Geometry(*map(int, numbers.split()))
        lines = spelled(lines)
        stops = [(call, fill) for call in range(first, calls + 2) for fill in model.FILLS]
        for call, fill in stops[self.random.randrange(EVERY)::EVERY]:
            self.stop_at(geometry, lines, call, fill, 0 < call <= calls)

    def stop_at(self, geometry, lines, call, fill, within):
        gets = [f"get {key}" for key in KEYS]
        stop = f"stop 0 {fill}"
        note = f"stop {call} {fill}"
        lives = [
            [*lines, note],
            [*gets, stop],
            [f"put {KEYS[7]} 0009", "flush", stop],
            [*gets, f"put {KEYS[7]} 000a", "flush", *["convert", "merge"] * 60, *gets, stop],
            gets,
        ]
        printed = self.assert_printed(geometry, joined(it for life in lives for it in life))
        first, second, _, fourth, last = split_at(printed, "stopped")
        self.assertEqual("refused 5 Device" in first, within, note)
        self.assert_kept(lines, first[1:], second, note)
        # All work is done, and what was found then is found after one more crash.
        work = fourth[-len(KEYS) - 2:-len(KEYS)]
        found = fourth[-len(KEYS):]
        self.assertEqual((work, last), (["idle", "idle"], ["opened", *found]), note)

    def assert_kept(self, lines, replies, next_life, note):
        """The next life finds the map of a beginning of the accepted commands that holds the
        acknowledged ones."""
        accepted = [line for line, reply in zip(lines, replies) if reply.startswith("accepted")]
        least = max(
            [int(it.split()[1]) for it in replies if it.startswith("acknowledged")], default=0
        )
        held = {key: it.split()[1] for key, it in zip(KEYS, next_life[1:]) if it != "absent"}
        self.assertEqual(next_life[0], "opened", note)
        self.assertIn(held, maps_after({}, accepted)[least:], note)

    def sweep_swapped(self, numbers, lines, calls, swap, more):
        """The same of a long life with a swap behind it, which makes so many calls more. The last
        calls also with a swap of the same value for none, and of none for a value."""
        key, old, _ = swap.split()[1:]
        self.sweep(numbers, [*lines, swap], calls + more)
        for words in (f"{key} {old} -", "06 - 0007"):
            self.sweep(numbers, [*lines, f"swap {words}"], calls + more, calls)

    def test_three_puts(self):
        self.sweep(SMALL, THREE_PUTS, 10)

    def test_a_put_and_a_delete(self):
        self.sweep(SMALL, PUT_AND_DELETE, 11)

    def test_two_puts_without_a_flush(self):
        self.sweep(SMALL, TWO_UNFLUSHED, 10)

    def test_five_puts(self):
        self.sweep(SMALL, FIVE_PUTS, 25)

    def test_swaps(self):
        self.sweep(SMALL, SWAPS, 12)

    def test_swaps_from_and_to_no_value(self):
        self.sweep(SMALL, SWAPS_OF_NONE, 13)

    def test_a_conversion(self):
        self.sweep_swapped(SMALL, *SWAPPED_CONVERSION)

    def test_two_merges(self):
        self.sweep_swapped("2 2 1 2 2 4", *SWAPPED_MERGES)

    def test_a_merge_beside_conversions(self):
        self.sweep_swapped("2 2 1 3 3 8", *SWAPPED_MEANWHILE)


class Calls(ScriptCase):
    """The model counts device calls as the rules do: a stop at the last one fails it, and one past
    it does not."""

    def assert_calls(self, numbers, lines, calls):
        geometry = model.Geometry(*map(int, numbers.split()))
        lines = spelled(lines)
        _, device, _ = model.run_life(
            model.formatted_image(geometry), list(model.split_lines(joined(lines)))
        )
        self.assertEqual(len(device.calls), calls)
        for stop_at, failed in ((calls, 1), (calls + 1, 0)):
            printed = self.assert_printed(
                geometry, joined([*lines, f"stop {stop_at} mix", "get =a"])
            )
            self.assertEqual(printed.count("refused 5 Device"), failed, stop_at)

    def assert_calls_with_swap(self, numbers, lines, calls, swap, more):
        """The calls of the lines alone, with a swap behind them that differs, and with one that is
        accepted and makes so many calls more, also from and to no value."""
        key, old, new = swap.split()[1:]
        self.assert_calls(numbers, lines, calls)
        for words in (f"{key} ffff {new}", f"{key} ffff -", f"{key} - {new}", f"06 {old} -"):
            self.assert_calls(numbers, [*lines, f"swap {words}"], calls)
        for words in (f"{key} {old} {new}", f"{key} {old} -", f"06 - {new}"):
            self.assert_calls(numbers, [*lines, f"swap {words}"], calls + more)

    def test_swaps(self):
        """A sync, a put's two, a swap's two, a flush's three, a swap's two, a delete's two."""
        self.assert_calls(SMALL, SWAPS, 12)

    def test_swaps_from_and_to_no_value(self):
        """A sync, a swap's two, a flush's three, two swaps' two each, and a flush's three."""
        self.assert_calls(SMALL, SWAPS_OF_NONE, 13)

    def test_gets_make_no_calls(self):
        self.assert_calls(SMALL, [*FIVE_PUTS, "get 01", "get 05", *CONVERT], 40)

    def test_a_conversion(self):
        self.assert_calls_with_swap(SMALL, *SWAPPED_CONVERSION)

    def test_two_merges(self):
        self.assert_calls_with_swap("2 2 1 2 2 4", *SWAPPED_MERGES)

    def test_a_merge_beside_conversions(self):
        self.assert_calls_with_swap("2 2 1 3 3 8", *SWAPPED_MEANWHILE)


class Asked(ScriptCase):
    """A get of each key behind each line of a life finds what the lines before gave to the key."""

    def assert_asked(self, numbers, lines, *told):
        """The replies to the lines are these, and stay so with the gets between them."""
        geometry = model.Geometry(*map(int, numbers.split()))
        lines = spelled(lines)
        self.assertEqual(self.assert_printed(geometry, joined(lines)), ["opened", *told])
        gets = [f"get {key}" for key in KEYS[1:4]]
        asked = [it for line in lines for it in (line, *gets)]
        expected = ["opened"]
        held = {}
        for line, reply in zip(lines, told):
            held = done(held, line) if is_command(line) and not differs(held, line) else held
            expected += [reply, *(answer(held, key) for key in KEYS[1:4])]
        self.assertEqual(self.assert_printed(geometry, joined(asked)), expected)

    def test_a_delete_is_merged_away(self):
        moved = ["moved"]
        self.assert_asked(
            "2 2 1 2 2 4",
            MERGED_TWICE,
            "accepted 1",
            "accepted 2",
            *moved * 8,
            "finished",
            *moved * 9,
            "finished",
            "accepted 3",
            *moved * 8,
            "finished",
            "accepted 4",
            *moved * 8,
            "finished",
            *moved * 18,
            "finished",
            "absent",
            "value 0304",
            "value 0506",
            "acknowledged 4",
        )

    def test_newer_rows_stay_in_front(self):
        moved = ["moved"]
        self.assert_asked(
            "2 2 1 3 3 8",
            CONVERTED_MEANWHILE,
            "accepted 1",
            "accepted 2",
            *moved * 8,
            "finished",
            "accepted 3",
            *moved * 3,
            *moved * 8,
            "finished",
            "accepted 4",
            *moved * 8,
            "finished",
            *moved * 6,
            "finished",
            "value 0003",
            "value 0004",
        )

    def test_a_merge_makes_room(self):
        moved = ["moved"]
        self.assert_asked(
            "2 2 1 3 1 8",
            MERGED_FOR_ROOM,
            "accepted 1",
            "accepted 2",
            "accepted 3",
            *moved * 8,
            "finished",
            "waiting",
            *moved * 9,
            "finished",
            "moved",
        )


class LongSwaps(ScriptCase):
    def test_values_of_each_length(self):
        """One byte, the longest value of one read, the shortest of two, and the longest."""
        for length in (1, 491, 492, 4096):
            sevens = "07" * length
            last = sevens[:-2] + "08"
            lines = [
                f"put {KEYS[1]} {sevens}",
                f"swap {KEYS[1]} {last} {sevens}",
                f"swap {KEYS[1]} {sevens} {last}",
                f"swap {KEYS[1]} {sevens} {last}",
                f"get {KEYS[1]}",
            ]
            printed = self.assert_printed(model.Geometry(length, 2, 4, 2, 2, 8), joined(lines))
            self.assertEqual(
                printed,
                ["opened", "accepted 1", "differs", "accepted 2", "differs", f"value {last}"],
            )
