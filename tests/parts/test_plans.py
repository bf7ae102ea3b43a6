"""`plan`: six numbers that work, what they take, and on standard error what they cost."""
import re
import unittest
from fractions import Fraction

from commands import value_of
from harness import scaled
from watch import WatchedCase

# What a row may cost in merging before `plan` warns, and what the way out brings.
DEAR, CHEAP = 20, 10
COST = re.compile(
    r"silt: merging writes ([\d,]+\.\d) entries for each row; "
    r"at rest the store takes about ([\d.]+) (kB|MB) of memory\n"
)
UNITS = {"kB": 1000, "MB": 1_000_000}
SEVERAL = "split them over several stores"
# What comes behind a number of keys that two shards have room for.
TWO = "; --shards 2 has room for them"


class Plans(WatchedCase):
    """`plan` gives numbers that work."""

    def planned(self, *words):
        """The numbers of a plan, and what it says that they take."""
        ended = self.silt("plan", *words)
        self.assertEqual(ended.status, 0, ended)
        return re.search(r"^(?:.*\s)?(\d+ \d+ \d+ \d+ \d+ \d+)$", ended.out, re.M).group(
            1
        ), ended.out

    def test_a_store_by_plan(self):
        for keys, length, *options in (
            (1, 1),
            (10, 2),
            (300, 8),
            (2000, 8),
            (1, 1, "--merge-writes", 1),
            (300, 8, "--merge-writes", 1),
            (2000, 8, "--merge-writes", 3),
            (2000, 8, "--merge-writes", 40),
        ):
            numbers, text = self.planned(keys, length, *options)
            self.assertEqual(int(numbers.split()[0]), length)
            made = self.silt("format", "store", *numbers.split(), "--force")
            self.assertEqual(made.status, 0, made)
            self.assertIn(made.out.split()[1], text.replace(",", ""))
            lines = [
                f"put =key{n} {value_of(n, length) if length > 1 else '07'}" for n in range(keys)
            ]
            for _ in range(3):
                ended = self.silt("run", "store", "--tend", text="\n".join([*lines, "flush", ""]))
                self.assertEqual([it for it in ended.lines if it.startswith("refused")], [])

    def test_worked_plans(self):
        """Keys and the length of values, with a limit of memory or without."""
        for words, out in (
            ("1000000 100", "100 8192 28672 3 8 1315392\ndisk 357920768\nmemory 11599768\n"),
            ("1000 100", "100 8 28 3 8 1308\ndisk 389120\nmemory 66856\n"),
            ("0 1", "1 2 7 3 8 77\ndisk 77824\nmemory 57598\n"),
            ("16000000 32", "32 16384 57344 3 8 16630784\ndisk 1766690816\nmemory 65144024\n"),
            ("100000 8 --memory 1000000", "8 512 1792 3 8 119712\ndisk 7385088\nmemory 889528\n"),
            ("100000 8 --memory 357598", "8 2 7 3 8 100077\ndisk 5681152\nmemory 357598\n"),
        ):
            ended = self.silt("plan", *words.split())
            self.assertEqual((ended.status, ended.out), (0, out), words)

    def test_less_memory(self):
        free, _ = self.planned(1_000_000, 100)
        bound, _ = self.planned(1_000_000, 100, "--memory", 8_000_000)
        self.assertLess(int(bound.split()[1]), int(free.split()[1]))

    def test_no_plan(self):
        """The value is looked at first, then the keys, and then the memory."""
        for words, reason in (
            ("16777140 100", f"KEYS is 16777140, and may be 0 to 16777139{TWO}"),
            ("16777216 8", f"KEYS is 16777216, and may be 0 to 16777139{TWO}"),
            ("4294967295 8", "KEYS is 4294967295, and may be 0 to 16777139"),
            ("16777140 8 --memory 57597", f"KEYS is 16777140, and may be 0 to 16777139{TWO}"),
            ("1000 4097", "V is 4097, and may be 1 to 4096"),
            ("4294967295 4097 --memory 57597", "V is 4097, and may be 1 to 4096"),
            ("1000 0", "V is 0, and may be 1 to 4096"),
            ("100000 0", "V is 0, and may be 1 to 4096"),
            ("1 0 --memory 57597", "V is 0, and may be 1 to 4096"),
            ("1000000 100 --memory 1000", "1000000 keys need 3057598 bytes of memory or more"),
            ("100000 8 --memory 357597", "100000 keys need 357598 bytes of memory or more"),
        ):
            self.assert_ends(f"plan {words}", "no plan\n", f"silt: {reason}\n", 1)


class Cost:
    """A plan for so many keys, and what its notes say."""

    def __init__(self, case, keys, length, memory=None):
        words = [keys, length, *(("--memory", memory) if memory is not None else ())]
        self.ended = case.silt("plan", *words)
        case.assertEqual(self.ended.status, 0, (words, self.ended))
        self.keys = keys
        _, self.buckets, self.capacity, self.logs, self.hashes, self.most = map(
            int, self.ended.lines[0].split()
        )
        self.memory = int(self.ended.lines[2].removeprefix("memory "))
        found = COST.match(self.ended.err)
        case.assertIsNotNone(found, self.ended.err)
        self.said = Fraction(found[1].replace(",", ""))
        self.rest = Fraction(found[2]) * UNITS[found[3]]
        self.unit = Fraction(UNITS[found[3]], 10)
        self.warning = self.ended.err[found.end():]

    @property
    def entries(self):
        """Merging writes all keys once for the rows of k = NH / 2 logs (docs/choosing.md, "What it
        takes")."""
        return Fraction(self.keys, self.hashes // 2 * self.capacity)

    @property
    def at_rest(self):
        """The index of the sorted store, and one log in use with its table."""
        return max(Fraction(8 * self.keys, 10), 18_504) + 24 * self.buckets + self.capacity


class Costs(WatchedCase):
    """What merging writes for each row, and the memory at rest. Merging that is dear has a warning
    and a way out."""

    def check(self, keys, length, memory=None):
        """Compares the notes of a plan with the formulas of docs/choosing.md. Returns its cost."""
        cost = Cost(self, keys, length, memory)
        what = (keys, length, memory, cost.ended)
        self.assertLessEqual(abs(cost.said - cost.entries), Fraction(1, 20), what)
        self.assertLessEqual(abs(cost.rest - cost.at_rest), cost.unit / 2 + 1, what)
        self.assertLessEqual(cost.at_rest, cost.memory, what)
        self.assertEqual(cost.warning != "", cost.entries > DEAR, what)
        if cost.warning:
            self.assertRegex(cost.warning, r"\Asilt: .*\n\Z", what)
            self.check_way_out(cost, length, memory, what)
        return cost

    def check_way_out(self, cost, length, memory, what):
        """Several stores, if no memory makes it cheap. Else so much memory, and not a byte less."""
        found = re.search(r"--memory (\d+) it is (\d+) or less", cost.warning)
        free = Cost(self, cost.keys, length)
        if free.entries > DEAR:
            self.assertIn(SEVERAL, cost.warning, what)
            self.assertIsNone(found, what)
            return
        self.assertIsNotNone(found, what)
        self.assertNotIn(SEVERAL, cost.warning, what)
        bytes_named, most = map(int, found.groups())
        self.assertEqual(most, CHEAP if self.may_be_cheap(cost.keys, length) else DEAR, what)
        self.assertGreater(bytes_named, memory, what)
        self.assertLessEqual(Cost(self, cost.keys, length, bytes_named).entries, most, what)
        self.assertGreater(Cost(self, cost.keys, length, bytes_named - 1).entries, most, what)

    def may_be_cheap(self, keys, length):
        """Whether there is a plan for so many keys, with any memory, that writes ten entries a row
        at most."""
        return Cost(self, keys, length, 4_294_967_295).entries <= CHEAP

    def test_a_limit_of_memory(self):
        """A plan of 28 rows a log: a row costs 1,786 entries."""
        cost = self.check(200_000, 100, 664_000)
        self.assertEqual((cost.buckets, cost.capacity, cost.said), (8, 28, Fraction("1785.7")))
        self.assertIn("--memory", cost.warning)

    def test_the_most_keys(self):
        """The limit of S leaves logs of 14 rows, and no memory helps."""
        cost = self.check(16_777_000, 100)
        self.assertEqual((cost.capacity, cost.said), (14, Fraction("299589.3")))
        self.assertIn(SEVERAL, cost.warning)

    def test_a_default_plan(self):
        cost = self.check(1_000_000, 100)
        self.assertEqual((cost.said, cost.warning), (Fraction("8.7"), ""))

    def test_default_plans_warn_only_of_too_many_keys(self):
        for keys in (0, 1, 9, 10, 100, 1000, 12_345, 100_000, 4_000_000, 8_000_000, 9_000_000):
            self.assertEqual(self.check(keys, 8).warning, "", keys)
        for keys in (9_175_041, 12_000_000, 16_000_000, 16_777_139):
            self.assertIn(SEVERAL, self.check(keys, 8).warning, keys)

    def test_the_warning_begins_above_twenty(self):
        """Logs of 3.5 times B rows, and four of them between two merges: 20 entries a row are 280
        keys a bucket."""
        for buckets in (2, 64, 4096):
            keys = 280 * buckets
            memory = 4_294_967_295
            for count, warns in ((keys, False), (keys + 1, True)):
                limit = self.limit(count, buckets)
                cost = self.check(count, 8, limit)
                self.assertEqual(
                    (cost.buckets, cost.warning != ""), (buckets, warns), (count, limit)
                )

    def limit(self, keys, buckets):
        """The memory of the plan for so many keys with so many buckets, by the plans with less and
        less memory."""
        memory = 4_294_967_295
        while (cost := Cost(self, keys, 8, memory)).buckets > buckets:
            memory = cost.memory - 1
        return cost.memory

    def test_other_plans(self):
        for _ in range(scaled(20)):
            keys = round(10 ** self.random.uniform(0, 7.22))
            least = 57_598 + 3 * keys
            self.check(
                keys,
                self.random.choice((1, 8, 100, 4096)),
                self.random.choice((least, round(least * self.random.uniform(1, 2)))),
            )

    def test_no_plan_has_no_cost(self):
        for words in ("16777140 100", "1000 4097", "1000000 100 --memory 1000"):
            ended = self.silt("plan", *words.split())
            self.assertEqual(
                (ended.status, ended.out, len(ended.err.splitlines())), (1, "no plan\n", 1), ended
            )
            self.assertNotIn("merging writes", ended.err)


def rows_of(buckets):
    """The rows of a log with so many buckets."""
    return 7 * buckets // 2


def up(length):
    return -(-length // 4096) * 4096


class MergeWrites(WatchedCase):
    """`--merge-writes E`: the smallest B with which merging writes at most E entries for each row.
    The formulas are those of docs/choosing.md."""

    BUCKETS = [2**power for power in range(1, 16)]
    MOST_KEYS = 16_777_139

    def may_have(self, keys, buckets):
        """Whether S has room for so many keys beside 11 regions of rows."""
        return keys + 11 * rows_of(buckets) <= 16_777_216

    def smallest(self, keys, most):
        """The smallest B whose four logs have a row for each `most` keys, if S has room."""
        enough = [it for it in self.BUCKETS if 4 * rows_of(it) * most >= keys]
        return enough[0] if enough and self.may_have(keys, enough[0]) else None

    def memory_of(self, keys, buckets):
        return 1043 * buckets + 3 * keys + 55_512

    def least_of(self, keys):
        """The smallest E that some B keeps to."""
        buckets = max(it for it in self.BUCKETS if self.may_have(keys, it))
        return max(1, -(-keys // (4 * rows_of(buckets))))

    def share(self, keys, shards):
        even = -(-keys // shards)
        return even + even // 16 + 64

    def way_out(self, keys, most):
        """The fewest shards with which merging writes no more, if there are so many."""
        for shards in range(2, 65):
            share = self.share(keys, shards)
            if share <= self.MOST_KEYS and self.smallest(share, most):
                return f"; with --shards {shards} it is {most} or less"
        return ""

    def text_of(self, keys, length, buckets, shards=1):
        """What a plan prints, of a set what all its shards take."""
        rows = rows_of(buckets)
        most = keys + 11 * rows
        disk = 12_288 + 3 * (up(rows) + up(rows * (21 + length)))
        disk += 8 * up(4 * buckets * (21 + length)) + 2 * up(most * (20 + length))
        memory = self.memory_of(keys, buckets)
        return (
            f"{length} {buckets} {rows} 3 8 {most}\ndisk {shards * disk}\nmemory {shards * memory}\n"
        )

    def check(self, keys, length, most, memory=None):
        """Compares a plan, or its refusal, with the formulas. Returns the buckets of the plan."""
        limit = [] if memory is None else ["--memory", memory]
        ended = self.silt("plan", keys, length, "--merge-writes", most, *limit)
        buckets = self.smallest(keys, most)
        what = (keys, length, most, memory, ended)
        if buckets is None:
            note = f"with {keys} keys merging writes {self.least_of(keys)} entries for each row or more"
            self.assert_refused(ended, note + self.way_out(keys, most), what)
        elif memory is not None and memory < self.memory_of(keys, buckets):
            note = f"{keys} keys need {self.memory_of(keys, buckets)} bytes of memory or more"
            bound = f", if merging is to write at most {most} entries for each row"
            self.assert_refused(ended, note + bound, what)
        else:
            self.assertEqual(
                (ended.status, ended.out), (0, self.text_of(keys, length, buckets)), what
            )
            found = COST.fullmatch(ended.err)
            self.assertIsNotNone(found, what)
            said = Fraction(found[1].replace(",", ""))
            entries = Fraction(keys, 4 * rows_of(buckets))
            self.assertLessEqual(abs(said - entries), Fraction(1, 20), what)
            self.assertLessEqual(said, most, what)
        return buckets

    def assert_refused(self, ended, note, what):
        self.assertEqual(
            (ended.status, ended.out, ended.err), (1, "no plan\n", f"silt: {note}\n"), what
        )

    def test_worked_plans(self):
        """A plan for a hundred thousand keys has 1,024 buckets, and for a million 8,192."""
        for words, numbers in (
            ("100000 66", "66 1024 3584 3 8 139424"),
            ("100000 66 --merge-writes 9", "66 1024 3584 3 8 139424"),
            ("100000 66 --merge-writes 3", "66 4096 14336 3 8 257696"),
            ("100000 66 --merge-writes 2", "66 4096 14336 3 8 257696"),
            ("100000 66 --merge-writes 1", "66 8192 28672 3 8 415392"),
            ("1000000 100 --merge-writes 3", "100 32768 114688 3 8 2261568"),
            ("1000000 100 --merge-writes 50", "100 2048 7168 3 8 1078848"),
            ("1 1 --merge-writes 1", "1 2 7 3 8 78"),
            ("1000 8 --merge-writes 4294967295", "8 2 7 3 8 1077"),
        ):
            ended = self.silt("plan", *words.split())
            self.assertEqual((ended.status, ended.lines[0]), (0, numbers), words)

    def test_worked_refusals(self):
        for words, note in (
            (
                "1000000 100 --merge-writes 2",
                "with 1000000 keys merging writes 3 entries for each row or more; with --shards 2 it is 2 or less",
            ),
            (
                "16000000 32 --merge-writes 4",
                "with 16000000 keys merging writes 70 entries for each row or more; with --shards 10 it is 4 or less",
            ),
            (
                "16000000 32 --merge-writes 4 --memory 1",
                "with 16000000 keys merging writes 70 entries for each row or more; with --shards 10 it is 4 or less",
            ),
            (
                "100000 66 --merge-writes 2 --memory 4627639",
                "100000 keys need 4627640 bytes of memory or more, if merging is to write at most 2 entries for each row",
            ),
            ("20000000 8 --merge-writes 9", "KEYS is 20000000, and may be 0 to 16777139; --shards 6 has room for them"),
            ("1000 4097 --merge-writes 1", "V is 4097, and may be 1 to 4096"),
        ):
            self.assert_ends(f"plan {words}", "no plan\n", f"silt: {note}\n", 1)

    def test_each_number_of_buckets(self):
        """The most keys of so many buckets, and one more."""
        for buckets in self.BUCKETS:
            for most in (1, 2, 9, 30):
                keys = 4 * rows_of(buckets) * most
                self.check(min(keys, self.MOST_KEYS), 8, most)
                self.check(min(keys + 1, self.MOST_KEYS), 8, most)

    def test_the_most_keys_beside_the_logs(self):
        """S bounds B if there are many keys."""
        for buckets in self.BUCKETS[-4:]:
            keys = 16_777_216 - 11 * rows_of(buckets)
            for count in (keys, keys + 1):
                least = self.least_of(count)
                self.assertIsNone(self.check(count, 8, least - 1))
                self.assertIsNotNone(self.check(count, 8, least))

    def test_the_least_memory(self):
        for keys, most in ((0, 1), (1, 1), (29, 1), (1000, 3), (100_000, 2), (3_000_000, 7)):
            needed = self.memory_of(keys, self.smallest(keys, most))
            for memory in (needed - 1, needed, needed + 1_000_000):
                self.check(keys, 100, most, memory)

    def test_nine_is_the_usual_plan(self):
        """Where nine entries are possible, a plan without the option is the one with nine."""
        for keys in (0, 1, 252, 253, 12_345, 1_000_000, 4_128_768):
            usual = self.silt("plan", keys, 100)
            self.assertEqual(usual, self.silt("plan", keys, 100, "--merge-writes", 9), keys)

    def test_other_plans(self):
        for _ in range(scaled(40)):
            keys = round(10 ** self.random.uniform(0, 7.22))
            most = round(10 ** self.random.uniform(0, 3))
            least = 57_598 + 3 * keys
            memory = self.random.choice((None, round(least * self.random.uniform(1, 3))))
            self.check(keys, self.random.choice((1, 8, 100, 4096)), most, memory)

    def test_sets(self):
        """Each shard keeps to the limit."""
        for keys, shards, most, memory in (
            (0, 2, 1, None),
            (1_000_000, 2, 2, None),
            (1_000_000, 4, 1, 150_000_000),
            (16_000_000, 10, 4, None),
            (100_000_000, 64, 5, None),
        ):
            limit = [] if memory is None else ["--memory", memory]
            ended = self.silt("plan", keys, 8, "--merge-writes", most, "--shards", shards, *limit)
            share = self.share(keys, shards)
            text = self.text_of(share, 8, self.smallest(share, most), shards)
            self.assertEqual((ended.status, ended.out), (0, text), (keys, shards, ended))
            self.assertIsNotNone(COST.fullmatch(ended.err), ended)

    def test_sets_that_are_none(self):
        for words, note in (
            (
                "16000000 8 --shards 9 --merge-writes 4",
                "with 1888953 keys in each of 9 shards merging writes 5 entries for each row or more; with --shards 10 it is 4 or less",
            ),
            (
                "1000000000 8 --shards 64 --merge-writes 1",
                "with 16601626 keys in each of 64 shards merging writes 290 entries for each row or more",
            ),
            (
                "1000000 8 --shards 2 --merge-writes 2 --memory 71652955",
                "1000000 keys need 71652956 bytes of memory or more, if merging is to write at most 2 entries for each row",
            ),
            (
                "100000000 8 --shards 4 --merge-writes 5",
                "each of 4 shards is for 26562564 keys, and may be for 16777139; --shards 47 has room for them",
            ),
        ):
            self.assert_ends(f"plan {words}", "no plan\n", f"silt: {note}\n", 1)


if __name__ == "__main__":
    unittest.main()
