"""Bytes that change under an open store: a merge compares what it reads with the digests that its
stores had."""
import os
import subprocess
import time
import unittest

from harness import TIME_LIMIT
from model import Geometry
from served import ServedCase
from watch import WatchedCase, read_record, watching

# Logs of four rows, and hash regions of eight slots.
NUMBERS = "2 2 4 4 4 40"
SLOTS = 8
HASH = "refused 3 Damaged hash {} digest"
SORTED = "refused 3 Damaged sorted digest"
NOTE = "silt: store: a merge is {}: {} has another digest than the manifest says{}\n"


def puts(first, count):
    return [f"put =key/{it} {it:04x}" for it in range(first, first + count)]


class Opened:
    """An open run: it replies to one line after the other."""

    def __init__(self, case, *options):
        self.case = case
        self.run = case.start("run", "store", *options)
        case.addCleanup(self.run.kill)
        case.assertEqual(self.reply(), "opened")

    def reply(self):
        return self.run.stdout.readline().decode().removesuffix("\n")

    def ask(self, *lines):
        replies = []
        for line in lines:
            self.run.stdin.write(f"{line}\n".encode())
            self.run.stdin.flush()
            replies.append(self.reply())
        return replies

    def end(self):
        return self.case.finish(self.run)


class DamageCase(WatchedCase):
    def setUp(self):
        super().setUp()
        self.geometry = Geometry(*map(int, NUMBERS.split()))

    def with_stores(self, hashes):
        """A store of so many entries as one log has rows, and of so many hash stores after them."""
        lines = [*puts(0, 5), *["convert"] * (SLOTS + 1), *["merge"] * (SLOTS + 5)]
        for store in range(hashes):
            lines += [*puts(5 + 4 * store, 4), *["convert"] * (SLOTS + 1)]
        self.store(NUMBERS, [*lines, "flush"])
        checked = self.check_report()
        self.assertEqual(
            checked.lines[3:5],
            [f"hash stores {hashes} rows {4 * hashes}", "sorted entries 4"],
            checked,
        )

    def flip(self, at):
        """Changes one byte of the file, and returns it as it was."""
        with open(self.path("store"), "r+b", buffering=0) as store:
            store.seek(at)
            byte = store.read(1)
            store.seek(at)
            store.write(bytes([byte[0] ^ 0x20]))
        return at, byte

    def put_back(self, flipped):
        at, byte = flipped
        with open(self.path("store"), "r+b", buffering=0) as store:
            store.seek(at)
            store.write(byte)

    def hash_places(self, region):
        """A byte of each kind in a hash region: the kind, key and value of each slot, and what an
        empty one has."""
        length = self.geometry.row_length
        return [
            self.geometry.hash_at(region) + slot * length + byte
            for slot in range(SLOTS)
            for byte in (0, 1, length - 1)
        ]

    def sorted_places(self):
        """A byte of each kind of the entries, which are in the second region, since one merge has
        ended."""
        length = self.geometry.entry_length
        return [
            self.geometry.sorted_at(1) + entry * length + byte
            for entry in range(4)
            for byte in (0, 19, length - 1)
        ]


class Runs(DamageCase):
    """Lines of a run, one step each."""

    def check_refused(self, opened, steps, refusal):
        """So many steps are done: the last of them reads the last slot, and finds the damage. Each
        further one is refused. The rest of the store goes on."""
        self.assertEqual(opened.ask(*["merge"] * (steps + 3)), [*["moved"] * steps, *[refusal] * 3])
        self.assertEqual(
            opened.ask("get =key/0", "put =key/0 ffff", "flush", "get =key/0", "merge"),
            ["value 0000", "accepted 1", "acknowledged 1", "value ffff", refusal],
        )
        ended = opened.end()
        self.assertEqual((ended.status, ended.out), (0, ""), ended)

    def test_a_hash_store(self):
        self.with_stores(1)
        whole = self.path("store").read_bytes()
        for place in self.hash_places(0):
            with self.subTest(place=place):
                self.path("store").write_bytes(whole)
                opened = Opened(self)
                self.flip(place)
                self.check_refused(opened, SLOTS, HASH.format(0))
                checked = self.check_report()
                self.assertEqual(checked.status, 1, checked)
                self.assertRegex(checked.out, r"\Arefused 3 Damaged hash 0 (digest|slot \d)\n\Z")

    def test_each_of_two_hash_stores(self):
        """A merge reads the newest one first."""
        for region, steps in ((1, SLOTS), (0, 2 * SLOTS)):
            with self.subTest(region=region):
                self.with_stores(2)
                opened = Opened(self)
                self.flip(self.hash_places(region)[-1])
                self.check_refused(opened, steps, HASH.format(region))

    def test_the_entries(self):
        self.with_stores(1)
        whole = self.path("store").read_bytes()
        for place in self.sorted_places():
            with self.subTest(place=place):
                self.path("store").write_bytes(whole)
                opened = Opened(self)
                self.flip(place)
                replies = opened.ask(*["merge"] * (SLOTS + 12))
                steps = replies.index(SORTED)
                self.assertEqual(
                    (set(replies[:steps]), set(replies[steps:])), ({"moved"}, {SORTED})
                )
                self.assertEqual(opened.end().status, 0)

    def test_a_byte_that_is_put_back(self):
        """A merge that was refused goes on once it reads what was written."""
        self.with_stores(1)
        opened = Opened(self)
        flipped = self.flip(self.hash_places(0)[0])
        self.assertEqual(opened.ask(*["merge"] * (SLOTS + 2))[-2:], [HASH.format(0)] * 2)
        self.put_back(flipped)
        self.assertEqual(opened.end().status, 0)
        ended = self.silt("run", "store", text="merge\n" * (SLOTS + 9))
        self.assertEqual(ended.lines[1:], [*["moved"] * (SLOTS + 8), "finished"])
        self.assert_checked(self.check_report())

    def test_what_was_read_before(self):
        """The slots are read at once. A key that changes later is in no new store, and the old one
        is not named any more."""
        self.with_stores(1)
        opened = Opened(self)
        self.assertEqual(opened.ask("merge"), ["moved"])
        self.flip(self.hash_places(0)[1])
        self.assertEqual(
            opened.ask(*["merge"] * (SLOTS + 8)), [*["moved"] * (SLOTS + 7), "finished"]
        )
        self.assertEqual(opened.end().status, 0)
        self.assert_checked(self.check_report())
        dump = self.silt("dump", "store")
        self.assertEqual(len(dump.lines), 9, dump)

    def test_an_old_device(self):
        """An opening makes the digests that an old device lacks."""
        self.version = 1
        self.with_stores(1)
        opened = Opened(self)
        self.flip(self.hash_places(0)[2])
        self.check_refused(opened, SLOTS, HASH.format(0))


class Tends(DamageCase):
    """`tend`, whose store changes between its opening and its first step."""

    def tended(self, place):
        """Tend waits for a reader of `opened`. The byte changes meanwhile."""
        reading, writing = os.pipe()
        filler = b"-" * os.fpathconf(writing, "PC_PIPE_BUF")
        os.set_blocking(writing, False)
        filled = 0
        try:
            while True:
                filled += os.write(writing, filler)
        except BlockingIOError:
            os.set_blocking(writing, True)
        running = self.start(
            "tend",
            "store",
            stdin=subprocess.DEVNULL,
            stdout=writing,
            env=watching(self, log="record"),
        )
        self.addCleanup(running.kill)
        os.close(writing)
        by = time.monotonic() + TIME_LIMIT
        while not any(it.name == "write" and it.data == b"opened\n" for it in self.calls()):
            self.assertLess(time.monotonic(), by, "it never opened the store")
            time.sleep(0.01)
        self.flip(place)
        with open(reading, "rb") as out:
            printed = out.read()[filled:].decode()
        err = running.stderr.read().decode()
        return running.wait(TIME_LIMIT), printed, err

    def calls(self):
        try:
            return read_record(self.path("record"))
        except (FileNotFoundError, ValueError):
            return []

    def test_a_hash_store(self):
        self.with_stores(1)
        self.assertEqual(
            self.tended(self.hash_places(0)[2])[:2], (1, f"opened\n{HASH.format(0)}\n")
        )

    def test_the_entries(self):
        self.with_stores(1)
        self.assertEqual(self.tended(self.sorted_places()[2])[:2], (1, f"opened\n{SORTED}\n"))


class RunsThatTend(DamageCase):
    """`run --tend`, whose store changes behind its opening."""

    def check_refused(self, hashes, options, place, refusal):
        """Four puts freeze a log. Its hash store is one of the first merge, or waits for that
        merge. All lines have their replies, and the refusal comes behind them."""
        self.with_stores(hashes)
        opened = Opened(self, "--tend", *options)
        self.assertEqual(opened.ask("get =key/1"), ["value 0001"])
        flipped = self.flip(place)
        self.assertEqual(
            opened.ask(*puts(5 + 4 * hashes, 4)), [f"accepted {it + 1}" for it in range(4)]
        )
        self.assertEqual(
            opened.ask("get =key/1", "put =more 0102", "flush", "get =more"),
            ["value 0001", "accepted 5", "acknowledged 5", "value 0102"],
        )
        ended = opened.end()
        self.assertEqual((ended.status, ended.out, ended.err), (1, f"{refusal}\n", ""))
        checked = self.check_report()
        self.assertEqual(checked.status, 1, checked)
        self.put_back(flipped)
        self.assert_checked(self.check_report())
        again = self.silt("run", "store", "--tend", *options, text="get =more\n")
        self.assertEqual((again.status, again.out), (0, "opened\nvalue 0102\n"), again)

    def test_a_hash_store(self):
        self.check_refused(4, [], self.hash_places(0)[2], HASH.format(0))

    def test_the_newest_of_four_hash_stores(self):
        self.check_refused(4, ["--strict"], self.hash_places(3)[2], HASH.format(3))

    def test_the_entries(self):
        self.check_refused(4, [], self.sorted_places()[2], SORTED)

    def test_a_merge_of_as_many_as_are_asked_for(self):
        self.check_refused(1, ["--merge-at", "2"], self.hash_places(0)[2], HASH.format(0))

    def test_a_strict_run_with_a_refused_line(self):
        """The status says that background work was refused. The line that was refused has its
        note."""
        self.with_stores(4)
        opened = Opened(self, "--tend", "--strict")
        self.flip(self.hash_places(0)[2])
        self.assertEqual(
            opened.ask("put =a 01", *puts(21, 4), "get =key/1")[0], "refused 22 BadValue"
        )
        ended = opened.end()
        self.assertEqual((ended.status, ended.out), (1, HASH.format(0) + "\n"))
        self.assertEqual(
            ended.err,
            "silt: 1 line refused 22 BadValue, first line 1; "
            "a value has 4 hexadecimal digits here (V is 2)\n",
        )

    def test_a_run_without_background_work(self):
        """It merges nothing, so it finds nothing."""
        self.with_stores(4)
        opened = Opened(self)
        self.flip(self.hash_places(0)[2])
        self.assertEqual(
            opened.ask(*puts(21, 4), "get =key/1"),
            [*[f"accepted {it + 1}" for it in range(4)], "value 0001"],
        )
        ended = opened.end()
        self.assertEqual((ended.status, ended.out, ended.err), (0, "", ""))


class Serves(ServedCase, DamageCase):
    """A server, whose merger begins when there are two hash stores."""

    def test_reports_it_at_once_and_goes_on(self):
        self.with_stores(1)
        cases = (
            (
                self.hash_places(0)[2],
                HASH.format(0),
                "a hash store",
                f", at byte {self.geometry.hash_at(0)}",
            ),
            (
                self.sorted_places()[2],
                SORTED,
                "the sorted store",
                f", at byte {self.geometry.sorted_at(1)}",
            ),
        )
        for place, refusal, what, at in cases:
            with self.subTest(what=what):
                whole = self.path("store").read_bytes()
                server = self.serve("--merge-at", 2, "--sessions", 1)
                client = self.client(server)
                self.assertEqual(client.ask("get =key/1"), ["value 0001"])
                self.flip(place)
                self.assertEqual(client.ask(*puts(9, 4)), [f"accepted {it + 1}" for it in range(4)])
                note = NOTE.format(refusal, what, at)
                self.wait_until(lambda: note in server.error_file.read_text(), "the note")
                self.assertEqual(
                    client.ask("put =more 0102", "get =more", "get =key/5"),
                    ["accepted 5", "value 0102", "value 0005"],
                )
                client.end_input()
                self.assertEqual(client.rest(), [])
                ended = server.ended()
                self.assertEqual((ended.status, ended.err), (1, note), ended)
                self.path("store").write_bytes(whole)


if __name__ == "__main__":
    unittest.main()
