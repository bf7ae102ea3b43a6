"""Power cuts of real kernels: a short run of `tests/power`, and its judge on cuts made by hand.

Guests need packages of Debian and a kernel (`tests/power prepare`). Without them the run is left
out.
"""
import contextlib
import random
import socket
import struct
import subprocess
import sys
import unittest
from unittest import mock

from harness import PROGRAM, SEED, TESTS, TIME_LIMIT, Case, setting, without_note
from power_disk import (
    BLOCK,
    FLUSH,
    FUA,
    GO,
    READ,
    REPLY,
    REQUEST,
    SECTOR,
    WRITE,
    Disk,
    Flushed,
    Image,
    Written,
    cut,
)
from power_guest import Guest, GuestDied, missing
from power_lives import FILE_SYSTEMS, STORE, Chain, Rig, mounted
from power_loads import Stream, judge

# The minutes of a run, and the seconds that it may take: the last chain of lives goes on to its end.
MINUTES = float(setting("POWER", "2"))
LIMIT = 60 * MINUTES + 600
OLD, NEW, NEWEST = b"\1" * BLOCK, b"\2" * BLOCK, b"\3" * BLOCK


class Guests(Case):
    def setUp(self):
        super().setUp()
        if lacks := missing():
            self.skipTest(f"no guest can run here without {', '.join(lacks)}")

    def test_what_is_said_of_a_file_system(self):
        """A real kernel's lists: something is said of an ext4 without a journal, and of no other."""
        ext4 = [it for it in FILE_SYSTEMS if it.kind == "ext4" and it.options == "defaults"]
        try:
            root = Rig(PROGRAM.resolve(), self.folder).root("ext4")
            with contextlib.closing(Guest(self.folder, root, ext4[0].made())) as guest:
                said = {it.name: self.says_something(guest, it) for it in ext4}
        except (GuestDied, ConnectionError) as died:
            self.skipTest(f"a guest ended early: {died}")
        self.assertEqual(said, {it.name: it.has_note for it in ext4})

    def says_something(self, guest, fs):
        """Whether a format on this file system says something against it."""
        guest.disk.insert(fs.made())
        guest.must(mounted(fs))
        said = guest.must(f"silt format {STORE} 2 2 4 2 2 8")
        guest.must("umount /mnt")
        return without_note(said) != said

    def test_real_file_systems(self):
        words = [sys.executable, TESTS / "power", "--minutes", str(MINUTES), "--seed", str(SEED)]
        words += ["--program", PROGRAM, "--keep", self.path("kept")]
        words += ["--lives", "2", "--commands", "200"]
        try:
            ran = subprocess.run(words, capture_output=True, text=True, timeout=LIMIT)
        except subprocess.TimeoutExpired:
            self.skipTest("guests are too slow here")
        if ran.returncode == 3:
            self.skipTest(f"a guest ended early: {ran.stdout}")
        self.assertEqual(ran.returncode, 0, ran.stdout + ran.stderr)
        self.assertRegex(ran.stdout, r"\n[1-9][0-9]* cuts, 0 bad\n\Z")


class Cuts(unittest.TestCase):
    """What a cut leaves of a disk, over many random choices."""

    def images(self, log, place=None, lies=False):
        """Images of cuts at this place of the log, or behind it."""
        base = Image(8 * BLOCK)
        base.write(0, OLD)
        chosen = random.Random(SEED)
        place = len(log) if place is None else place
        return [cut(base, log, place, lies, chosen, SECTOR) for _ in range(200)]

    def found(self, *words, **how):
        """Which of the three contents the first sector of each image has."""
        return {it.read(0, SECTOR)[0] for it in self.images(*words, **how)}

    def test_a_flush_settles_what_it_covers(self):
        log = [Written(0, NEW, False), Flushed(1), Written(BLOCK, NEW, False)]
        self.assertEqual(self.found(log), {2})

    def test_a_flush_settles_nothing_that_had_no_reply(self):
        self.assertEqual(self.found([Written(0, NEW, False), Flushed(0)]), {1, 2})

    def test_what_is_not_flushed_is_old_or_new(self):
        log = [Written(0, NEW, False), Flushed(1), Written(0, NEWEST, False)]
        self.assertEqual(self.found(log), {2, 3})

    def test_a_write_with_fua_is_settled_once_it_has_a_reply(self):
        self.assertEqual(self.found([Written(0, NEW, True)]), {2})

    def test_a_write_that_is_under_way_is_old_or_new(self):
        for fua in (False, True):
            log = [Written(0, NEW, True), Written(0, NEWEST, fua), Flushed(2)]
            self.assertEqual(self.found(log, 0), {1, 2})
            self.assertEqual(self.found(log, 1), {2, 3})
            self.assertEqual(self.found(log, 3), {3})

    def test_a_write_may_be_torn(self):
        blocks = {it.read(0, BLOCK) for it in self.images([Written(0, NEW, False)])}
        self.assertLess(2, len(blocks))
        for block in blocks:
            pieces = {block[at : at + SECTOR] for at in range(0, BLOCK, SECTOR)}
            self.assertLessEqual(pieces, {OLD[:SECTOR], NEW[:SECTOR]})

    def test_a_disk_that_lies_loses_what_was_flushed(self):
        self.assertEqual(self.found([Written(0, NEW, False), Flushed(1)], lies=True), {1, 2})


class Export(Case):
    """A client of a disk, as a virtual machine is one. Handles of its requests are all alike."""

    def setUp(self):
        super().setUp()
        self.disk = Disk(self.path("disk"))
        self.disk.insert(Image(8 * BLOCK))
        self.addCleanup(self.disk.listener.close)
        self.link = socket.socket(socket.AF_UNIX)
        self.addCleanup(self.link.close)
        self.link.connect(str(self.path("disk")))
        # Flags, and the options for structured replies, which the disk does not have, and to begin.
        self.link.sendall(struct.pack(">I", 1) + self.option(8) + self.option(GO, bytes(6)))
        self.disk.accept()
        self.addCleanup(self.disk.link.close)
        self.link.settimeout(TIME_LIMIT)
        greeting = self.link.recv(18 + 20 + 20 + 12 + 20, socket.MSG_WAITALL)
        self.assertEqual(struct.unpack(">Q", greeting[60:68])[0], 8 * BLOCK)

    def option(self, number, data=b""):
        return b"IHAVEOPT" + struct.pack(">II", number, len(data)) + data

    def request(self, kind, offset=0, length=0, data=b"", flags=0):
        return struct.pack(">IHH8xQI", REQUEST, flags, kind, offset, length) + data

    def served(self, *requests, length=0):
        """Sends requests in one piece. What their replies have behind their heads."""
        self.link.sendall(b"".join(requests))
        self.assertTrue(self.disk.serve())
        replies = self.link.recv(16 * len(requests) + length, socket.MSG_WAITALL)
        self.assertEqual(replies[:8], struct.pack(">II", REPLY, 0))
        return replies[16 * len(requests) :]

    def test_reads_what_was_written(self):
        self.served(self.request(WRITE, 1000, BLOCK, NEW))
        read = self.served(self.request(READ, 999, BLOCK + 2), length=BLOCK + 2)
        self.assertEqual(read, b"\0" + NEW + b"\0")

    def test_a_flush_covers_what_had_a_reply(self):
        write = self.request(WRITE, 0, BLOCK, NEW)
        self.served(write, self.request(FLUSH))
        self.served(self.request(FLUSH))
        self.served(self.request(WRITE, 0, BLOCK, OLD, flags=FUA))
        one, other = Written(0, NEW, False), Written(0, OLD, True)
        self.assertEqual(self.disk.log, [one, Flushed(0), Flushed(2), other])

    def test_half_a_request_waits(self):
        write = self.request(WRITE, 0, BLOCK, NEW)
        self.link.sendall(write[:2000])
        self.assertTrue(self.disk.serve())
        self.assertEqual(self.disk.log, [])
        self.served(write[2000:])
        self.assertEqual(self.disk.image.read(0, BLOCK), NEW)


class Deaths(unittest.TestCase):
    """A guest that gives no answer while it looks at a cut."""

    def found(self, **another):
        """What is found by a chain whose guest dies, if another guest finds this."""
        died = mock.Mock(side_effect=GuestDied("no answer"))
        chain = Chain(FILE_SYSTEMS[0], 1, mock.Mock(fresh=False), random.Random(SEED), None)
        chain.guest = mock.Mock(run=died)
        with mock.patch("power_lives.find_anew", **another):
            found = chain.find(Image(BLOCK))
        self.assertTrue(chain.has_died)
        return found

    def test_another_guest_looks(self):
        self.assertEqual(self.found(return_value=({"a": "1"}, "said")), ({"a": "1"}, "said"))

    def test_both_die(self):
        self.assertEqual(self.found(side_effect=GuestDied("again")), ("died", "again"))


class Judge(unittest.TestCase):
    """Four commands on two keys, of which two are acknowledged behind entry 8 of the log."""

    commands = [("a", "1", 5), ("b", "2", 6), ("a", None, 7), ("a", "3", 9)]
    stream = Stream(commands, [(8, 2), (10, 4)])

    def test_what_a_cut_may_leave(self):
        for place, base, found, wrong in [
            (4, {"a": "0"}, {"a": "0"}, None),
            (4, {"a": "0"}, {"a": "1"}, "differs"),
            (8, {}, {"a": "1", "b": "2"}, None),
            (8, {}, {"b": "2"}, None),
            (8, {}, {"a": "1"}, "lost"),
            (8, {}, {}, "lost"),
            (8, {}, {"a": "3", "b": "2"}, "differs"),
            (9, {}, {"a": "3", "b": "2"}, None),
            (10, {}, {"b": "2"}, "lost"),
            (10, {}, {"b": "7"}, "differs"),
            (10, {"c": "4"}, {"a": "3", "b": "2", "c": "4"}, None),
            (10, {"c": "4"}, {"a": "3", "b": "2"}, "differs"),
        ]:
            with self.subTest(place=place, found=found):
                self.assertEqual(judge([self.stream], base, place, found), wrong)

    def test_streams_are_cut_apart(self):
        other = Stream([("x", "1", 5), ("x", "2", 6)], [(8, 1)])
        both = [self.stream, other]
        self.assertIsNone(judge(both, {}, 8, {"b": "2", "x": "1"}))
        self.assertIsNone(judge(both, {}, 8, {"a": "1", "b": "2", "x": "2"}))
        self.assertEqual(judge(both, {}, 8, {"b": "2"}), "lost")
        self.assertEqual(judge(both, {}, 8, {"b": "2", "x": "3"}), "differs")
