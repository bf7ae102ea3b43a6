"""Digests of stores that are no longer written, and the two versions of the layout.

A manifest of version 2 has the digests of the hash stores and of the sorted store that it names,
and an opening compares them with what it reads. A device of version 1 has none. It is served all
the same, and gets digests with its next manifest; its header stays as it is.
"""
import os
import re
import subprocess
import sys
import unittest

import model
from files import DamageCase
from harness import PROGRAM, PROVED, TOP
from layout import (
    ACTIVE,
    DIGEST,
    GENERATION,
    HASH_DIGESTS,
    HEADER_LEN,
    LONG_FORM,
    SECTOR,
    SLOT_LEN,
    SLOTS,
    SORTED_DIGEST,
    as_version_1,
    slot_of,
)
from lines import join_lines
from served import ServedCase

# A build with checks tries every so many bytes.
EVERY = 1 if PROVED else 7
G = "2 2 4 2 2 8"
# Room for two hash stores and a sorted store beside them.
WIDE = "2 2 4 3 3 32"
MAGIC_AND_VERSION = "a753494c54464c5348000000"


def key(number):
    """A key whose two buckets are bucket 0 of two."""
    return f"{number:02}".ljust(40, "0")


def puts(numbers):
    return [f"put {key(it)} {it:04}" for it in numbers]


CONVERT = ["convert"] * 9
# Log 0 is a hash store in region 0, and log 1 has one row.
CONVERTED = [*puts(range(1, 6)), "flush", *CONVERT]
MERGE = ["merge"] * 13
# Log 1 is frozen.
FREEZE = [*puts(range(6, 9)), f"delete {key(9)}", "flush"]
# After a merge two more logs are hash stores: the older one in region 0, the newer one in region 1.
TWO_STORES = [
    *CONVERTED,
    *MERGE,
    *puts(range(6, 10)),
    "flush",
    *CONVERT,
    *puts((10, 11)),
    f"delete {key(2)}",
    *puts((12,)),
    "flush",
    *CONVERT,
]


class VersionCase(DamageCase, ServedCase):
    """A test that makes images of stores, and says what is found in them."""

    def image_of(self, geometry, lines, version=2):
        """The bytes of a store of this geometry after these lines."""
        self.path("store").unlink(missing_ok=True)
        self.version = version
        return bytearray(self.store(geometry, lines).read_bytes())

    def assert_whole(self, image, layout, note=""):
        """A check finds nothing wrong with an image, and prints this layout."""
        self.path("store").write_bytes(image)
        self.compare_check(note)
        checked = self.check_report()
        self.assertEqual((checked.status, checked.lines[-1:]), (0, [f"layout {layout}"]), note)

    def assert_form(self, version, is_long):
        """The header's version, and whether each slot is open and long: None if it is closed."""
        image = self.image()
        forms = []
        for at in SLOTS:
            forms.append(image[at + GENERATION] >= LONG_FORM if image[at] == model.OPEN else None)
        self.assertEqual((image[:13].hex(), forms), (f"{MAGIC_AND_VERSION}{version:02x}", is_long))

    def run_lines(self, lines):
        """Runs lines on the store. Replies and bytes are the model's."""
        self.compare_run(join_lines(line.encode() for line in lines), "")

    def answers(self, lines, name="store"):
        return self.silt("run", name, text="".join(line + "\n" for line in lines)).lines[1:]


class Digests(VersionCase):
    """A device that names two hash stores and a sorted store."""

    def setUp(self):
        super().setUp()
        self.sound = self.image_of(WIDE, TWO_STORES)
        self.store_of = model.examine(self.sound)
        self.slot = slot_of(self.store_of.generation)

    def changed(self, at):
        image = bytearray(self.sound)
        image[at] ^= self.random.randint(1, 255)
        return image

    def test_what_it_names(self):
        self.assertEqual([it.region for it in self.store_of.hashes], [1, 0])
        self.assertEqual(len(self.store_of.sorted.entries), 4)
        self.assert_whole(self.sound, 2)

    def test_each_byte_of_each_digest(self):
        for begin, place in (
            (HASH_DIGESTS, "hash 1"),
            (HASH_DIGESTS + DIGEST, "hash 0"),
            (SORTED_DIGEST, "sorted"),
        ):
            for at in range(begin, begin + DIGEST):
                self.assert_refused(
                    self.changed(self.slot + at), f"refused 3 Damaged {place} digest", f"byte {at}"
                )

    def test_each_byte_that_digests_cover(self):
        """Whatever byte of a slot or of an entry is another one, something is found."""
        geometry = self.store_of.geometry
        covered = []
        for one in self.store_of.hashes:
            covered += range(
                geometry.hash_at(one.region),
                geometry.hash_at(one.region) + geometry.slots * geometry.row_length,
            )
        begin = geometry.sorted_at(self.store_of.sorted.region)
        covered += range(begin, begin + 4 * geometry.entry_length)
        for at in covered[self.random.randrange(EVERY)::EVERY]:
            image = self.changed(at)
            (found,), status = model.check(image)
            self.assertEqual((found[:17], status), ("refused 3 Damaged", 1))
            self.path("store").write_bytes(image)
            ran = self.check_report()
            self.assertEqual((ran.out, ran.status), (found + "\n", 1), f"byte {at}")

    def test_bytes_past_the_count(self):
        """The places of fourteen hash stores that are not named, and what is behind all digests."""
        places = [
            *range(HASH_DIGESTS + 2 * DIGEST, SORTED_DIGEST)
        ][self.random.randrange(EVERY)::EVERY]
        places += [SLOT_LEN, SLOT_LEN + 1, SECTOR - 2, SECTOR - 1]
        for at in places:
            self.path("store").write_bytes(self.changed(self.slot + at))
            self.assertEqual(self.check_report().status, 0, f"byte {at}")
        image = bytearray(self.sound)
        for begin, end in ((HASH_DIGESTS + 2 * DIGEST, SORTED_DIGEST), (SLOT_LEN, SECTOR)):
            image[self.slot + begin:self.slot + end] = self.random.randbytes(end - begin)
        self.assert_whole(image, 2)
        # The next manifest has zeros there.
        self.run_lines([*puts(range(13, 17)), "flush", *MERGE])

    def test_digests_of_the_other_slot(self):
        image = bytearray(self.sound)
        other = sum(SLOTS) - self.slot
        self.assertEqual(image[other], model.OPEN)
        image[other + HASH_DIGESTS:other + SLOT_LEN] = self.random.randbytes(
            SLOT_LEN - HASH_DIGESTS
        )
        self.assert_whole(image, 2)

    def test_swapped_digests(self):
        image = bytearray(self.sound)
        at = self.slot + HASH_DIGESTS
        image[at:at + DIGEST], image[at + DIGEST:at + 2 * DIGEST] = (
            image[at + DIGEST:at + 2 * DIGEST], image[at:at + DIGEST]
        )
        self.assert_refused(image, "refused 3 Damaged hash 1 digest", "two digests swapped")

    def test_slots_come_before_the_digest_of_their_store(self):
        image = self.changed(self.slot + HASH_DIGESTS)
        image[self.store_of.geometry.hash_at(1) + 7 * 23] = 3
        self.assert_refused(
            image, "refused 3 Damaged hash 1 slot 7", "the last slot and the digest of one store"
        )

    def test_a_digest_comes_before_the_slots_of_the_next_store(self):
        image = self.changed(self.slot + HASH_DIGESTS)
        image[self.store_of.geometry.hash_at(0)] = 3
        self.assert_refused(
            image, "refused 3 Damaged hash 1 digest", "a digest, and a slot of the older store"
        )
        image = self.changed(self.slot + HASH_DIGESTS + DIGEST)
        image[self.store_of.geometry.hash_at(1) + 7 * 23] = 3
        self.assert_refused(
            image, "refused 3 Damaged hash 1 slot 7", "a slot, and the digest of the older store"
        )

    def test_the_sorted_store_comes_last(self):
        begin = self.store_of.geometry.sorted_at(self.store_of.sorted.region)
        image = self.changed(begin + 22 + 20)
        self.assert_refused(image, "refused 3 Damaged sorted digest", "a value of an entry")
        image[begin + 3 * 22] = 0
        self.assert_refused(image, "refused 3 Damaged sorted 3", "the last entry and the digest")
        image[self.slot + HASH_DIGESTS + DIGEST] ^= 1
        self.assert_refused(
            image, "refused 3 Damaged hash 0 digest", "a digest of a hash store before them"
        )

    def test_logs_come_first(self):
        """No digest covers a log."""
        image = self.changed(self.slot + HASH_DIGESTS)
        log = self.store_of.active
        self.assertEqual(len(log.rows), 1)
        image[self.store_of.geometry.rows_at(log.region)] = 3
        self.assert_refused(
            image, f"refused 3 Damaged log {log.region} row 0", "a row and a digest"
        )
        image = self.changed(self.store_of.geometry.rows_at(log.region) + 22)
        self.assert_whole(image, 2, "a value of a log")

    def test_reasons(self):
        """Standard error names the region whose digest is another one."""
        geometry = self.store_of.geometry
        region = self.store_of.sorted.region
        for at, what, place in (
            (
                HASH_DIGESTS,
                "a hash store has another digest than the manifest says",
                geometry.hash_at(1),
            ),
            (
                HASH_DIGESTS + DIGEST,
                "a hash store has another digest than the manifest says",
                geometry.hash_at(0),
            ),
            (
                SORTED_DIGEST,
                "the sorted store has another digest than the manifest says",
                geometry.sorted_at(region),
            ),
        ):
            self.path("store").write_bytes(self.changed(self.slot + at))
            for job in ("check", "run", "tend", "dump"):
                ended = self.silt(job, "store")
                self.assertEqual(
                    (ended.status, ended.err), (1, f"silt: store: {what}, at byte {place}\n"), ended
                )

    def test_a_server_refuses_it(self):
        self.path("store").write_bytes(self.changed(self.slot + SORTED_DIGEST))
        ended = self.begin("store", 0).ended()
        self.assertEqual((ended.status, ended.out), (1, "refused 3 Damaged sorted digest\n"))

    def test_a_dump_of_a_copy_is_the_way_back(self):
        self.path("copy").write_bytes(self.sound)
        self.path("store").write_bytes(self.changed(self.store_of.geometry.hash_at(0) + 22))
        self.assertEqual(self.silt("dump", "store").out, "refused 3 Damaged hash 0 digest\n")
        dumped = self.silt("dump", "copy").out
        self.silt("format", "store", *WIDE.split(), "--force")
        ran = self.silt("run", "store", "--tend", text=dumped + "flush\n")
        self.assertEqual(ran.lines[-1], "acknowledged 11")
        self.assertEqual(self.silt("dump", "store").out, dumped)


class OldDevices(VersionCase):
    """A device of version 1 is served, and becomes one with digests at its next manifest."""

    def test_no_manifest_and_no_change_of_form(self):
        self.image_of(G, CONVERTED, version=1)
        self.assert_form(1, [False, False])
        for lines in ([], [f"get {key(1)}", *puts((6, 7)), "flush"], ["convert", *["merge"] * 5]):
            self.run_lines(lines)
            self.assert_form(1, [False, False])
            self.assert_whole(self.image(), 1)

    def test_one_manifest_after_the_other(self):
        """The slot that a manifest is written to gets the long form, the other one stays as it
        is."""
        self.image_of(G, CONVERTED, version=1)
        self.run_lines(MERGE)
        self.assert_form(1, [False, True])
        self.assert_whole(self.image(), 2)
        self.run_lines(FREEZE)
        self.assert_form(1, [True, True])
        self.assert_whole(self.image(), 2)

    def test_a_new_device_without_digests(self):
        """One that was formatted and no more has its next manifest in the slot that is closed."""
        self.image_of(G, [], version=1)
        self.assert_form(1, [False, None])
        self.run_lines([*puts(range(1, 6)), "flush"])
        self.assert_form(1, [False, True])
        self.assert_whole(self.image(), 2)

    def test_tend(self):
        self.image_of(G, [*puts(range(1, 6)), "flush"], version=1)
        ended = self.silt("tend", "store")
        self.assertEqual(
            (ended.status, ended.lines),
            (0, ["opened", "converted 9 steps, merged 13 steps"]),
            ended,
        )
        self.assert_form(1, [True, True])
        self.assert_whole(self.image(), 2)
        again = self.silt("tend", "store")
        self.assertEqual(again.lines, ["opened", "converted 0 steps, merged 0 steps"])

    def test_run_with_tend(self):
        self.image_of(WIDE, TWO_STORES, version=1)
        lines = puts(range(13, 30))
        ended = self.silt(
            "run", "store", "--tend", text="".join(it + "\n" for it in [*lines, "flush"])
        )
        self.assertEqual((ended.status, ended.lines[-1]), (0, "acknowledged 17"), ended)
        self.assert_form(1, [True, True])
        self.assert_whole(self.image(), 2)
        self.assertEqual(
            self.answers([f"get {key(20)}", f"get {key(2)}"]), ["value 0020", "absent"]
        )

    def test_a_server(self):
        self.image_of(G, [*puts(range(1, 5)), "flush"], version=1)
        server = self.serve("--sessions", 1)
        client = self.client(server)
        self.assertEqual(
            client.ask(f"get {key(1)}", *puts((5,)), f"get {key(5)}"),
            ["value 0001", "accepted 1", "value 0005"],
        )
        client.end_input()
        self.assertEqual((client.rest(), server.ended().status), ([], 0))
        self.assert_form(1, [True, True])
        self.report(
            "generation 3",
            "active log 1 rows 1",
            "frozen logs 0 rows 0",
            "hash stores 0 rows 0",
            "sorted entries 4",
            "charge 5",
            "layout 2",
        )

    def test_a_server_without_background_work(self):
        self.image_of(G, [*CONVERTED, *MERGE], version=1)
        server = self.serve("--sessions", 1)
        self.assertEqual(
            self.client(server).ask(f"get {key(3)}", f"get {key(9)}"), ["value 0003", "absent"]
        )
        server.kill()
        self.assert_form(1, [False, False])

    def test_a_check_and_a_dump_write_nothing(self):
        image = self.image_of(G, [*CONVERTED, *MERGE], version=1)
        self.assert_whole(image, 1)
        dumped = self.silt("dump", "store")
        self.assertEqual(dumped.lines, puts(range(1, 6)))
        self.assertEqual(self.image(), bytes(image))

    def test_a_format_makes_a_new_device(self):
        self.image_of(G, [*CONVERTED, *MERGE], version=1)
        self.assertEqual(
            self.silt("format", "store", *G.split(), "--force").out, "formatted 45056\n"
        )
        self.assert_form(2, [True, None])
        self.assert_whole(self.image(), 2)

    def test_the_last_generation(self):
        """A slot with the last generation, in both forms: it is no other one without the bit."""
        image = self.image_of(G, [])
        image[SLOTS[1]:SLOTS[1] + SLOT_LEN] = image[SLOTS[0]:SLOTS[0] + SLOT_LEN]
        image[8193:8201] = b"\xff" * 8
        lines = [*puts(range(1, 6)), "flush"]
        refused = [*(f"accepted {it}" for it in range(1, 5)), "refused 10 Spent", "acknowledged 4"]
        for made, layout in ((image, 2), (as_version_1(image), 1)):
            self.assert_whole(made, layout)
            self.assertEqual(self.check_report().lines[0], f"generation {2**63 - 1}")
            self.assertEqual(self.answers(lines), refused)


class Forms(VersionCase):
    """Which forms a slot may have."""

    def test_a_short_slot_of_a_new_device(self):
        """It is damage in the slot that is not current too."""
        sound = self.image_of(G, CONVERTED)
        for slot in (0, 1):
            image = bytearray(sound)
            image[SLOTS[slot] + GENERATION] &= ~LONG_FORM
            self.assert_refused(image, f"refused 3 Damaged slot {slot}", "no digests")
        image[SLOTS[0] + GENERATION] &= ~LONG_FORM
        self.assert_refused(image, "refused 3 Damaged slot 0", "no digests in both")

    def test_a_closed_short_slot(self):
        """What is behind a closed commit byte does not count."""
        image = self.image_of(G, CONVERTED)
        image[SLOTS[1]:SLOTS[1] + 2] = b"\x00\x00"
        self.assert_whole(image, 2)

    def test_version_1_over_digests(self):
        image = self.image_of(G, CONVERTED)
        image[12] = 1
        self.assert_whole(image, 2)
        image[8193] &= 0x7F
        self.assert_whole(image, 2, "the other slot is short")
        image[SLOTS[0] + 1 + HASH_DIGESTS] ^= 1
        self.assert_refused(
            image, "refused 3 Damaged hash 0 digest", "digests are compared under version 1 too"
        )

    def test_version_2_over_short_slots(self):
        image = self.image_of(G, CONVERTED, version=1)
        image[12] = 2
        self.assert_refused(image, "refused 3 Damaged slot 0", "version 2 without digests")
        image = self.image_of(G, [], version=1)
        image[12] = 2
        self.assert_refused(
            image, "refused 3 Damaged slot 0", "version 2 without digests, as formatted"
        )

    def test_zeros_for_digests(self):
        """Byte 4,097 of an old device: the highest bit of its generation."""
        image = self.image_of(G, [], version=1)
        image[SLOTS[0] + GENERATION] = LONG_FORM
        self.assert_refused(image, "refused 3 Damaged sorted digest", "an empty store")
        image = self.image_of(G, CONVERTED, version=1)
        image[SLOTS[0] + GENERATION] = LONG_FORM
        self.assert_refused(image, "refused 3 Damaged hash 0 digest", "a hash store")

    def test_other_versions(self):
        for version in (0, 3, 4, 9, 255):
            for lines in ([], CONVERTED):
                image = self.image_of(G, lines)
                image[12] = version
                self.assert_refused(image, "refused 1 NotFormatted", f"version {version}")

    def test_the_header_of_a_new_device(self):
        self.assertEqual(
            self.image_of(G, [])[:HEADER_LEN].hex(),
            "a753494c54464c534800000002000000020000000200000004000000020000000200000008",
        )
        self.assert_form(2, [True, None])


class Worked(VersionCase):
    """A byte of a value, before and after digests."""

    def damaged(self, version):
        """Byte 28,694, the last one of the value of key 01 in its hash store."""
        image = self.image_of(G, CONVERTED, version)
        self.assertEqual(image[28694], 1)
        image[28694] = 2
        return image

    def test_without_digests_nobody_sees_it(self):
        self.path("store").write_bytes(self.damaged(1))
        self.assertEqual(self.answers([f"get {key(1)}"]), ["value 0002"])
        self.assert_whole(self.image(), 1)

    def test_with_digests_it_is_found(self):
        self.assert_refused(self.damaged(2), "refused 3 Damaged hash 0 digest", "byte 28,694")

    def test_digests_are_of_what_was_read(self):
        """A manifest vouches for the bytes that the opening read, whatever they were once."""
        self.path("store").write_bytes(self.damaged(1))
        self.run_lines(FREEZE)
        self.assert_whole(self.image(), 2)
        self.assertEqual(self.answers([f"get {key(1)}"]), ["value 0002"])
        image = bytearray(self.image())
        image[28694] = 1
        self.assert_refused(image, "refused 3 Damaged hash 0 digest", "the byte as it was once")

    def test_a_merge_of_an_old_device(self):
        self.image_of(G, CONVERTED, version=1)
        self.assertEqual(self.answers(MERGE), ["moved"] * 12 + ["finished"])
        self.assertEqual(self.image()[SLOTS[1]:SLOTS[1] + ACTIVE].hex(), "a78000000000000003")
        self.assertEqual(
            self.check_report().lines[-3:], ["sorted entries 4", "charge 5", "layout 2"]
        )

    def test_a_value_of_a_sorted_entry(self):
        for version in (1, 2):
            image = self.image_of(G, [*CONVERTED, *MERGE], version)
            self.assertEqual(image[40960 + 21], 1)
            image[40960 + 21] = 9
            if version == 2:
                self.assert_refused(image, "refused 3 Damaged sorted digest", "byte 40,981")
            else:
                self.path("store").write_bytes(image)
                self.assertEqual(self.answers([f"get {key(1)}"]), ["value 0009"])


class Scrub(VersionCase):
    """The line of the README for cron: it keeps a dump of a sound store, and prints what is wrong
    with a damaged one."""

    def setUp(self):
        super().setUp()
        self.path("bin").mkdir()
        self.path("bin/silt").symlink_to(PROGRAM)
        text = (TOP / "README.md").read_text()
        self.command = re.search(r"^```cron\n(?:\S+ ){5}cd /srv && (.*)\n```$", text, re.M).group(1)
        self.restore = re.search(r"^`(\(cat a\.dump.*)`\.$", text, re.M).group(1).replace(
            "./silt", "silt"
        )
        self.image_of(WIDE, TWO_STORES)
        self.path("store").rename(self.path("a.silt"))
        self.dumped = self.silt("dump", "a.silt").out

    def shell(self, command):
        env = {**os.environ, "PATH": f"{self.path('bin')}:{os.environ['PATH']}"}
        ran = subprocess.run(
            ["sh", "-c", command],
            cwd=self.folder,
            env=env,
            capture_output=True,
            text=True,
            timeout=60,
        )
        return ran.returncode, ran.stdout, ran.stderr

    def test_a_sound_store_is_dumped(self):
        self.assertEqual(self.shell(self.command), (0, "", ""))
        self.assertEqual(self.path("a.dump").read_text(), self.dumped)

    def test_a_damaged_store_is_reported_and_its_dump_stays(self):
        self.shell(self.command)
        image = bytearray(self.image("a.silt"))
        image[model.examine(image).geometry.hash_at(0) + 22] ^= 1
        self.path("a.silt").write_bytes(image)
        status, out, err = self.shell(self.command)
        self.assertEqual((status, err), (0, ""))
        self.assertEqual(sorted(out.splitlines())[0], "refused 3 Damaged hash 0 digest")
        self.assertEqual(self.path("a.dump").read_text(), self.dumped)
        self.silt("format", "new.silt", *WIDE.split())
        self.assertEqual(self.shell(self.restore)[1].splitlines()[-1], "acknowledged 11")
        self.assertEqual(self.silt("dump", "new.silt").out, self.dumped)

    def test_a_store_in_use(self):
        with self.start("run", "a.silt") as running:
            running.stdout.readline()
            status, out, _ = self.shell(self.command)
            running.communicate()
        self.assertEqual(status, 0)
        self.assertIn("the file is in use", out)
        self.assertFalse(self.path("a.dump").exists())


class Pictures(VersionCase):
    """draw_store.py draws a store of either version."""

    def drawn(self, image):
        self.path("store").write_bytes(image)
        words = [sys.executable, str(TOP / "tools/draw_store.py"), "store", "picture.svg"]
        ran = subprocess.run(words, cwd=self.folder, capture_output=True, text=True, timeout=60)
        return ran.stderr or self.path("picture.svg").read_text()

    def test_both_versions(self):
        image = self.image_of(WIDE, TWO_STORES)
        picture = self.drawn(image)
        self.assertIn("generation 7 (slot 1)", picture)
        self.assertEqual(self.drawn(as_version_1(image)), picture)
        image[12] = 1
        self.assertEqual(self.drawn(image), picture)

    def test_what_is_no_store(self):
        image = self.image_of(WIDE, TWO_STORES, version=1)
        for version, words in (
            (2, "manifest slot 0 is open, and its body is not well formed"),
            (3, "its layout is version 3"),
        ):
            image[12] = version
            self.assertIn(words, self.drawn(image))


if __name__ == "__main__":
    unittest.main()
