"""Damaged stores: check and run report the finding that the rules name, and change no byte.

Each damage says which refusal has to come, and the model has to find it too. The stores are of
both versions of the layout.
"""
import model
from damages import DAMAGES, HARMLESS
from files import DamageCase, changed
from harness import PROVED, scaled
from layout import as_version_1
from lines import Maker, join_lines

COUNT = scaled(40 if PROVED else 8)
# How many pairs of damages are planted in each store.
PAIRS = 30


class Damage(DamageCase):
    def test_each_damage_alone(self):
        planted = set()
        for _ in range(COUNT):
            sound, store = self.make_rich_store()
            for kind in (it for group in DAMAGES.values() for it in group):
                image = bytearray(sound)
                expected = kind(image, store, self.random)
                if expected:
                    planted.add(kind)
                    self.assert_refused(
                        image, expected, f"{kind.__name__} in {store.geometry.words}"
                    )
        missing = [it.__name__ for group in DAMAGES.values() for it in group if it not in planted]
        self.assertEqual(missing, [], "damages that no store had")

    def test_the_first_of_two_damages_decides(self):
        """The later one is planted first, since some damages of the header change the length."""
        groups = list(DAMAGES.values())
        for _ in range(COUNT):
            sound, store = self.make_rich_store()
            for _ in range(PAIRS):
                first, second = sorted(self.random.sample(range(len(groups)), 2))
                kinds = [self.random.choice(groups[it]) for it in (first, second)]
                image = bytearray(sound)
                later, earlier = (kind(image, store, self.random) for kind in reversed(kinds))
                if earlier and later:
                    note = f"{kinds[0].__name__} and {kinds[1].__name__} in {store.geometry.words}"
                    self.assert_refused(image, earlier, note)

    def test_what_is_not_looked_at_is_no_damage(self):
        for _ in range(COUNT):
            sound, store = self.make_rich_store()
            maker = Maker(self.random, store.geometry)
            maker.keys = [b"=%d" % i for i in range(5 * store.geometry.cap)]
            for kind in HARMLESS:
                note = f"{kind.__name__} in {store.geometry.words}"
                image = bytearray(sound)
                kind(image, store, self.random)
                self.path("store").write_bytes(image)
                self.assertEqual(model.check(image)[1], 0, note)
                self.compare_check(note)
                gets = [b"get " + key for key in maker.keys]
                self.compare_run(join_lines(gets + maker.lines(40) + gets + [b"flush"]), note)
                self.compare_check(note)


class WorkedDamage(DamageCase):
    """The worked findings of `2 2 4 2 2 8`, with their bytes written out by hand, on devices of
    version 1: there no digest covers them. test_versions.py has those of version 2."""

    GEOMETRY = "2 2 4 2 2 8"
    version = 1

    def crafted(self, *changes, geometry=GEOMETRY, lines=()):
        """A store's image, with these bytes in place: (offset, hexadecimal digits)."""
        return changed(self.store(geometry, lines).read_bytes(), *changes)

    def converted(self):
        """The image after five puts and a conversion."""
        puts = [f"put {f'0{i}'.ljust(40, '0')} 000{i}" for i in range(1, 6)]
        return self.crafted(lines=[*puts, "flush", *["convert"] * 9])

    def rows(self, count, value="0001"):
        """The bytes of put rows of the keys 01.., 02.. and so on."""
        return "".join("01" + f"0{i}".ljust(40, "0") + value for i in range(1, count + 1))

    def assert_answers(self, lines, replies):
        ran = self.silt("run", "store", text="".join(line + "\n" for line in lines))
        self.assertEqual(ran.lines, ["opened", *replies])

    def test_one_byte_short(self):
        self.assert_refused(self.crafted()[:-1], "refused 3 Damaged length", "")

    def test_slot_1_of_generation_0(self):
        self.assert_refused(self.crafted((8192, "a7" + "00" * 120)), "refused 3 Damaged slot 1", "")

    def test_two_equal_entries(self):
        image = self.crafted((4096 + 117, "00000002"), (36864, ("05" * 20 + "0001") * 2))
        self.assert_refused(image, "refused 3 Damaged sorted 1", "")

    def test_row_of_kind_3(self):
        self.assert_refused(
            self.crafted((12288, "a7"), (16384, "03")), "refused 3 Damaged log 0 row 0", ""
        )

    def test_zero_bytes(self):
        self.assert_refused(b"", "refused 1 NotFormatted", "")
        self.assert_refused(bytes(45056), "refused 1 NotFormatted", "")

    def test_last_generation(self):
        self.crafted()
        image = self.crafted((8192, "a77fffffffffffffff" + "00" * 112))
        self.path("store").write_bytes(image)
        puts = [f"put 0{i}{'0' * 38} 000{i}" for i in range(1, 6)]
        accepted = [f"accepted {i}" for i in range(1, 5)]
        self.assert_answers([*puts, "flush"], [*accepted, "refused 10 Spent", "acknowledged 4"])
        gets = [f"get 0{i}{'0' * 38}" for i in range(1, 6)]
        self.assert_answers(gets, [*(f"value 000{i}" for i in range(1, 5)), "absent"])
        # A swap compares first.
        self.path("store").write_bytes(image)
        key = f"01{'0' * 38}"
        swaps = [
            f"swap {key} 0001 0002",
            f"swap {key} 0009 0002",
            f"swap {key} 0001 -",
            f"swap {key} - 0002",
        ]
        replies = ["refused 10 Spent", "differs"] * 2
        self.assert_answers([f"put {key} 0001"] * 4 + swaps, [*accepted, *replies])

    def test_five_keys_of_one_bucket(self):
        geometry = "2 2 8 2 2 16"
        image = self.crafted((12288, "a7" * 5), (16384, self.rows(5)), geometry=geometry)
        self.assert_refused(image, "refused 4 Crowded", "")
        self.path("store").write_bytes(
            self.crafted((12288, "a7" * 4), (16384, self.rows(4)), geometry=geometry)
        )
        self.assertEqual(self.silt("run", "store").out, "opened\n")

    def test_slot_of_kind_3(self):
        image = self.converted()
        image[28695] = 3
        self.assert_refused(image, "refused 3 Damaged hash 0 slot 1", "")

    def test_row_copied_into_another_bucket(self):
        image = self.converted()
        image[28764 : 28764 + 23] = image[28672 : 28672 + 23]
        self.assert_refused(image, "refused 3 Damaged hash 0 slot 4", "")

    def test_header_commit_byte_closed(self):
        self.assert_refused(self.crafted((0, "00")), "refused 1 NotFormatted", "")

    def test_other_versions(self):
        for version in ("00000000", "00000003", "00000009", "01000001", "00010002"):
            self.assert_refused(self.crafted((9, version)), "refused 1 NotFormatted", version)

    def test_three_buckets(self):
        image = self.crafted((17, "00000003"))
        self.assert_refused(image, "refused 3 Damaged header", "")
        self.assert_refused(image[:-1], "refused 3 Damaged header", "one byte short")

    def test_active_log_2(self):
        self.assert_refused(self.crafted((4096 + 9, "00000002")), "refused 3 Damaged slot 0", "")

    def test_both_slots_closed(self):
        self.assert_refused(self.crafted((4096, "00")), "refused 3 Damaged no slot", "")

    def test_nine_puts(self):
        """Eight entries and a row of the log, where eight are the limit."""
        entries = "".join(f"0{i}".ljust(40, "0") + "0001" for i in range(1, 9))
        image = self.crafted(
            (4096 + 117, "00000008"), (36864, entries), (12288, "a7"), (16384, self.rows(1))
        )
        self.assert_refused(image, "refused 3 Damaged charge", "")
        image[12288] = 0
        self.path("store").write_bytes(image)
        self.assertEqual(
            self.check_report().lines[-3:], ["sorted entries 8", "charge 8", "layout 1"]
        )


# A new store of `2 2 4 2 2 8` with these bytes in place is refused so, and this is said of it.
# Fields of slot 0: the active log at 4105, the hash stores at 4141, the sorted store's region at
# 4209, the number of its entries at 4213.
LOG_1 = (
    (4105, "00000001"),
    (20480, "a7a7a7a7"),
    (24576, "".join(f"010{it}{38 * '0'}0001" for it in (1, 2, 3))),
)
HASH_0 = (4141, "0000000100000000")
HASH_1 = (4141, "0000000100000001")
SORTED_1 = (4209, "00000001")
ENTRIES_3 = ((4213, "00000003"), (40960 + 22, "01"), (40960 + 44, "01"))
PLACES = {
    ((17, "00000003"),): ("header", "a number of the header is out of its limits, at byte 13"),
    ((8192, "a7"),): ("slot 1", "a manifest slot is damaged, at byte 8192"),
    ((4105, "00000002"),): ("slot 0", "a manifest slot is damaged, at byte 4096"),
    ((4096, "00"),): ("no slot", "no manifest slot is open, at byte 4096"),
    ((12288, "a7"),): ("log 0 row 0", "a row of a log is damaged, at byte 16384"),
    (*LOG_1, (24645, "03")): ("log 1 row 3", "a row of a log is damaged, at byte 24645"),
    (HASH_0, (28695, "03")): ("hash 0 slot 1", "a slot of a hash store is damaged, at byte 28695"),
    (HASH_1, (32929, "03")): ("hash 1 slot 7", "a slot of a hash store is damaged, at byte 32929"),
    (HASH_0,): (
        "hash 0 digest",
        "a hash store has another digest than the manifest says, at byte 28672",
    ),
    (HASH_1,): (
        "hash 1 digest",
        "a hash store has another digest than the manifest says, at byte 32768",
    ),
    ((4213, "00000001"),): (
        "sorted digest",
        "the sorted store has another digest than the manifest says, at byte 36864",
    ),
    (SORTED_1, (4213, "00000001")): (
        "sorted digest",
        "the sorted store has another digest than the manifest says, at byte 40960",
    ),
    (SORTED_1, (4213, "00000002")): (
        "sorted 1",
        "an entry of the sorted store is damaged, at byte 40982",
    ),
    (SORTED_1, *ENTRIES_3): ("sorted 2", "an entry of the sorted store is damaged, at byte 41004"),
}


class Places(DamageCase):
    """What is said of a damaged store, letter for letter, and where the damage begins."""

    GEOMETRY = "2 2 4 2 2 8"

    def assert_said(self, image, refusal, said):
        """Each job but `format` refuses the file, says this of it, and leaves it as it is."""
        self.path("store").write_bytes(image)
        for call in ("check store", "run store", "tend store", "dump store", "serve store 0"):
            self.assert_ends(call, f"refused {refusal}\n", f"silt: store: {said}\n", 1, "flush\n")
        self.assertEqual(self.image(), bytes(image))

    def test_each_place(self):
        sound = self.store(self.GEOMETRY).read_bytes()
        for changes, (place, said) in PLACES.items():
            with self.subTest(place=place):
                self.assert_said(changed(sound, *changes), f"3 Damaged {place}", said)

    def test_the_first_of_several(self):
        """Each comes before those that were there."""
        image = self.store(self.GEOMETRY).read_bytes()
        for changes in (
            ((4213, "00000001"),),
            (HASH_1,),
            ((12288, "a7"),),
            ((8192, "a7"),),
            ((17, "00000003"),),
        ):
            image = changed(image, *changes)
            place, said = PLACES[changes]
            self.assert_said(image, f"3 Damaged {place}", said)

    def test_the_whole(self):
        """A length and a charge have no offset. A file without a store may get one by a format."""
        sound = self.store(self.GEOMETRY).read_bytes()
        self.assert_said(
            sound[:-1], "3 Damaged length", "it has another length than its header says"
        )
        entries = "".join(f"0{it}".ljust(40, "0") + "0001" for it in range(1, 9))
        image = changed(
            as_version_1(sound),
            (4213, "00000008"),
            (36864, entries),
            (12288, "a7"),
            (16384, f"0101{38 * '0'}0001"),
        )
        self.assert_said(image, "3 Damaged charge", "it holds more rows than it may")
        for image in (changed(sound[:-1], (0, "00")), b"", bytes(45056)):
            self.assert_said(
                image, "1 NotFormatted", "it is not a silt store; make one with silt format"
            )
