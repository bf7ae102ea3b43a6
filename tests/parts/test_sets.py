"""Sets of files, each a shard of one store: what `format --shards` makes, what `run`, `check`, `dump` and
`tend` do with all of them, and what they and jobs on one file of a set refuse."""
import fcntl
import hashlib
import os
import shutil
import time
import unittest

from commands import Commands, answer, done, differs, is_command, names
from harness import Case, Ended, scaled

# Six numbers of small stores, and of stores whose files take a while to write.
SMALL = "4 16 56 3 4 2000"
LONG = "64 1024 4096 8 16 60000"
GEOMETRY = "refused 2 BadGeometry\n"
# Where a mark begins, and what an open commit byte is.
MARK = 2_048
OPEN = 0xA7


def shard_of(word, count):
    """The shard of a key: the second four bytes of it, modulo the number of shards. A name's key is
    its SHA-1 digest."""
    key = hashlib.sha1(word[1:].encode()).digest() if word.startswith("=") else bytes.fromhex(word)
    return int.from_bytes(key[4:8], "big") % count


class SetCase(Case):
    def format(self, count, geometry=SMALL, name="store", *options):
        made = self.silt("format", name, *geometry.split(), "--shards", count, *options)
        self.assertEqual(made.status, 0, made)
        return made.out

    def mark(self, shard, name="store"):
        return self.path(f"{name}.{shard}").read_bytes()[MARK : MARK + 37]

    def dumps(self, count, name="store"):
        """The lines of the dumps of all files."""
        lines = []
        for shard in range(count):
            dumped = self.silt("dump", f"{name}.{shard}")
            self.assertEqual((dumped.status, dumped.err), (0, ""), dumped)
            for line in dumped.out.splitlines():
                self.assertEqual(shard_of(line.split()[1], count), shard, line)
                lines.append(line)
        return sorted(lines)

    def assert_refused(self, note, *words, out=GEOMETRY, name="store"):
        """Each job on the set is refused so, and no file changes."""
        before = {it.name: it.read_bytes() for it in self.folder.iterdir()}
        for job in ("run", "check", "dump", "tend"):
            ran = self.silt(job, name, *words, text="get =a\n")
            self.assertEqual(ran, Ended(1, out, f"silt: {note}\n"), job)
        self.assertEqual({it.name: it.read_bytes() for it in self.folder.iterdir()}, before)


class Formats(SetCase):
    """The files of a set have marks, which differ in the number of the shard alone."""

    def test_each_file_has_its_mark(self):
        for count in (2, 5, 64):
            name = f"of{count}"
            out = self.format(count, name=name)
            length = self.path(f"{name}.0").stat().st_size
            self.assertEqual(out, f"formatted {length}\n" * count)
            self.assertEqual(
                sorted(self.folder.glob(f"{name}.*")),
                sorted(self.path(f"{name}.{it}") for it in range(count)),
            )
            sets = {self.mark(it, name)[21:] for it in range(count)}
            self.assertEqual(len(sets), 1)
            for shard in range(count):
                self.assertEqual(
                    self.mark(shard, name)[:21],
                    bytes([OPEN]) + b"SILTSHRD" + b"".join(
                        it.to_bytes(4, "big") for it in (1, count, shard)
                    ),
                )

    def test_two_sets_differ(self):
        self.format(2, name="one")
        self.format(2, name="other")
        self.assertNotEqual(self.mark(0, "one")[21:], self.mark(0, "other")[21:])

    def test_keys_stay(self):
        """A file with keys ends the formatting, and standard error names it."""
        self.format(3)
        self.silt("run", "store", "--shards", 3, text="".join(f"put {it} 01020304\n" for it in names(30)) + "flush\n")
        kept = self.path("store.0").read_bytes()
        made = self.silt("format", "store", *SMALL.split(), "--shards", 3)
        self.assertEqual((made.status, made.out), (1, "refused 5 Device\n"))
        self.assertRegex(made.err, r"\Asilt: store\.0: it holds a store \(.*\) of at most \d+ keys; --force overwrites it\n\Z")
        self.assertEqual(self.path("store.0").read_bytes(), kept)
        made = self.silt("format", "store", *SMALL.split(), "--shards", 3, "--force")
        self.assertEqual(made.status, 0, made)
        self.assertRegex(made.err, r"\Asilt: store\.0 holds a store .*; it is overwritten\n")
        self.assertEqual(self.dumps(3), [])

    def test_numbers_out_of_their_limits(self):
        made = self.silt("format", "store", *"4 3 56 3 4 2000".split(), "--shards", 3)
        self.assertEqual(
            made, Ended(1, GEOMETRY, "silt: B is 3, and may be 2 to 32768, a power of two\n")
        )
        self.assertEqual(list(self.folder.iterdir()), [])

    def test_a_second_file_with_other_data(self):
        self.path("store.1").write_bytes(b"a letter")
        made = self.silt("format", "store", *SMALL.split(), "--shards", 3, "--sparse")
        length = self.path("store.0").stat().st_size
        self.assertEqual(
            made,
            Ended(
                1,
                f"formatted {length}\nrefused 5 Device\n",
                "silt: store.1: it holds other data; --force overwrites it\n",
            ),
        )
        self.assertEqual(self.path("store.1").read_bytes(), b"a letter")
        self.assertFalse(self.path("store.2").exists())


class Runs(SetCase):
    """A set replies as one map does."""

    def run_on(self, values, lines, count, *options):
        """Runs lines, and judges their replies by one map. Returns the map after them."""
        ran = self.silt(
            "run", "store", "--shards", count, *options, text="".join(f"{it}\n" for it in lines)
        )
        self.assertEqual((ran.status, ran.err), (0, ""), ran.err)
        first, *replies = ran.out.splitlines()
        self.assertEqual((first, len(replies)), ("opened", len(lines)))
        accepted = [0] * count
        for line, reply in zip(lines, replies):
            if line == "flush":
                self.assertEqual(reply, f"acknowledged {sum(accepted)}")
            elif is_command(line):
                if differs(values, line):
                    self.assertEqual(reply, "differs", line)
                    continue
                shard = shard_of(line.split()[1], count)
                accepted[shard] += 1
                self.assertEqual(reply, f"accepted {accepted[shard]}", line)
                values = done(values, line)
            else:
                self.assertEqual(reply, answer(values, line.split()[1]), line)
        return values

    def runs(self, count, *options):
        self.format(count)
        self.store(SMALL, name="one")
        values = {}
        commands = Commands(self.random, names(60), 4)
        for _ in range(scaled(5)):
            lines = [*commands.lines(100), "flush"]
            values = self.run_on(values, lines, count, *options)
            one = self.silt("run", "one", "--tend", text="".join(f"{it}\n" for it in lines))
            self.assertEqual(one.status, 0, one)
            self.assertEqual(self.dumps(count), sorted(self.silt("dump", "one").out.splitlines()))
        for shard in range(count):
            self.assertEqual(self.silt("tend", f"store.{shard}").status, 0)
        self.run_on(values, [f"get {it}" for it in names(60)], count)

    def test_random_lines(self):
        self.runs(4)

    def test_random_lines_of_a_set_that_tends(self):
        for count in (2, 5, 64):
            with self.subTest(count):
                self.runs(count, "--tend", "--merge-at", 2)
                for file in self.folder.iterdir():
                    file.unlink()

    def test_a_set_that_tends_has_room(self):
        """More puts than the logs have rows."""
        self.format(2)
        keys = names(64)
        lines = [f"put {keys[it % 64]} {it:08x}" for it in range(3_000)]
        self.run_on({}, [*lines, "flush"], 2, "--tend")
        ran = self.silt("run", "store", "--shards", 2, text="".join(f"{it}\n" for it in lines))
        self.assertEqual(ran.status, 0)
        self.assertIn("refused 8 NoRoom", ran.out)

    def test_steps_are_not_served(self):
        self.format(2)
        ran = self.silt("run", "store", "--shards", 2, text="convert\nmerge\n")
        self.assertEqual(ran.status, 0, ran)
        self.assertEqual(len(ran.out.splitlines()), 3)

    def test_too_few_hash_regions(self):
        self.format(2)
        ran = self.silt("run", "store", "--shards", 2, "--tend", "--merge-at", 5)
        self.assertEqual((ran.status, ran.out), (1, GEOMETRY))
        self.assertIn("has 4 hash regions", ran.err)

    def test_strict(self):
        self.format(2)
        ran = self.silt("run", "store", "--shards", 2, "--strict", text="put =a 01\n")
        self.assertEqual((ran.status, ran.out), (3, "opened\nrefused 22 BadValue\n"))


class Refusals(SetCase):
    """Files that are not all of one set in their order are refused, and standard error says why."""

    def setUp(self):
        super().setUp()
        self.format(4)

    def test_wrong_order(self):
        os.rename(self.path("store.1"), self.path("away"))
        os.rename(self.path("store.2"), self.path("store.1"))
        os.rename(self.path("away"), self.path("store.2"))
        self.assert_refused("store.1: it is shard 2 of 4, and shard 1 is due", "--shards", 4)

    def test_another_count(self):
        self.assert_refused(
            "store.0: it is one of 4 shards, and 3 are asked for", "--shards", 3
        )

    def test_a_set_s_file_by_a_number_too_high(self):
        self.assert_refused(
            "store.4: No such file or directory (os error 2)", "--shards", 5, out="refused 5 Device\n"
        )

    def test_one_missing(self):
        self.path("store.2").unlink()
        self.assert_refused(
            "store.2: No such file or directory (os error 2)", "--shards", 4, out="refused 5 Device\n"
        )
        self.assertFalse(self.path("store.2").exists())

    def test_two_sets(self):
        self.format(4, name="other")
        shutil.copy(self.path("other.3"), self.path("store.3"))
        self.assert_refused("store.3: it is a shard of another set than shard 0", "--shards", 4)

    def test_one_formatted_alone(self):
        self.store(SMALL, name="store.1")
        self.assert_refused("store.1: it is no shard of a set", "--shards", 4)

    def test_one_without_a_mark(self):
        with self.path("store.2").open("r+b") as file:
            file.seek(MARK)
            file.write(b"\0")
        self.assert_refused("store.2: it is no shard of a set", "--shards", 4)

    def test_a_mark_of_another_version(self):
        with self.path("store.2").open("r+b") as file:
            file.seek(MARK + 12)
            file.write(b"\x02")
        self.assert_refused(
            "store.2: its mark of a shard is of another version, or damaged", "--shards", 4
        )

    def test_other_numbers(self):
        """A file of other numbers with the mark of the set."""
        mark = self.mark(1)
        self.store("4 16 56 3 4 1000", name="store.1")
        with self.path("store.1").open("r+b") as file:
            file.seek(MARK)
            file.write(mark)
        ran = self.silt("run", "store", "--shards", 4, text="get =a\n")
        self.assertEqual(
            ran, Ended(1, GEOMETRY, "silt: store.1: its numbers are not those of shard 0\n")
        )

    def test_a_damaged_shard(self):
        with self.path("store.3").open("r+b") as file:
            file.write(b"\0")
        ran = self.silt("run", "store", "--shards", 4)
        self.assertEqual(ran.status, 1)
        self.assertTrue(ran.err.startswith("silt: store.3: "), ran)

    def test_a_file_in_use(self):
        with self.path("store.2").open("r+b") as file:
            fcntl.flock(file, fcntl.LOCK_EX)
            for job in ("run", "check", "dump", "tend"):
                ran = self.silt(job, "store", "--shards", 4)
                self.assertEqual((ran.status, ran.out), (1, "refused 5 Device\n"))
                self.assertTrue(ran.err.startswith("silt: store.2: "), ran)


class Alone(SetCase):
    """One file of a set is no store of its own for jobs that may put keys of other shards there."""

    def setUp(self):
        super().setUp()
        self.format(4)
        self.silt("run", "store", "--shards", 4, text="put =a 01020304\nflush\n")

    def assert_alone_refused(self, name, note):
        """A run and a server of the file are refused so, and it does not change."""
        before = self.path(name).read_bytes()
        for job in (("run", name), ("run", name, "--tend"), ("serve", name, 0), ("serve", name, 0, "--resp")):
            ended = self.silt(*job, text="put =b 01020304\nflush\n")
            self.assertEqual(ended, Ended(1, GEOMETRY, f"silt: {name}: {note}\n"), job)
            self.assertEqual(self.path(name).read_bytes(), before, job)

    def test_a_shard(self):
        for shard in range(4):
            self.assert_alone_refused(
                f"store.{shard}", f"it is shard {shard} of 4; ask for --shards 4"
            )
        ran = self.silt("run", "store", "--shards", 4, text="get =a\n")
        self.assertEqual(ran, Ended(0, "opened\nvalue 01020304\n", ""))

    def test_a_mark_of_another_version(self):
        with self.path("store.2").open("r+b") as file:
            file.seek(MARK + 12)
            file.write(b"\x02")
        self.assert_alone_refused(
            "store.2", "its mark of a shard is of another version, or damaged"
        )

    def test_a_damaged_shard(self):
        """The mark is read before the store."""
        with self.path("store.3").open("r+b") as file:
            file.write(b"\0")
        self.assert_alone_refused("store.3", "it is shard 3 of 4; ask for --shards 4")

    def test_jobs_that_take_a_shard(self):
        for shard in range(4):
            self.assert_checked(self.silt("check", f"store.{shard}"), f"store.{shard}")
            self.assertEqual(self.silt("dump", f"store.{shard}").status, 0)
            tended = self.silt("tend", f"store.{shard}")
            self.assertEqual((tended.status, tended.err), (0, ""))

    def test_a_formatted_shard_is_a_store(self):
        self.store(SMALL, name="store.1")
        self.assert_ends("run store.1", "opened\nabsent\n", text="get =a\n")

    def test_a_file_that_ends_in_the_mark(self):
        """A file that is too short for a mark is no store, and has none."""
        os.truncate(self.path("store.0"), MARK + 36)
        ran = self.silt("run", "store.0")
        self.assertEqual((ran.status, ran.out), (1, "refused 3 Damaged length\n"))
        self.assertNotIn("shard", ran.err)


class Jobs(SetCase):
    """`check`, `dump` and `tend` of all files."""

    def setUp(self):
        super().setUp()
        self.format(4)
        self.keys = names(200)
        lines = [f"put {key} {it:08x}" for it, key in enumerate(self.keys)]
        ran = self.silt("run", "store", "--shards", 4, text="".join(f"{it}\n" for it in [*lines, "flush"]))
        self.assertEqual(ran.status, 0)

    def parts(self, ended):
        """What a job printed of each shard, and that it named each in its order."""
        parts = {}
        for line in ended.out.splitlines(keepends=True):
            if line.startswith("shard "):
                self.assertEqual(line, f"shard {len(parts)}\n")
                parts[len(parts)] = ""
            else:
                parts[len(parts) - 1] += line
        return list(parts.values())

    def test_check(self):
        ones = [self.silt("check", f"store.{it}") for it in range(4)]
        checked = self.silt("check", "store", "--shards", 4)
        self.assertEqual(self.parts(checked), [it.out for it in ones])
        self.assertEqual((checked.status, checked.err), (0, "".join(it.err for it in ones)))

    def test_check_of_damaged_shards(self):
        """A check goes on behind a damaged file, and names each."""
        for shard in (1, 2):
            with self.path(f"store.{shard}").open("r+b") as file:
                file.seek(14)
                file.write(b"\xff")
        ones = [self.silt("check", f"store.{it}") for it in range(4)]
        self.assertEqual([it.status for it in ones], [0, 1, 1, 0])
        checked = self.silt("check", "store", "--shards", 4)
        self.assertEqual(self.parts(checked), [it.out for it in ones])
        self.assertEqual((checked.status, checked.err), (1, "".join(it.err for it in ones)))
        self.assertEqual([it.split(":")[1] for it in checked.err.splitlines()], [f" store.{it}" for it in range(4)])

    def test_dump(self):
        dumped = self.silt("dump", "store", "--shards", 4)
        ones = "".join(self.silt("dump", f"store.{it}").out for it in range(4))
        self.assertEqual(dumped, Ended(0, ones, ""))
        self.assertEqual(
            sorted(dumped.out.splitlines()),
            sorted(
                f"put {hashlib.sha1(key[1:].encode()).hexdigest()} {it:08x}" for it, key in enumerate(self.keys)
            ),
        )

    def test_dump_of_a_damaged_shard(self):
        """A dump ends at a damaged file."""
        with self.path("store.2").open("r+b") as file:
            file.seek(14)
            file.write(b"\xff")
        ones = [self.silt("dump", f"store.{it}") for it in range(3)]
        dumped = self.silt("dump", "store", "--shards", 4)
        self.assertEqual(dumped, Ended(1, "".join(it.out for it in ones), ones[2].err))

    def test_dump_into_a_set_of_another_count(self):
        self.format(7, name="new")
        dumped = self.silt("dump", "store", "--shards", 4)
        ran = self.silt("run", "new", "--shards", 7, "--tend", "--strict", text=dumped.out + "flush\n")
        self.assertEqual(ran.status, 0)
        again = self.silt("dump", "new", "--shards", 7)
        self.assertEqual(sorted(again.out.splitlines()), sorted(dumped.out.splitlines()))

    def test_tend(self):
        self.format(4, name="other")
        for shard in range(4):
            shutil.copy(self.path(f"store.{shard}"), self.path(f"one.{shard}"))
        ones = [self.silt("tend", f"one.{it}") for it in range(4)]
        tended = self.silt("tend", "store", "--shards", 4)
        self.assertEqual(self.parts(tended), [it.out for it in ones])
        self.assertEqual((tended.status, tended.err), (0, ""))
        again = self.silt("tend", "store", "--shards", 4)
        self.assertEqual(self.parts(again), ["opened\nconverted 0 steps, merged 0 steps\n"] * 4)

    def test_tend_with_a_number(self):
        refused = self.silt("tend", "store", "--shards", 4, "--merge-at", 5)
        self.assertEqual(self.parts(refused), [GEOMETRY] * 4)
        self.assertEqual(refused.status, 1)
        self.assertEqual(
            refused.err,
            "".join(
                f"silt: --merge-at: store.{it} has 4 hash regions, and no more hash stores\n" for it in range(4)
            ),
        )

    def test_tend_of_a_damaged_shard(self):
        """The other shards are tended."""
        with self.path("store.1").open("r+b") as file:
            file.seek(14)
            file.write(b"\xff")
        tended = self.silt("tend", "store", "--shards", 4)
        parts = self.parts(tended)
        self.assertTrue(parts[1].startswith("refused "), parts)
        self.assertTrue(all(parts[it].startswith("opened\n") for it in (0, 2, 3)), parts)
        self.assertEqual(tended.status, 1)
        self.assertRegex(tended.err, r"\Asilt: store\.1: .*\n\Z")

    def test_readers_side_by_side(self):
        """A check shares the files with readers, and with no writer."""
        with self.start("run", "store", "--shards", 4) as running:
            running.stdin.write(b"get =a\n")
            running.stdin.flush()
            running.stdout.readline()
            for job in ("check", "dump", "tend"):
                ended = self.silt(job, "store", "--shards", 4)
                self.assertEqual((ended.status, ended.out), (1, "refused 5 Device\n"))
                self.assertTrue(ended.err.startswith("silt: store.0: "), ended)
            self.finish(running)

    def test_the_same_file_twice(self):
        """A file that is two shards by links is refused."""
        self.path("store.1").unlink()
        os.link(self.path("store.0"), self.path("store.1"))
        for job in ("check", "dump"):
            self.assertEqual(
                self.silt(job, "store", "--shards", 4),
                Ended(1, GEOMETRY, "silt: store.1: it is shard 0 of 4, and shard 1 is due\n"),
            )
        for job in ("run", "tend", f"format {SMALL} --force"):
            job, *numbers = job.split()
            ended = self.silt(job, "store", *numbers, "--shards", 4)
            self.assertEqual((ended.status, ended.out.splitlines()[-1]), (1, "refused 5 Device"))
            self.assertTrue(ended.err.splitlines()[-1].startswith("silt: store.1: "), ended)

    def test_a_full_disk(self):
        """What cannot be written ends the job, and says so."""
        for job in ("check", "dump", "tend"):
            with open("/dev/full", "wb") as full:
                with self.start(job, "store", "--shards", 4, stdout=full) as running:
                    ended = self.finish(running)
            self.assertEqual((ended.status, ended.err), (1, "silt: No space left on device (os error 28)\n"))


class Full(SetCase):
    """A full shard refuses its own keys alone. Its set is checked, tended and dumped as any other."""

    def test_a_full_shard(self):
        self.format(3, "4 2 4 2 2 8")
        full = [it for it in names(100) if shard_of(it, 3) == 1][:10]
        others = [it for it in names(100) if shard_of(it, 3) != 1][:6]
        lines = [f"put {key} {it:08x}" for it, key in enumerate([*full, *others])]
        ran = self.silt(
            "run", "store", "--shards", 3, "--tend", text="".join(f"{it}\n" for it in [*lines, "flush"])
        )
        _, *replies = ran.out.splitlines()
        self.assertEqual(
            replies[:10], [*(f"accepted {it}" for it in range(1, 9)), *["refused 7 StoreFull"] * 2]
        )
        self.assertTrue(all(it.startswith("accepted ") for it in replies[10:16]), replies)
        self.assertEqual((ran.status, replies[16:]), (0, ["acknowledged 14"]))
        for job in ("check", "tend"):
            ended = self.silt(job, "store", "--shards", 3)
            self.assertEqual(ended.status, 0, ended)
        checked = self.silt("check", "store", "--shards", 3)
        self.assertIn("charge 8\n", checked.out.split("shard ")[2])
        dumped = self.silt("dump", "store", "--shards", 3)
        self.assertEqual(
            sorted(dumped.out.splitlines()),
            sorted(
                f"put {hashlib.sha1(line.split()[1][1:].encode()).hexdigest()} {line.split()[2]}"
                for line in [*lines[:8], *lines[10:]]
            ),
        )


class Streams(SetCase):
    """No file of a set is a standard stream."""

    def test_a_file_that_is_a_stream(self):
        self.format(4)
        kept = self.path("store.2").read_bytes()
        for job in ("run store", "check store", "dump store", "tend store", f"format store {SMALL} --force"):
            for stream, name in (("stdin", "input"), ("stdout", "output"), ("stderr", "error")):
                with self.path("store.2").open("r+b") as file:
                    with self.start(*job.split(), "--shards", 4, **{stream: file}) as running:
                        out, err = running.communicate(timeout=60)
                self.assertEqual(running.returncode, 1, (job, stream))
                self.assertEqual(self.path("store.2").read_bytes(), kept, (job, stream))
                if stream != "stdout":
                    self.assertEqual(out, b"refused 5 Device\n")
                if stream != "stderr":
                    self.assertRegex(err.decode(), rf"\Asilt: store\.2: .*standard {name}.*\n\Z")
        self.assertEqual(self.silt("check", "store", "--shards", 4).status, 0)


class Plans(SetCase):
    """The plan of a set is that of one shard, for its share of the keys and a sixteenth more."""

    def share(self, keys, shards):
        even = -(-keys // shards)
        return even + even // 16 + 64

    def test_plans(self):
        for keys, length, shards, memory in (
            (1_000_000, 100, 4, None),
            (100_000_000, 32, 8, None),
            (1_000_000, 100, 2, 8_000_000),
            (0, 1, 64, None),
            (7, 4096, 3, None),
            (900_000_000, 8, 64, None),
        ):
            with self.subTest(keys=keys, shards=shards):
                limit = [] if memory is None else ["--memory", memory]
                part = [] if memory is None else ["--memory", memory // shards]
                one = self.silt("plan", self.share(keys, shards), length, *part)
                planned = self.silt("plan", keys, length, "--shards", shards, *limit)
                self.assertEqual((one.status, planned.status), (0, 0), (one, planned))
                numbers, disk, memory_line = one.out.splitlines()
                self.assertEqual(
                    planned.out.splitlines(),
                    [
                        numbers,
                        f"disk {shards * int(disk.split()[1])}",
                        f"memory {shards * int(memory_line.split()[1])}",
                    ],
                )
                self.assertEqual(one.err.split(";")[0], planned.err.split(";")[0])

    def test_a_planned_set_has_room(self):
        keys = names(3000)
        planned = self.silt("plan", len(keys), 4, "--shards", 5)
        self.format(5, planned.out.splitlines()[0])
        lines = [*(f"put {key} 01020304" for key in keys), "flush"]
        ran = self.silt(
            "run", "store", "--shards", 5, "--tend", "--strict", text="".join(f"{it}\n" for it in lines)
        )
        self.assertEqual((ran.status, ran.err), (0, ""))

    def test_the_least_number_of_shards(self):
        """A plan that is none names the fewest shards that have room for the keys."""
        most = 16_777_139
        for keys in (16_777_140, 20_000_000, 100_000_000, 1_000_000_000, 4_294_967_295):
            fits = [it for it in range(2, 65) if self.share(keys, it) <= most]
            hint = f"; --shards {fits[0]} has room for them" if fits else ""
            self.assert_ends(
                f"plan {keys} 8", "no plan\n", f"silt: KEYS is {keys}, and may be 0 to {most}{hint}\n", 1
            )
            if not fits:
                continue
            self.assertEqual(self.silt("plan", keys, 8, "--shards", fits[0]).status, 0)
            if fits[0] > 2:
                fewer = fits[0] - 1
                note = f"each of {fewer} shards is for {self.share(keys, fewer)} keys, and may be for {most}"
                self.assert_ends(f"plan {keys} 8 --shards {fewer}", "no plan\n", f"silt: {note}{hint}\n", 1)

    def test_no_plan(self):
        for words, note in (
            ("1000 4097 --shards 4", "V is 4097, and may be 1 to 4096"),
            ("1000 0 --shards 4", "V is 0, and may be 1 to 4096"),
            ("1000 8 --shards 4 --memory 100000", "1000 keys need 234340 bytes of memory or more"),
        ):
            self.assert_ends(f"plan {words}", "no plan\n", f"silt: {note}\n", 1)


class Words(SetCase):
    """Numbers that are none of a set, and jobs that take no set."""

    def test_numbers_of_shards(self):
        for count in (0, 1, 65, 4294967295):
            for job in ("run store", f"format store {SMALL}", "check store", "dump store", "tend store", "plan 10 2"):
                job += f" --shards {count}"
                ended = self.silt(*job.split())
                self.assertEqual((ended.status, ended.out), (2, "usage\n"))
                self.assertTrue(
                    ended.err.endswith(f"\nsilt: --shards cannot be '{count}': a set has 2 to 64 shards\n"),
                    ended.err,
                )
        self.assertEqual(list(self.folder.iterdir()), [])

    def test_other_jobs(self):
        ended = self.silt("script", *SMALL.split(), "--shards", 4)
        self.assertEqual((ended.status, ended.out), (2, "usage\n"))
        self.assertTrue(ended.err.endswith("\nsilt: '--shards' is no option here\n"), ended.err)


class Kills(SetCase):
    """A formatting that is killed leaves what no run opens, and a second one works."""

    def test_kills(self):
        self.format(4, LONG)
        begun = time.monotonic()
        self.format(4, LONG)
        whole = time.monotonic() - begun
        cut = 0
        for _ in range(scaled(20)):
            before = [self.mark(it) for it in range(4)]
            with self.start("format", "store", *LONG.split(), "--shards", 4) as running:
                time.sleep(self.random.random() * whole)
                running.kill()
                running.communicate()
            after = [self.mark(it) for it in range(4)]
            is_whole = len({it[21:] for it in after}) == 1 and all(it[0] == OPEN for it in after)
            ran = self.silt("run", "store", "--shards", 4)
            self.assertEqual(ran.status, 0 if is_whole else 1, (ran, after))
            cut += not is_whole
            self.assertTrue(is_whole or after != before)
            self.format(4, LONG, "store", "--force")
            self.assertEqual(self.silt("run", "store", "--shards", 4), Ended(0, "opened\n", ""))
        self.assertGreater(cut, 0)


if __name__ == "__main__":
    unittest.main()
