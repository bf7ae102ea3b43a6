"""The first day with silt: what a newcomer does wrong destroys no data, leaves no work undone, and
is reported with its reason."""
import os
import socket
import subprocess
import unittest

from commands import answer, done, value_of
from harness import PROGRAM, Case, Ended, mounting, scaled, without_note, without_notes
from served import ServedCase
from watch import WatchedCase, watching

# Logs of four rows, and how a store of these numbers is named.
SMALL = "2 2 4 2 2 8"
NAMED = "V 2, B 2, CAP 4, NL 2, NH 2, S 8"
# Logs of 56 rows: without background work 168 rows fill all of them.
MANY = "8 16 56 3 4 2000"
DEVICE = "refused 5 Device\n"
OTHER = "silt: file: it holds other data; --force overwrites it\n"
# What is said of a store that is overwritten, and of one that stays.
OVERWRITTEN = "silt: file holds a store{}; it is overwritten\n"
KEPT = "silt: file: it holds a store{}; --force overwrites it\n"
DAMAGED = " that is damaged or cannot be read"
FULL = (
    "silt: 1 line refused 7 StoreFull, first line {}; merging drops what was overwritten or deleted (run with --tend, or silt "
    "tend), and more keys need a larger S\n"
)
# Six numbers, and which one is out of its limits.
OUT_OF_LIMITS = {
    "0 2 4 2 2 8": "V is 0, and may be 1 to 4096",
    "4097 2 4 2 2 8": "V is 4097, and may be 1 to 4096",
    "2 3 4 2 2 8": "B is 3, and may be 2 to 32768, a power of two",
    "2 12 4 2 2 8": "B is 12, and may be 2 to 32768, a power of two",
    "2 65536 4 2 2 8": "B is 65536, and may be 2 to 32768, a power of two",
    "2 2 9 2 2 8": "CAP is 9, and may be 1 to 8, four times B at most",
    "2 2 4 1 2 8": "NL is 1, and may be 2 to 8",
    "2 2 4 9 2 8": "NL is 9, and may be 2 to 8",
    "2 2 4 2 0 8": "NH is 0, and may be 1 to 16",
    "2 2 4 2 17 8": "NH is 17, and may be 1 to 16",
    "2 2 4 2 2 0": "S is 0, and may be 1 to 16777216",
    "2 2 4 2 2 4294967295": "S is 4294967295, and may be 1 to 16777216",
}


# Numbers of a larger store, and its length.
LARGE = "2 16 64 8 16 4000"
LARGE_LENGTH = 323_584
NO_SPACE = "silt: store: No space left on device (os error 28)\n"
# Mounts a small file system, and runs what follows in it. Its name and its size come before that.
IN_A_SMALL_ONE = 'mount -t tmpfs -o size="$2" tmpfs "$1" && cd "$1" && shift 2 && eval "$1"'


class Files(Case):
    """The file of a new store has room for all of it, so that it is never full later."""

    def blocks(self):
        return 512 * self.path("store").stat().st_blocks

    def test_all_of_a_file_is_written(self):
        self.silt("format", "store", *LARGE.split(), "--sparse")
        self.assertEqual(self.path("store").stat().st_size, LARGE_LENGTH)
        self.assertLess(self.blocks(), LARGE_LENGTH)
        sparse = self.path("store").read_bytes()
        for before in ("none", "sparse", "other data"):
            if before != "sparse":
                self.path("store").unlink()
            if before == "other data":
                self.path("store").write_bytes(b"\0" * 5_000_000)
            self.silt("format", "store", *LARGE.split(), "--force")
            self.assertEqual(self.path("store").read_bytes(), sparse)
            self.assertGreaterEqual(self.blocks(), LARGE_LENGTH)

    def in_a_small_one(self, script):
        """What this script prints in a file system of 256 KiB. `$SILT` is the program."""
        self.path("small").mkdir()
        ran = subprocess.run(
            [*mounting(self), "sh", "-c", IN_A_SMALL_ONE, "sh", "small", "256k", script],
            env={**os.environ, "SILT": PROGRAM},
            cwd=self.folder,
            capture_output=True,
            text=True,
        )
        return ran.stdout, without_notes(ran.stderr)

    def test_a_new_file_on_a_full_disk(self):
        """It is refused at once, and removed."""
        out, err = self.in_a_small_one(f"$SILT format store {LARGE}; echo $?; ls -A")
        self.assertEqual((out, err), (f"{DEVICE}1\n", NO_SPACE))

    def test_a_store_on_a_full_disk(self):
        """It keeps all that it has. An empty file that was there before stays too."""
        out, err = self.in_a_small_one(
            f"$SILT format store {SMALL}; echo 'put =a 0102\nflush' | $SILT run store; cp store old;"
            f"$SILT format --force store {LARGE}; echo $?; cmp store old && echo same; rm store;"
            f"> store; $SILT format store {LARGE}; ls -As store"
        )
        kept = "formatted 45056\nopened\naccepted 1\nacknowledged 1\n"
        self.assertEqual(out, f"{kept}{DEVICE}1\nsame\n{DEVICE}0 store\n")
        overwritten = OVERWRITTEN.format(f" ({NAMED}) of at most 1 keys").replace("file", "store", 1)
        self.assertEqual(err, overwritten + 2 * NO_SPACE)

    def test_a_sparse_file_on_a_full_disk(self):
        """It is made, as it has few blocks."""
        out, err = self.in_a_small_one(f"$SILT format store {LARGE} --sparse")
        self.assertEqual((out, err), (f"formatted {LARGE_LENGTH}\n", ""))


class Formats(WatchedCase):
    """`format` overwrites only an empty file or a store without keys, unless it is forced."""

    def format(self, *options, geometry=SMALL, name="file"):
        return self.silt("format", name, *geometry.split(), *options)

    def check_formatted(self, ended, geometry=SMALL):
        self.assertEqual((ended.status, ended.out), (0, "formatted 45056\n"), ended)
        self.assertEqual(self.check_report("file").lines[-2:], ["charge 0", "layout 2"])

    def other_data(self):
        return (
            b"x",
            b"the only copy of something\n" * 3,
            bytes(45056),
            self.random.randbytes(45056),
            self.random.randbytes(100_000),
        )

    def test_other_data_stay(self):
        for data in self.other_data():
            self.path("file").write_bytes(data)
            ended = self.format()
            self.assertEqual((ended.status, ended.out), (1, DEVICE), ended)
            self.assertEqual(ended.err, OTHER)
            self.assertEqual(self.path("file").read_bytes(), data)

    def test_nothing_of_other_data_is_touched(self):
        self.path("file").write_bytes(b"the only copy of something\n" * 3)
        ended, calls = self.recorded("format", "file", *SMALL.split())
        self.assertEqual((ended.status, ended.out), (1, DEVICE), ended)
        self.assertEqual([it.name for it in calls if it.name in ("pwrite", "ftruncate")], [])

    def test_force(self):
        for data in self.other_data():
            for options in (("--force",), ("--force", "--")):
                self.path("file").write_bytes(data)
                ended = self.silt("format", *options, "file", *SMALL.split())
                self.check_formatted(ended)

    def test_an_empty_file(self):
        self.path("file").write_bytes(b"")
        ended = self.format()
        self.check_formatted(ended)
        self.assertEqual(ended.err, "")

    def check_kept(self, held, geometry=SMALL):
        """A format is refused with a note of what the file holds, and changes no byte. By force it
        makes an empty store, and says so before its first write."""
        before = self.path("file").read_bytes()
        ended, calls = self.recorded("format", "file", *geometry.split())
        self.assertEqual(ended, Ended(1, DEVICE, KEPT.format(held)))
        self.assertEqual([it.name for it in calls if it.name in ("pwrite", "ftruncate")], [])
        self.assertTrue(self.path("file").read_bytes() == before, "the file has changed")
        ended, calls = self.recorded("format", "file", *geometry.split(), "--force")
        self.check_formatted(ended)
        self.assertEqual(ended.err, OVERWRITTEN.format(held))
        changed = next(n for n, it in enumerate(calls) if it.name in ("pwrite", "ftruncate"))
        said = "".join(it.moved.decode() for it in calls[:changed] if it.file == "standard error")
        self.assertEqual(without_note(said), ended.err)

    def test_a_store_with_keys_stays(self):
        """Whatever the new numbers are."""
        for geometry in (SMALL, "2 2 8 2 2 16"):
            self.path("file").unlink(missing_ok=True)
            self.store(SMALL, ["put =a 0102", "put =b 0304", "put =c 0506", "flush"], "file")
            self.check_kept(f" ({NAMED}) of at most 3 keys", geometry)

    def test_a_store_of_an_older_version_stays(self):
        self.store(SMALL, ["put =a 0102", "put =b 0304", "flush"], "file")
        self.make_old("file")
        self.check_kept(f" ({NAMED}) of at most 2 keys")

    def test_keys_that_are_not_in_a_log_stay(self):
        """In hash stores and in the sorted store, also if they were deleted since and still take
        their places."""
        puts = [f"put =k{it} 0102" for it in range(5)]
        steps = ["convert"] * 9
        for lines in (
            [*puts, *steps, "delete =k4", "flush"],
            [*puts, *steps, *["merge"] * 13, "delete =k4", "flush"],
        ):
            self.path("file").unlink(missing_ok=True)
            self.store(SMALL, lines, "file")
            self.check_kept(f" ({NAMED}) of at most 5 keys")
        self.path("file").unlink()
        self.store(SMALL, ["put =a 0102", "delete =a", "flush"], "file")
        self.check_kept(f" ({NAMED}) of at most 1 keys")

    def test_a_store_without_keys(self):
        """A new one, and one with deletes alone. Nothing that was accepted and not flushed
        counts."""
        for lines in ([], ["delete =a", "flush"], ["put =a 0102"]):
            self.path("file").unlink(missing_ok=True)
            self.store(SMALL, lines, "file")
            for options in ((), ("--force",)):
                ended = self.format(*options)
                self.check_formatted(ended)
                self.assertEqual(ended.err, OVERWRITTEN.format(f" ({NAMED}) of at most 0 keys"))

    def test_a_damaged_store_stays(self):
        """It may hold keys, also if the damage is in a store of none."""
        for lines, at in ((["put =a 0102", "flush"], 16384), ([], 4105)):
            self.path("file").unlink(missing_ok=True)
            path = self.store(SMALL, lines, "file")
            image = bytearray(path.read_bytes())
            image[at] = 3
            path.write_bytes(image)
            self.assertEqual(self.silt("check", "file").status, 1)
            self.check_kept(f" ({NAMED}){DAMAGED}")

    def test_a_store_that_cannot_be_read_stays(self):
        """Each read of the look at it fails."""
        self.store(SMALL, ["put =a 0102", "flush"], "file")
        before = self.path("file").read_bytes()
        for number in range(1, 5):
            ended = self.silt(
                "format", "file", *SMALL.split(), env=watching(self, fail=f"pread:{number}:EIO")
            )
            self.assertEqual((ended.status, ended.out), (1, DEVICE), (number, ended))
            self.assertTrue(self.path("file").read_bytes() == before, number)

    def test_a_format_that_was_stopped(self):
        """A store of which only some writes were made is silt's, but nobody knows what it held."""
        self.store(SMALL, name="whole")
        image = bytearray(self.path("whole").read_bytes())
        image[0] = 0
        self.path("file").write_bytes(image)
        self.check_kept(DAMAGED)

    def assert_new(self):
        """The file is an empty store, and takes a put."""
        lines = "get =abc\nput =abc 0102\nflush\n"
        self.assert_ends("run file", "opened\nabsent\naccepted 1\nacknowledged 1\n", text=lines)

    def test_a_file_that_is_formatted_again(self):
        """Its length is set, and what it held is lost."""
        self.path("file").write_bytes(b"short")
        self.assert_ends("format file 2 2 8 2 2 16", DEVICE, OTHER, 1)
        self.assertEqual(self.path("file").read_bytes(), b"short")
        self.assert_ends("format file 2 2 8 2 2 16 --force", "formatted 45056\n")
        self.assert_new()
        held = " (V 2, B 2, CAP 8, NL 2, NH 2, S 16) of at most 1 keys"
        self.assert_ends(f"format file {SMALL}", DEVICE, KEPT.format(held), 1)
        self.assert_ends(
            f"format file {SMALL} --force", "formatted 45056\n", OVERWRITTEN.format(held)
        )
        self.assert_new()
        self.assertEqual(self.path("file").stat().st_size, 45056)

    def test_each_kind_of_what_is_overwritten(self):
        """Other data, an empty store, a store of another length than its header says, and other
        data that begin almost as a store."""
        empty = OVERWRITTEN.format(f" ({NAMED}) of at most 0 keys")
        text = b"no store, but a text of more bytes than a header has"
        self.path("file").write_bytes(text)
        self.assert_ends(f"format file {SMALL}", DEVICE, OTHER, 1)
        self.assertEqual(self.path("file").read_bytes(), text)
        self.assert_ends(f"format file {SMALL} --force", "formatted 45056\n")
        self.assert_ends(f"format file {SMALL}", "formatted 45056\n", empty)
        self.assert_ends(
            "format file 100 1024 3000 4 4 100000 --force", "formatted 27471872\n", empty
        )
        os.truncate(self.path("file"), 45056)
        self.check_kept(DAMAGED)
        with self.path("file").open("r+b") as file:
            file.seek(1)
            file.write(b"s")
        self.assert_ends(f"format file {SMALL}", DEVICE, OTHER, 1)

    def test_other_data_of_the_length_of_a_store(self):
        """They stay to the last byte. Behind a forced format comes a store, and it is named."""
        diary = b"a diary".ljust(45056, b"\0")
        self.path("file").write_bytes(diary)
        self.assert_ends(f"format file {SMALL}", DEVICE, OTHER, 1)
        self.assertEqual(self.path("file").read_bytes(), diary)
        self.assert_ends(f"format file {SMALL} --force", "formatted 45056\n")
        empty = OVERWRITTEN.format(f" ({NAMED}) of at most 0 keys")
        self.assert_ends(f"format file {SMALL}", "formatted 45056\n", empty)

    def test_a_header_that_is_damaged_or_written_in_part(self):
        for first in (b"\x00SILTFLSH", b"\xffSILTFLSH\x00\x00\x00\x01"):
            self.path("file").write_bytes(first.ljust(45056, b"\0"))
            self.check_kept(DAMAGED)

    def test_numbers_out_of_their_limits(self):
        """No file is made or touched. The first such number is named."""
        self.path("kept").write_bytes(b"kept")
        for numbers, said in OUT_OF_LIMITS.items():
            due = Ended(1, "refused 2 BadGeometry\n", f"silt: {said}\n")
            for words in (
                "format kept",
                "format kept --force",
                "format none",
                "format none/none",
                "script",
            ):
                self.assertEqual(
                    self.silt(*words.split(), *numbers.split(), text="flush\n"),
                    due,
                    (words, numbers),
                )
        self.assertEqual(
            (self.path("kept").read_bytes(), [it.name for it in self.folder.iterdir()]),
            (b"kept", ["kept"]),
        )

    def test_numbers_within_their_limits(self):
        """A number may begin with zeros."""
        for numbers in ("3 2 1 2 1 1", "2 2 8 8 16 100", "2 2 4 2 16 8", "0000000002 2 4 2 2 8"):
            ended = self.silt("script", *numbers.split(), text="flush\n")
            self.assertEqual(ended, Ended(0, "opened\nacknowledged 0\n", ""), numbers)


class Runs(WatchedCase):
    """A run says at its end which commands were refused, and what helps."""

    def run_lines(self, *lines, options=(), end="\n"):
        return self.silt("run", "store", *options, text="\n".join(lines) + end)

    def test_nothing_is_said_of_a_run_without_refusals(self):
        self.store(SMALL)
        ended = self.run_lines("put =a 0102", "", "flush", "get =a")
        self.assertEqual((ended.status, ended.err), (0, ""), ended)

    def test_jobs_that_are_done_say_nothing(self):
        """But a check names the numbers of the store."""
        report = (
            "active log 0 rows {0}\nfrozen logs 0 rows 0\nhash stores 0 rows 0\nsorted entries 0\n"
            "charge {0}\nlayout 2\n"
        )
        numbers = "silt: store: V 2, B 2, CAP 4, NL 2, NH 2, S 8; charge {} of 8\n"
        self.assert_ends(f"format store {SMALL}", "formatted 45056\n")
        self.assert_ends("run store", "opened\n")
        self.assert_ends("tend store", "opened\nconverted 0 steps, merged 0 steps\n")
        self.assert_ends("check store", "generation 0\n" + report.format(0), numbers.format(0))
        self.assert_ends(
            "run store", "opened\naccepted 1\nacknowledged 1\n", text="put =abc 0102\nflush\n"
        )
        self.assert_ends("check store", "generation 0\n" + report.format(1), numbers.format(1))

    def test_several_runs(self):
        """Each finds what was flushed. The end of a run flushes nothing."""
        rest = "silt: the last line has no line feed, and is not answered\n"
        bad = "silt: 1 line refused 20 BadLine, first line 2\n"
        self.store(SMALL)
        self.assert_ends(
            "run store",
            "opened\naccepted 1\nacknowledged 1\nvalue 0102\n",
            text="put =abc 0102\nflush\nget =abc\n",
        )
        self.assert_ends(
            "run store",
            "opened\naccepted 1\nvalue 0304\naccepted 2\n",
            rest,
            text="put =abc 0304\nget =abc\nput =abc 0506\r\n\r\nflush",
        )
        self.assert_ends("run store", "opened\nvalue 0102\n", text="get =abc\n")
        self.assert_ends(
            "run store",
            "opened\nvalue 0102\nrefused 20 BadLine\naccepted 1\n",
            bad + rest,
            text="get =abc\nstop 0 old\ndelete =abc\nget =abc",
        )
        self.assert_ends("run store", "opened\n")

    def test_refusals_are_counted_by_their_reason(self):
        self.store(SMALL)
        ended = self.run_lines(
            "pot", "put =a 01", "put =a 0102", "get 12", "put =b 0", "", "get", "put =c 04", "flush"
        )
        self.assertEqual(ended.status, 0)
        self.assertEqual(
            ended.err,
            "silt: 2 lines refused 20 BadLine, first line 1\n"
            "silt: 1 line refused 21 BadKey, first line 4\n"
            "silt: 3 lines refused 22 BadValue, first line 2; a value has 4 hexadecimal digits here (V is 2)\n",
        )

    def test_a_swap_of_two_hyphens(self):
        """No value is wrong, and the note says what is. A key out of its form, a word more or a
        value is another fault."""
        self.store(SMALL)
        swap = "OLD and NEW of a swap are not both a hyphen"
        value = "a value has 4 hexadecimal digits here (V is 2)"
        digits = "0123456789abcdefABCD" * 2
        for lines, said in (
            (["swap =a - -"], f"1 line refused 22 BadValue, first line 1; {swap}"),
            (
                ["get =a", f"swap {digits} - -\r", "swap =a - -"],
                f"2 lines refused 22 BadValue, first line 2; {swap}",
            ),
            ([f"swap ={'n' * 8000} - -"], f"1 line refused 22 BadValue, first line 1; {swap}"),
            (
                ["put =a 01", "swap =a - -"],
                f"2 lines refused 22 BadValue, first line 1; {value}, and {swap}",
            ),
            (
                ["swap =a - -", "put =a 01"],
                f"2 lines refused 22 BadValue, first line 1; {value}, and {swap}",
            ),
            (["swap =a - 01"], f"1 line refused 22 BadValue, first line 1; {value}"),
            (["swap =a - --"], f"1 line refused 22 BadValue, first line 1; {value}"),
            (["swap =a -- -"], f"1 line refused 22 BadValue, first line 1; {value}"),
            (
                [
                    "swap = - -",
                    f"swap {digits}0 - -",
                    f"swap ={'n' * 8001} - -",
                    "swap a - -",
                    "put =a 01",
                ],
                f"4 lines refused 21 BadKey, first line 1\n"
                f"silt: 1 line refused 22 BadValue, first line 5; {value}",
            ),
            (
                ["swap =a - - -", "swaps =a - -", "swap  =a - -", "put =a 01"],
                f"3 lines refused 20 BadLine, first line 1\n"
                f"silt: 1 line refused 22 BadValue, first line 4; {value}",
            ),
        ):
            ended = self.run_lines(*lines)
            self.assertEqual((ended.status, ended.err), (0, f"silt: {said}\n"), lines)

    def test_no_room(self):
        self.store(SMALL)
        ended = self.run_lines(*(f"delete =k{n}" for n in range(12)), "flush")
        self.assertEqual(ended.lines[-2:], ["refused 8 NoRoom", "acknowledged 8"])
        self.assertEqual(
            ended.err,
            "silt: 4 lines refused 8 NoRoom, first line 9; "
            "background work makes room: run with --tend, or silt tend\n",
        )

    def test_lines_are_those_of_the_input(self):
        """Blank ones count. Reasons come in the order of their numbers."""
        self.store(SMALL, [f"delete =k{n}" for n in range(8)] + ["flush"])
        text = "get =a\n\nput =b 0102\n\r\n\r\nput =c 01\nput =d 0102\nnone\n"
        out = (
            "opened\nabsent\nrefused 8 NoRoom\nrefused 22 BadValue\nrefused 8 NoRoom\n"
            "refused 20 BadLine\n"
        )
        err = (
            "silt: 2 lines refused 8 NoRoom, first line 3; background work makes room: run with --tend, or silt tend\n"
            "silt: 1 line refused 20 BadLine, first line 8\n"
            "silt: 1 line refused 22 BadValue, first line 6; a value has 4 hexadecimal digits here (V is 2)\n"
        )
        self.assert_ends("run store", out, err, text=text)

    def test_lines_that_are_written_in_pieces(self):
        """Each byte goes out by itself. A value that looks like a refusal is none."""
        path = self.store("7 2 4 2 2 8", ["put =a 72656675736564", "flush"])
        image = bytearray(path.read_bytes())
        image[8192:8192 + 461] = image[4096:4096 + 461]
        image[8193:8201] = b"\xff" * 8  # the last generation, with digests
        path.write_bytes(image)
        text = "get =a\n\n" + "".join(f"put =k{n} {n:014x}\n" for n in range(4))
        ended, _ = self.recorded("run", "store", text=text, short=["read:1+", "write:1+"])
        out = "opened\nvalue 72656675736564\naccepted 1\naccepted 2\naccepted 3\nrefused 10 Spent\n"
        self.assertEqual(ended, Ended(0, out, "silt: 1 line refused 10 Spent, first line 6\n"))

    def test_more_blank_lines_than_are_kept(self):
        """65,536 of them are kept by their numbers."""
        self.store(SMALL)
        for blank, where in (
            (65_536, "first line 65538"),
            (65_537, "first far behind many blank lines"),
        ):
            err = (
                f"silt: 1 line refused 20 BadLine, first line 1\n"
                f"silt: 1 line refused 21 BadKey, {where}\n"
            )
            self.assert_ends(
                "run store",
                "opened\nrefused 20 BadLine\nrefused 21 BadKey\n",
                err,
                text="pot\n" + "\n" * blank + "get =\n",
            )

    def test_a_full_store(self):
        self.store("2 2 4 2 2 3")
        ended = self.run_lines(*(f"put =k{n} 0102" for n in range(4)), "flush")
        self.assertEqual(ended.lines[-2:], ["refused 7 StoreFull", "acknowledged 3"])
        self.assertEqual(ended.err, FULL.format(4))

    def test_a_full_store_and_a_last_line_without_its_end(self):
        self.store("2 2 4 2 2 1", ["put =a 0102", "flush"])
        rest = "silt: the last line has no line feed, and is not answered\n"
        self.assert_ends(
            "run store",
            "opened\nrefused 7 StoreFull\n",
            FULL.format(1) + rest,
            text="put =a 0102\nput",
        )

    def test_a_last_line_without_its_end(self):
        self.store(SMALL)
        ended = self.run_lines("put =a 0102", "flush", end="")
        self.assertEqual((ended.status, ended.lines), (0, ["opened", "accepted 1"]), ended)
        self.assertEqual(ended.err, "silt: the last line has no line feed, and is not answered\n")


class Tends(WatchedCase):
    """`run --tend` and `tend` do the background work that is due."""

    def commands(self, count):
        keys = [f"=key{n}" for n in range(300)]
        lines = []
        for number in range(count):
            key = self.random.choice(keys)
            lines.append(
                f"put {key} {value_of(number, 8)}"
                if self.random.random() < 0.8
                else f"delete {key}"
            )
            if self.random.random() < 0.05:
                lines.append("flush")
        return keys, lines

    def check_answers(self, keys, lines):
        values = {}
        for line in lines:
            values = values if line == "flush" else done(values, line)
        ran = self.silt("run", "store", text="".join(f"get {key}\n" for key in keys))
        self.assertEqual(ran.lines, ["opened", *(answer(values, key) for key in keys)])

    def test_a_run_that_tends_refuses_nothing(self):
        for number in range(scaled(3)):
            self.path("store").unlink(missing_ok=True)
            self.store(MANY)
            keys, lines = self.commands(3000)
            ended = self.silt("run", "store", "--tend", text="\n".join([*lines, "flush", ""]))
            self.assertEqual((ended.status, ended.err), (0, ""), ended)
            self.assertEqual([it for it in ended.lines if it.startswith("refused")], [])
            self.check_answers(keys, lines)

    def test_the_same_lines_without_tending(self):
        self.store(MANY)
        _, lines = self.commands(3000)
        ended = self.silt("run", "store", text="\n".join([*lines, "flush", ""]))
        self.assertEqual(ended.status, 0)
        self.assertIn("refused 8 NoRoom", ended.lines)

    def test_tend(self):
        self.store(MANY)
        keys, lines = self.commands(150)
        self.silt("run", "store", text="\n".join([*lines, "flush", ""]))
        self.assertNotIn("frozen logs 0 rows 0", self.check_report().lines)
        ended = self.silt("tend", "store")
        self.assertEqual((ended.status, ended.lines[0]), (0, "opened"), ended)
        self.assertRegex(ended.lines[1], r"\Aconverted [1-9]\d* steps, merged [1-9]\d* steps\Z")
        report = self.check_report().lines
        self.assertEqual(report[2:4], ["frozen logs 0 rows 0", "hash stores 0 rows 0"])
        self.check_answers(keys, lines)
        again = self.silt("tend", "store")
        self.assertEqual(
            (again.status, again.out), (0, "opened\nconverted 0 steps, merged 0 steps\n"), again
        )

    def run_puts(self, *options):
        """Puts of three keys, five times each, and a get. How many were accepted, and how many
        found no room."""
        lines = [
            f"put ={key} 00{round}{number}"
            for round in range(5)
            for number, key in enumerate("abc", 1)
        ]
        ended = self.silt("run", "store", *options, text="\n".join([*lines, "get =b", ""]))
        self.assertEqual((ended.status, len(ended.lines)), (0, 17), ended)
        return sum(it.startswith("accepted") for it in ended.lines), ended.lines.count(
            "refused 8 NoRoom"
        )

    def test_two_logs_of_four_rows(self):
        """They are full after eight rows, unless there is background work."""
        for options, counts in (([], (8, 7)), (["--tend"], (15, 0))):
            self.path("store").unlink(missing_ok=True)
            self.store("2 2 4 2 2 16")
            self.assertEqual(self.run_puts(*options), counts)

    def test_the_steps_of_a_tend(self):
        """A log is converted in nine steps, and a hash store of three rows merged in twelve. Then a
        run finds room, also for the rows that no flush settled."""
        self.store("2 2 4 2 2 16")
        self.assertEqual(self.run_puts(), (8, 7))
        self.assert_ends("tend store", "opened\nconverted 9 steps, merged 12 steps\n")
        self.assert_ends("tend store", "opened\nconverted 0 steps, merged 0 steps\n")
        self.assertEqual(self.run_puts(), (8, 7))

    def test_tend_without_a_store(self):
        ended = self.silt("tend", "none")
        self.assertEqual((ended.status, ended.out), (1, DEVICE), ended)
        self.assertIn("No such file", ended.err)
        self.path("zeros").write_bytes(bytes(45056))
        ended = self.silt("tend", "zeros")
        self.assertEqual((ended.status, ended.out), (1, "refused 1 NotFormatted\n"), ended)


class Reasons(ServedCase):
    """Whatever is refused comes with its reason."""

    def test_a_file_in_use(self):
        self.store(SMALL)
        self.serve()
        for words in (
            ("run", "store"),
            ("check", "store"),
            ("tend", "store"),
            ("serve", "store", "0"),
            ("format", "store", *SMALL.split()),
        ):
            ended = self.silt(*words)
            self.assertEqual((ended.status, ended.out), (1, DEVICE), ended)
            self.assertEqual(
                ended.err,
                "silt: store: the file is in use, and is free when the other program ends\n",
            )

    def test_a_file_that_is_no_store(self):
        self.path("file").write_bytes(b"other data")
        for words in (("run", "file"), ("check", "file"), ("tend", "file"), ("serve", "file", "0")):
            ended = self.silt(*words)
            self.assertEqual((ended.status, ended.out), (1, "refused 1 NotFormatted\n"), ended)
            self.assertEqual(
                ended.err, "silt: file: it is not a silt store; make one with silt format\n"
            )

    def test_a_check_prints_the_geometry_and_how_full_the_store_is(self):
        self.store(SMALL, ["put =a 0102", "put =b 0304", "flush"])
        ended = self.check_report()
        self.assertEqual((ended.status, ended.lines[-2:]), (0, ["charge 2", "layout 2"]), ended)
        self.assertEqual(ended.err, f"silt: store: {NAMED}; charge 2 of 8\n")

    def test_a_port_in_use_is_reported_before_the_store_is_opened(self):
        path = self.store(SMALL, ["put =a 0102", "flush"])
        image = bytearray(path.read_bytes())
        image[16384] = 3
        path.write_bytes(image)
        with socket.create_server(("127.0.0.1", 0)) as listener:
            port = listener.getsockname()[1]
            ended = self.begin("store", port).ended()
        self.assertEqual((ended.status, ended.out), (1, "refused 3 Damaged log 0 row 0\n"), ended)
        port_line, damage_line = ended.err.splitlines()
        self.assertIn("Address already in use", port_line)
        self.assertIn("a row of a log is damaged", damage_line)

    def test_a_silent_connection(self):
        self.store(SMALL)
        server = self.serve("--idle", 1)
        silent, busy = self.clients(server, 2)
        silent.send("get =a")
        self.assertEqual(silent.reply(), "absent")
        self.assertEqual(silent.rest(), [])
        self.assertEqual(busy.rest(), [])
        self.assertEqual(self.client(server).ask("get =a"), ["absent"])


if __name__ == "__main__":
    unittest.main()
