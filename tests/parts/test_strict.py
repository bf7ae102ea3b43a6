"""`run --strict` ends with status 3 if a line was refused. Without it such a run ends with status
0."""
import itertools
import subprocess
import unittest

from harness import PROGRAM, PROVED, TIME_LIMIT, mounting
from watch import WatchedCase, watching

SMALL = "2 2 4 2 2 8"
FULL_DISK = "refused 5 Device"
# Lines, and the replies of a run on a new store of `SMALL`, if no line is refused.
WELL = {
    "nothing": ("", ""),
    "blank lines": ("\n\r\n\n", ""),
    "each kind of line": (
        "put =a 0102\nget =a\nget =b\n"
        "swap =a 0000 0304\nswap =a 0102 0304\nswap =b - 0506\ndelete =a\n"
        "flush\nconvert\nmerge\n",
        "accepted 1\nvalue 0102\nabsent\ndiffers\naccepted 2\naccepted 3\naccepted 4\n"
        "acknowledged 4\nidle\nidle\n",
    ),
    "a last line that has no end": ("put =a 0102\npot", "accepted 1\n"),
}
# Lines of which some are refused.
REFUSED = {
    "a bad line": ("pot =a 0102\n", "refused 20 BadLine\n"),
    "a bad key": ("get =\n", "refused 21 BadKey\n"),
    "a bad value": ("put =a 01\n", "refused 22 BadValue\n"),
    "a long line": ("x" * 16_601 + "\n", "refused 23 LineTooLong\n"),
    "a first line": ("pot\nput =a 0102\nget =a\n", "refused 20 BadLine\naccepted 1\nvalue 0102\n"),
    "a line among others": (
        "put =a 0102\nstop 0 old\nget =a\n",
        "accepted 1\nrefused 20 BadLine\nvalue 0102\n",
    ),
    "a last line": ("put =a 0102\nget =a\nget\n", "accepted 1\nvalue 0102\nrefused 20 BadLine\n"),
    "a line before one that has no end": ("pot\nput =a", "refused 20 BadLine\n"),
    "a put without room": (
        "".join(f"delete =k{it}\n" for it in range(9)),
        "".join(f"accepted {it}\n" for it in range(1, 9)) + "refused 8 NoRoom\n",
    ),
}


class StrictCase(WatchedCase):
    def both(self, *options, text="", name="store", env=None):
        """How a run ends without the option, and with it. Both begin with the same file, and differ
        in the status alone."""
        before = self.path(name).read_bytes() if self.path(name).exists() else None
        ended, left = [], []
        for strict in ((), ("--strict",)):
            if before is not None:
                self.path(name).write_bytes(before)
            ended.append(self.silt("run", name, *options, *strict, text=text, env=env))
            left.append(self.path(name).read_bytes() if before is not None else None)
        plain, strict = ended
        self.assertEqual((strict.out, strict.err), (plain.out, plain.err))
        self.assertTrue(left[0] == left[1], "the files differ")
        return plain, strict.status

    def check(self, statuses, *options, **how):
        """The statuses without the option and with it. Returns how the run ended."""
        plain, strict = self.both(*options, **how)
        self.assertEqual((plain.status, strict), statuses, plain)
        return plain


class Lines(StrictCase):
    """Each reply is the same with the option. The status says whether one of them is a refusal."""

    def setUp(self):
        super().setUp()
        self.store(SMALL)

    def test_no_line_is_refused(self):
        for name, (text, out) in WELL.items():
            with self.subTest(name):
                self.store(SMALL, name="new")
                self.assertEqual(self.check((0, 0), text=text, name="new").out, "opened\n" + out)
                self.path("new").unlink()

    def test_a_line_is_refused(self):
        for name, (text, out) in REFUSED.items():
            with self.subTest(name):
                self.store(SMALL, name="new")
                self.assertEqual(self.check((0, 3), text=text, name="new").out, "opened\n" + out)
                self.path("new").unlink()

    def test_a_value_that_looks_like_a_refusal(self):
        self.store("7 2 4 2 2 8", name="words")
        value = b"refused".hex()
        ended = self.check((0, 0), text=f"put =refused {value}\nget =refused\n", name="words")
        self.assertEqual(ended.lines, ["opened", "accepted 1", f"value {value}"])

    def test_a_full_store(self):
        self.store("2 2 4 2 2 3", name="full")
        ended = self.check(
            (0, 3), "--tend", text="".join(f"put =k{it} 0102\n" for it in range(4)), name="full"
        )
        self.assertEqual(ended.lines[-1], "refused 7 StoreFull")

    def test_the_option_stands_anywhere(self):
        for words in itertools.permutations(("--strict", "--tend", "store")):
            self.assertEqual(self.silt("run", *words, text="pot\n").status, 3, words)
            self.assertEqual(self.silt("run", *words, text="get =a\n").status, 0, words)

    def test_lines_in_pieces(self):
        """Each byte goes out by itself, and the refusal is found still."""
        for text, strict in (("get =a\nget\nget =a\n", 3), ("get =a\n" * 3, 0)):
            self.check((0, strict), text=text, env=watching(self, short=["read:1+", "write:1+"]))

    def test_all_lines_have_their_replies(self):
        """The status comes behind all of them, however early a line was refused."""
        text = "pot\n" + "".join(f"put =a {it:04x}\nget =a\n" for it in range(8))
        ended = self.check((0, 3), text=text)
        self.assertEqual((len(ended.lines), ended.lines[-1]), (18, "value 0007"))


class Loads(StrictCase):
    """Loads of which some or all lines are refused."""

    def test_a_load_without_background_work(self):
        self.store("8 16 56 3 4 2000")
        text = "".join(f"put =key{it} {it:016x}\n" for it in range(1000)) + "flush\n"
        ended = self.check((0, 3), text=text)
        self.assertEqual((len(ended.lines), ended.lines[-2]), (1002, "refused 8 NoRoom"))

    def test_a_load_with_background_work(self):
        self.store("8 16 56 3 4 2000")
        text = "".join(f"put =key{it} {it:016x}\n" for it in range(1000)) + "flush\n"
        ended = self.check((0, 0), "--tend", text=text)
        self.assertEqual(ended.lines[-1], "acknowledged 1000")

    def test_background_work_of_a_failed_store(self):
        """Its next step is refused. That comes behind the replies, and its status is that of no line."""
        self.store("100 16 56 3 4 2000")
        lines = [f"put =key{it} {it:0200x}\nflush\n" for it in range(50)]
        env = watching(self, fail="pwrite:9+:ENOSPC")
        ended = self.check((1, 1), "--tend", text="".join(lines), env=env)
        failed = ended.lines.index("refused 5 Device")
        self.assertEqual(ended.lines[failed:], ["refused 5 Device", *["refused 9 Failed"] * (101 - failed)])
        self.assertEqual(len(ended.lines), 102)
        self.assertIn(f"silt: {100 - failed} lines refused 9 Failed, first line {failed + 1}; ", ended.err)
        ended = self.check((0, 3), "--tend", text="".join("".join(lines).splitlines(True)[:failed]), env=env)
        self.assertEqual(ended.lines[-1], "refused 5 Device")

    def test_writes_that_find_no_space(self):
        self.store("100 16 56 3 4 2000")
        text = "".join(f"put =key{it} {it:0200x}\nflush\n" for it in range(50))
        ended = self.check((0, 3), text=text, env=watching(self, fail="pwrite:9+:ENOSPC"))
        first = ended.lines.index(FULL_DISK)
        self.assertEqual(
            {it.split()[0] for it in ended.lines[1:first]}, {"accepted", "acknowledged"}
        )
        self.assertEqual(ended.lines[first + 1:], ["refused 9 Failed"] * (100 - first))

    def test_a_full_disk(self):
        """The same on a file system of ten pages."""
        self.path("full").mkdir()
        self.path("lines").write_text(
            "".join(f"put =key{it} {it:0200x}\nflush\n" for it in range(300))
        )
        script = (
            "mount -t tmpfs -o size=40k tmpfs full && "
            '"$0" format full/store 100 64 224 2 2 1000 --sparse >made && '
            '"$0" run full/store $1 <lines'
        )
        ended = []
        for option in ("", "--strict"):
            words = [*mounting(self), "sh", "-c", script, PROGRAM, option]
            ended.append(
                subprocess.run(
                    words, cwd=self.folder, capture_output=True, text=True, timeout=TIME_LIMIT
                )
            )
        plain, strict = ended
        self.assertEqual((plain.returncode, strict.returncode), (0, 3), strict)
        self.assertEqual((plain.stdout, plain.stderr), (strict.stdout, strict.stderr))
        self.assertIn("refused 9 Failed", plain.stdout)
        self.assertIn("No space left on device", plain.stderr)

    def test_a_dump_into_a_store_of_another_length(self):
        self.store(SMALL, ["put =a 0102", "put =b 0304", "flush"], "old")
        self.store("3 2 4 2 2 8", name="new")
        dump = self.silt("dump", "old").out
        ended = self.check((0, 3), "--tend", text=dump + "flush\n", name="new")
        self.assertEqual(ended.lines, ["opened"] + ["refused 22 BadValue"] * 2 + ["acknowledged 0"])


class Broken(StrictCase):
    """A run that does not come to the end of its lines ends with status 1, whether lines were
    refused or not."""

    def setUp(self):
        super().setUp()
        self.store(SMALL)

    def test_an_input_that_fails(self):
        for first in ("get =a\n", "pot\n"):
            env = watching(self, short="read:1+", fail="read:12+:EIO")
            ended = self.check((1, 1), text=first + "get =b\n" * 3, env=env)
            self.assertIn("Input/output error", ended.err)

    def test_an_output_that_fails(self):
        for first in ("get =a\n", "pot\n"):
            env = watching(self, short="read:1+", fail="write:3+:ENOSPC")
            self.check((1, 1), text=first + "get =b\n" * 30, env=env)

    def test_a_reader_that_goes(self):
        """As `silt run | head -1` does."""
        for strict in ((), ("--strict",)):
            with self.start("run", "store", *strict) as running:
                self.assertEqual(running.stdout.readline(), b"opened\n")
                running.stdout.close()
                running.stdin.write(b"pot\n" * 10)
                running.stdin.close()
                self.assertEqual(running.wait(TIME_LIMIT), 1)

    def test_a_store_that_is_not_opened(self):
        self.path("other").write_bytes(b"other data")
        self.assertEqual(
            self.check((1, 1), text="pot\n", name="other").out, "refused 1 NotFormatted\n"
        )
        self.assertEqual(self.check((1, 1), text="pot\n", name="none").out, "refused 5 Device\n")
        image = bytearray(self.store(SMALL, ["put =a 0102", "flush"], "damaged").read_bytes())
        image[16384] = 3
        self.path("damaged").write_bytes(image)
        self.assertEqual(
            self.check((1, 1), text="pot\n", name="damaged").out, "refused 3 Damaged log 0 row 0\n"
        )

    @unittest.skipUnless(PROVED, "a build with a memory checker has an allocator of its own")
    def test_memory_that_runs_out(self):
        """A run that breaks off ends with status 1. One that replies to all lines refused the
        first, and ends with 3."""
        text = "pot\n" + "put =a 0102\nget =a\n" * 3
        seen = set()
        for number in range(1, 400):
            env = watching(self, short="read:1+", fail=f"memory:{number}+:ENOMEM")
            ended = self.silt("run", "--strict", "store", text=text, env=env)
            replies_to_all = len(ended.lines) == 1 + text.count("\n")
            self.assertEqual(ended.status, 3 if replies_to_all else 1, ended)
            seen.add(ended.status)
        self.assertEqual(seen, {1, 3})


class Pipelines(StrictCase):
    """A dump that is refused says so by its own status. The next run gets no lines, of which none
    is refused."""

    def shell(self, script):
        words = ["bash", "-c", script.replace("silt", f"'{PROGRAM}'")]
        return subprocess.run(
            words, cwd=self.folder, capture_output=True, text=True, timeout=TIME_LIMIT
        )

    def setUp(self):
        super().setUp()
        image = bytearray(self.store(SMALL, ["put =a 0102", "flush"], "damaged").read_bytes())
        image[16384] = 3
        self.path("damaged").write_bytes(image)
        self.store(SMALL, ["put =a 0102", "flush"], "whole")
        self.store(SMALL, name="new")

    def statuses(self, script):
        """The statuses of the parts of a pipeline."""
        ran = self.shell(f"{script}; echo ${{PIPESTATUS[*]}}")
        return list(map(int, ran.stdout.splitlines()[-1].split()))

    def status(self, script):
        """The status of a pipeline whose shell has pipefail."""
        return self.shell(f"set -o pipefail; {script}").returncode

    def test_a_dump_of_a_whole_store(self):
        self.assertEqual(
            self.statuses("(silt dump whole && echo flush) | silt run --tend --strict new"), [0, 0]
        )
        self.assertEqual(
            self.status("(silt dump whole && echo flush) | silt run --tend --strict new"), 0
        )

    def test_a_dump_that_is_refused(self):
        """It prints its refusal where its lines would be, and the run refuses that as a line."""
        for name in ("damaged", "none"):
            self.assertEqual(self.statuses(f"silt dump {name} | silt run --strict new"), [1, 3])
            self.assertEqual(
                self.statuses(f"(silt dump {name}; echo flush) | silt run --tend --strict new"),
                [0, 3],
            )
            self.assertEqual(
                self.status(f"(silt dump {name} && echo flush) | silt run --tend --strict new"), 3
            )
            self.assertEqual(self.statuses(f"silt dump {name} | silt run new"), [1, 0])
            self.assertEqual(self.status(f"silt dump {name} | silt run new"), 1)

    def test_a_dump_that_breaks_off(self):
        """A run refuses no line that it does not get. Only the status of the dump tells."""
        self.assertEqual(
            self.statuses("(silt dump whole | head -c 20; exit 1) | silt run --strict new"), [1, 0]
        )
        self.assertEqual(
            self.status("(silt dump whole | head -c 20; exit 1) | silt run --strict new"), 1
        )


if __name__ == "__main__":
    unittest.main()
