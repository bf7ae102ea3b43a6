"""The standard streams: any of them may be closed, and none may be the store.

A program that begins without one of the descriptors 0, 1 and 2 would get that number for the next
file that it opens. So the lines of a run would come from its store, and replies and notes would go
into it.
"""
import contextlib
import hashlib
import itertools
import os
import pty
import re
import subprocess
import termios
import unittest
from dataclasses import dataclass

from harness import TIME_LIMIT, Case, Ended, closing, mounting, without_note
from served import Client, ServedCase, listening_sockets

GEOMETRY = "64 2 4 2 2 16"
# A value that is lines of commands, if somebody reads the store as lines.
TRAP = b"\ndelete =kept\nput =kept 00\nflush\nget =kept\n".ljust(64, b"\n").hex()
PLAIN = "5a" * 64
# Six rows: the first log is frozen, so there is work in the background.
ROWS = [
    f"put =kept {PLAIN}",
    f"put =trap {TRAP}",
    *(f"put =more{it} {TRAP}" for it in range(4)),
    "flush",
]
# Some lines are refused, so there are notes.
LINES = f"get =kept\nput =kept 01\nnothing\nput =new {TRAP}\ndelete =trap\nflush\nget =trap\n"
OTHER_DATA = b"data of somebody else\n" * 5
# Each set of streams that may be closed.
SUBSETS = [it for size in (1, 2, 3) for it in itertools.combinations(range(3), size)]
STREAMS = ("standard input", "standard output", "standard error")
DEVICE = "refused 5 Device\n"


@dataclass
class Job:
    """The words of a job, its standard input, and what is in the file before: `rows`, `other`,
    `empty`, or no file."""

    words: str
    before: str = "rows"
    text: str = ""


JOBS = {
    "format": Job(f"format store {GEOMETRY}", "no file"),
    "format of an empty file": Job(f"format store {GEOMETRY}", "empty"),
    "format by force": Job(f"format store {GEOMETRY} --force"),
    "format of other data": Job(f"format store {GEOMETRY}", "other"),
    "format with a number out of its limits": Job("format store 64 3 4 2 2 16"),
    "run": Job("run store", text=LINES),
    "run of no file": Job("run store", "no file", LINES),
    "run of other data": Job("run store", "other", LINES),
    "run and tend": Job("run --tend store", text=LINES),
    "tend": Job("tend store"),
    "check": Job("check store"),
    "dump": Job("dump store"),
    "plan": Job("plan 1000 64"),
    "script": Job(f"script {GEOMETRY}", text=LINES),
    "other words": Job("prune store"),
    "help": Job("--help"),
}


class StreamCase(ServedCase):
    """A store whose values hold lines of commands, and what a job leaves of it."""

    def setUp(self):
        super().setUp()
        rows = self.store(GEOMETRY, ROWS).read_bytes()
        self.contents = {"rows": rows, "other": OTHER_DATA, "empty": b"", "no file": None}

    def put_back(self, before):
        """Makes the file what it was before the job."""
        self.path("store").unlink(missing_ok=True)
        if self.contents[before] is not None:
            self.path("store").write_bytes(self.contents[before])

    def left(self):
        """The digest of each file of the folder."""
        return {it.name: hashlib.sha1(it.read_bytes()).hexdigest() for it in self.folder.iterdir()}

    def streams(self, closed):
        """Standard input from a file, the others to pipes; those that are closed, or of the same
        job with all streams open, on /dev/null."""
        return {
            name: subprocess.DEVNULL
            for number, name in enumerate(("stdin", "stdout", "stderr")) if number in closed
        }


class Closed(StreamCase):
    """Each job with each set of streams closed ends as with these streams on /dev/null, and leaves
    the same bytes."""

    def ended(self, job, closed, **how):
        """How a job ends, and the files that it leaves."""
        self.put_back(job.before)
        with self.start(*job.words.split(), **self.streams(closed), **how) as running:
            ended = self.finish(running, b"" if 0 in closed else job.text)
        return ended, self.left()

    def check_job(self, name):
        job = JOBS[name]
        for closed in SUBSETS:
            with self.subTest(job=name, closed=closed):
                due, files = self.ended(job, closed)
                ended, left = self.ended(job, closed, preexec_fn=closing(*closed))
                self.assertEqual(left, files)
                self.assertEqual(ended, due)

    def test_a_format(self):
        for name in JOBS:
            if name.startswith("format"):
                self.check_job(name)

    def test_a_run(self):
        """Lines are refused, so there are notes."""
        self.check_job("run")
        self.check_job("run of no file")
        self.check_job("run of other data")

    def test_a_run_that_tends(self):
        self.check_job("run and tend")

    def test_a_tend(self):
        self.check_job("tend")

    def test_a_check(self):
        self.check_job("check")

    def test_a_dump(self):
        self.check_job("dump")

    def test_a_plan(self):
        self.check_job("plan")

    def test_a_script(self):
        self.check_job("script")

    def test_words_that_name_no_job(self):
        self.check_job("other words")
        self.check_job("help")

    def test_what_the_jobs_do(self):
        """The jobs do what they are for, so that there is something to compare."""
        due = {
            "run": (0, 8, 2),
            "tend": (0, 2, 0),
            "check": (0, 7, 1),
            "dump": (0, 6, 0),
            "script": (0, 8, 0),
            "run of other data": (1, 1, 1),
        }
        for name, numbers in due.items():
            ended, _ = self.ended(JOBS[name], ())
            self.assertEqual(
                (ended.status, len(ended.lines), len(ended.err.splitlines())),
                numbers,
                (name, ended),
            )

    def test_a_value_that_is_lines(self):
        """A run with nothing to read deletes no key, whatever the values are."""
        self.put_back("rows")
        with self.start("run", "store", stdin=subprocess.DEVNULL, preexec_fn=closing(0)) as running:
            self.assertEqual(self.finish(running, b""), Ended(0, "opened\n", ""))
        self.assertEqual(self.found("=kept", "=trap"), [f"value {PLAIN}", f"value {TRAP}"])


class ClosedServers(StreamCase):
    """The same of a server, with a client that puts and gets."""

    def connected(self, running):
        """A client of a server that may print nothing. None if the server ended."""
        for _ in self.turns("the server to listen"):
            if running.poll() is not None:
                return None
            for _, address in listening_sockets(running.pid):
                return Client(int(address.split(":")[1], 16))

    def session(self, running):
        """The replies that a client reads, or none."""
        client = self.connected(running)
        if client is None:
            return None
        self.addCleanup(client.close)
        return client.exchange(LINES.splitlines())

    def served(self, closed, **how):
        """How a server ends, what its client reads, and the files that are left."""
        self.put_back("rows")
        with self.start(
            "serve", "store", 0, "--sessions", 1, **self.streams(closed), **how
        ) as running:
            try:
                replies = self.session(running)
                ended = self.finish(running, b"")
            finally:
                running.kill()
        ended.out = re.sub(r"listening \d+", "listening", ended.out)
        return ended, replies, self.left()

    def test_a_server(self):
        for closed in SUBSETS:
            with self.subTest(closed=closed):
                due, replies, files = self.served(closed)
                self.assertEqual((due.status, len(replies)), (0, 7), (due, replies))
                ended, others, left = self.served(closed, preexec_fn=closing(*closed))
                self.assertEqual(left, files)
                self.assertEqual((ended, others), (due, replies))


class Itself(StreamCase):
    """A store that is a standard stream of the job is refused, and stays as it was."""

    jobs = (
        "run store",
        "run store --tend",
        "tend store",
        "check store",
        "dump store",
        f"format store {GEOMETRY} --force",
        "serve store 0 --sessions 1",
    )

    def setUp(self):
        super().setUp()
        os.link(self.path("store"), self.path("store.hard"))
        self.path("store.symbolic").symlink_to("store")

    def refused(self, words, *numbers, opened="store"):
        """How a job ends that has the store as these streams, opened by this name."""
        modes = ("rb", "ab", "ab")
        with contextlib.ExitStack() as files:
            streams = {
                name: files.enter_context(open(self.path(opened), modes[number]))
                for number, name in enumerate(("stdin", "stdout", "stderr")) if number in numbers
            }
            with self.start(*words.split(), **streams) as running:
                return self.finish(running, b"" if 0 in numbers else LINES)

    def check_refused(self, words, *numbers, opened="store"):
        name = words.split()[1]
        with self.subTest(words=words, streams=numbers, opened=opened):
            ended = self.refused(words, *numbers, opened=opened)
            self.assertEqual(ended.status, 1, ended)
            self.assertTrue(
                self.path("store").read_bytes() == self.contents["rows"], "the store has changed"
            )
            self.assertEqual(ended.out, "" if 1 in numbers else DEVICE)
            named = "|".join(STREAMS[it] for it in numbers)
            note = f"silt: {name}: the file is also this program's ({named})\n"
            self.assertRegex(ended.err, r"\A\Z" if 2 in numbers else rf"\A{note}\Z")

    def test_standard_output(self):
        for words in self.jobs:
            self.check_refused(words, 1)

    def test_standard_error(self):
        for words in self.jobs:
            self.check_refused(words, 2)

    def test_standard_input(self):
        for words in self.jobs:
            self.check_refused(words, 0)

    def test_several_streams(self):
        for numbers in ((0, 1), (0, 2), (1, 2), (0, 1, 2)):
            self.check_refused("run store", *numbers)
            self.check_refused("tend store", *numbers)

    def test_other_names_of_the_file(self):
        """A hard link and a symbolic link name the same file."""
        for one, other in itertools.permutations(("store", "store.hard", "store.symbolic"), 2):
            for number in range(3):
                self.check_refused(f"run {one}", number, opened=other)

    def test_a_file_that_the_shell_made(self):
        """`silt format new > new` finds an empty file that is its own output."""
        for number, mode in ((1, "wb"), (2, "wb")):
            streams = {("stdin", "stdout", "stderr")[number]: open(self.path("new"), mode)}
            with streams["stdout" if number == 1 else "stderr"], self.start(
                "format", "new", *GEOMETRY.split(), **streams
            ) as running:
                ended = self.finish(running, b"")
            self.assertEqual((ended.status, self.path("new").read_bytes()), (1, b""), ended)

    def test_a_plan_has_no_store(self):
        """Nothing is refused that names no file of a store."""
        with open(self.path("text"), "ab") as text, self.start(
            "plan", "1000", "64", stdout=text
        ) as running:
            self.assertEqual(self.finish(running, b"").status, 0)
        self.assertRegex(self.path("text").read_text(), r"\A64 \d+ .*\ndisk \d+\nmemory \d+\n\Z")


class OtherStreams(StreamCase):
    """Other streams than closed ones are as they were."""

    due = f"opened\nvalue {PLAIN}\n"

    def check_run(self, **streams):
        with self.start("run", "store", **streams) as running:
            return self.finish(running, b"get =kept\n")

    def test_pipes(self):
        self.assertEqual(self.check_run(), Ended(0, self.due, ""))

    def test_other_files(self):
        """Files of the same file system, as input, output and error output, with the store open for
        reading too."""
        self.path("lines").write_text("get =kept\nnothing\n")
        with (
            open(self.path("lines"), "rb") as lines,
            open(self.path("replies"), "wb") as replies,
            open(self.path("notes"), "wb") as notes,
            open(self.path("store"), "rb") as beside,
        ):
            running = self.start(
                "run",
                "store",
                stdin=lines,
                stdout=replies,
                stderr=notes,
                pass_fds=[beside.fileno()],
            )
            self.assertEqual(running.wait(TIME_LIMIT), 0)
        self.assertEqual(self.path("replies").read_text(), self.due + "refused 20 BadLine\n")
        notes = without_note(self.path("notes").read_text())
        self.assertEqual(notes, "silt: 1 line refused 20 BadLine, first line 2\n")
        self.assertTrue(
            self.path("store").read_bytes() == self.contents["rows"], "the store has changed"
        )

    def test_one_file_for_all(self):
        """Input, output and error output may be one file, if it is not the store."""
        self.path("both").write_text("")
        with open(self.path("both"), "r+b") as both, self.start(
            "tend", "store", stdin=both, stdout=both, stderr=both
        ) as running:
            self.assertEqual(self.finish(running, b"").status, 0)
        both = without_note(self.path("both").read_text())
        self.assertRegex(both, r"\Aopened\nconverted \d+ steps, merged \d+ steps\n\Z")

    def test_the_null_device(self):
        none = subprocess.DEVNULL
        with self.start("run", "store", stdin=none, stdout=none, stderr=none) as running:
            self.assertEqual(self.finish(running, b""), Ended(0, "", ""))

    def test_a_terminal(self):
        """One terminal for all three."""
        terminal, inner = pty.openpty()
        modes = termios.tcgetattr(inner)
        modes[1] &= ~termios.OPOST
        modes[3] &= ~termios.ECHO
        termios.tcsetattr(inner, termios.TCSANOW, modes)
        with self.start("run", "store", stdin=inner, stdout=inner, stderr=inner) as running:
            os.close(inner)
            os.write(terminal, b"get =kept\nnothing\n\x04")
            shown = read_to_end(terminal)
            os.close(terminal)
            self.assertEqual(running.wait(TIME_LIMIT), 0)
        self.assertEqual(
            without_note(shown), self.due + "refused 20 BadLine\nsilt: 1 line refused 20 BadLine, first line 2\n"
        )


def read_to_end(terminal):
    """What a terminal shows to the end, which the system reports as an error."""
    shown = b""
    with contextlib.suppress(OSError):
        while part := os.read(terminal, 4096):
            shown += part
    return shown.decode()


class NoNullDevice(Case):
    """If /dev/null is missing and a stream is closed, nothing is opened, made or changed."""

    def setUp(self):
        super().setUp()
        self.mounting = mounting(self)
        self.path("empty").mkdir()
        self.before = self.store(GEOMETRY, ROWS).read_bytes()

    def hidden(self, words, closed, text=LINES):
        """How a job ends that finds no devices, and begins without some streams."""
        closes = " ".join(f"{it}>&-" for it in closed)
        self.starter = [
            *self.mounting,
            "sh",
            "-c",
            f'mount --bind empty /dev && exec "$@" {closes}',
            "sh",
        ]
        try:
            return self.silt(*words.split(), text=text)
        finally:
            self.starter = ()

    def test_no_job_touches_its_file(self):
        for words in (
            "run store",
            "run store --tend",
            "tend store",
            "check store",
            "dump store",
            "serve store 0 --sessions 1",
            f"format store {GEOMETRY}",
            f"format store {GEOMETRY} --force",
            f"format new {GEOMETRY}",
        ):
            for closed in SUBSETS:
                with self.subTest(words=words, closed=closed):
                    ended = self.hidden(words, closed)
                    self.assertEqual((ended.status, ended.out), (1, ""), ended)
                    self.assertTrue(
                        self.path("store").read_bytes() == self.before, "the store has changed"
                    )
                    self.assertFalse(self.path("new").exists())


if __name__ == "__main__":
    unittest.main()
