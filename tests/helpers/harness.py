"""What every part of the suite stands on: the program, its folder, its random numbers, and the
watching library.

A part is a module `parts/test_NAME.py` with classes derived from `Case`. `tests/run` runs it.
"""
import os
import pathlib
import random
import re
import shutil
import subprocess
import tempfile
import unittest
from dataclasses import dataclass, field

from layout import as_version_1

HELPERS = pathlib.Path(__file__).resolve().parent
TESTS = HELPERS.parent
TOP = TESTS.parent
# The gate's seed: each run of the gate makes the same random choices.
DEFAULT_SEED = 20111023
# How long one run of the program may take, in seconds. A build with checks is slower.
TIME_LIMIT = 60


# The six numbers of a store, as they are named on standard error.
NUMBERS = r"V \d+, B \d+, CAP \d+, NL \d+, NH \d+, S \d+"


def setting(name, default):
    """A word of the command line, which `tests/run` hands to its parts in the environment."""
    return os.environ.get(f"SILT_TEST_{name}", default)


PROGRAM = pathlib.Path(setting("PROGRAM", TOP / "crates/silt/out/silt"))
SEED = int(setting("SEED", DEFAULT_SEED))
LONG = setting("LONG", "") != ""
# Whether the program is the proved one. A build for trying has a memory checker of its own, so no
# request for memory can be refused there.
PROVED = setting("UNPROVED", "") == ""


def scaled(count):
    """A number of random cases: a hundred times as many with --long."""
    return count * 100 if LONG else count


def mounting(case):
    """The words in front of a program that mounts file systems of its own. Leaves the test out
    where that is not allowed."""
    words = ["unshare", "--mount"]
    try:
        ran = subprocess.run(
            [*words, "mount", "-t", "tmpfs", "tmpfs", "/mnt"], capture_output=True, text=True
        )
    except FileNotFoundError as missing:
        case.skipTest(f"no file system can be mounted here: {missing}")
    if ran.returncode:
        case.skipTest(f"no file system can be mounted here: {ran.stderr.strip()}")
    return words


# What is known against some file systems (`tests/run file_systems`).
IN_MEMORY = "it lies in memory, and is gone when the machine stops"
REMOTE = "it lies on another machine, which may lose what was acknowledged if it stops"
NO_JOURNAL = (
    "it lies on ext4 without a journal, which may lose it, or what was acknowledged, in a power cut"
)
# The first line on standard error of a job that writes to a store there. The machine that runs the
# tests may have such a file system.
NOTE = re.compile(rf"(?m)^silt: [^\n]+: (?:{IN_MEMORY}|{REMOTE}|{NO_JOURNAL})\n")


def without_note(said):
    """Standard error of a job without what is known against the file system of the tests."""
    note = NOTE.match(said)
    return said[note.end() :] if note else said


def without_notes(said):
    """The same of several jobs, whose outputs may be there too."""
    return NOTE.sub("", said)


def closing(*numbers):
    """What a child calls before it becomes the program, which then begins without these
    descriptors."""
    def close():
        for number in numbers:
            os.close(number)

    return close


@dataclass
class Ended:
    """How a run of the program ended: its status (a negative number is a signal), its output and
    its error output. What it says there first of the file system is in `note`."""

    status: int
    out: str
    err: str
    note: str = field(init=False, compare=False)

    def __post_init__(self):
        said = self.err
        self.err = without_note(said)
        self.note = said.removesuffix(self.err)

    @property
    def lines(self):
        return self.out.splitlines()


_library = None


def watch_library():
    """The library of watch.c, which records or refuses calls of the program. It is compiled once a
    process."""
    global _library
    if _library is None:
        _library = tempfile.TemporaryDirectory(prefix="silt-watch-")
        source = HELPERS / "watch.c"
        made = pathlib.Path(_library.name) / "watch.so"
        subprocess.run(
            [
                "cc",
                "-O2",
                "-Wall",
                "-Werror",
                "-shared",
                "-fPIC",
                "-pthread",
                "-o",
                made,
                source,
                "-ldl",
            ],
            check=True,
        )
    return pathlib.Path(_library.name) / "watch.so"


class Case(unittest.TestCase):
    """A test with a folder of its own, in which the program runs, and random numbers of its own."""

    maxDiff = None
    # The version of the layout of the stores that `store` makes.
    version = 2
    # The words in front of the program, if another one starts it.
    starter = ()

    def setUp(self):
        self.folder = pathlib.Path(tempfile.mkdtemp(prefix="silt-test-"))
        self.addCleanup(shutil.rmtree, self.folder, ignore_errors=True)
        self.random = random.Random(f"{SEED} {self.id()}")

    def path(self, name):
        return self.folder / name

    def start(self, *words, env=None, **how):
        """Starts the program with these words in the test's folder. The caller reads and ends
        it."""
        how = {
            "stdin": subprocess.PIPE,
            "stdout": subprocess.PIPE,
            "stderr": subprocess.PIPE,
            "cwd": self.folder,
        } | how
        return subprocess.Popen(
            [*self.starter, PROGRAM, *map(str, words)], env={**os.environ, **(env or {})}, **how
        )

    def silt(self, *words, text="", env=None, limit=TIME_LIMIT):
        """Runs the program with these words and this standard input to its end."""
        with self.start(*words, env=env) as running:
            return self.finish(running, text, limit)

    def finish(self, running, text="", limit=TIME_LIMIT):
        """Gives a started program the rest of its standard input, and reads what it prints to its
        end."""
        try:
            out, err = running.communicate(
                text if isinstance(text, bytes) else text.encode(), timeout=limit
            )
        except subprocess.TimeoutExpired:
            running.kill()
            self.fail(f"silt {' '.join(map(str, running.args[1:]))} did not end in {limit} seconds")
        return Ended(
            running.returncode, *((it or b"").decode(errors="replace") for it in (out, err))
        )

    def assert_ends(self, call, out, err="", status=0, text=""):
        """The program ends so: it is called with the words of a text, and reads another one."""
        self.assertEqual(self.silt(*call.split(), text=text), Ended(status, out, err), call)

    def store(self, geometry, lines=(), name="store"):
        """Makes a store of this geometry ('2 2 4 2 2 8') in the test's folder, and runs these lines
        on it. Returns its path.

        A store of version 1 is then as a program left it that knew no digests."""
        made = self.silt("format", name, *geometry.split(), "--force")
        self.assertEqual(made.status, 0, made)
        if lines:
            ran = self.silt("run", name, text="".join(line + "\n" for line in lines))
            self.assertEqual(ran.status, 0, ran)
        if self.version == 1:
            self.make_old(name)
        return self.path(name)

    def make_old(self, name="store"):
        """Makes a store's file a device of version 1, with the same stores."""
        self.path(name).write_bytes(as_version_1(self.path(name).read_bytes()))

    def check_report(self, name="store"):
        """What `check` prints of a store."""
        return self.silt("check", name)

    def assert_checked(self, checked, name="store"):
        """A check found the store whole: beside its report it named the six numbers and the
        charge."""
        self.assertEqual(checked.status, 0, checked)
        self.assertRegex(checked.err, rf"\Asilt: {name}: {NUMBERS}; charge \d+ of \d+\n\Z")
