"""The jobs of the program that are tried with failing calls and with refused memory, and how
their files are judged."""
from dataclasses import dataclass, field

from commands import answer, maps_after
from harness import PROVED
from watch import WatchedCase

# Three logs of one row and three hash regions: each put of a new row freezes a log.
GEOMETRY = "2 2 1 3 3 8"
KEYS = ["=a", "=b", "=c", "=d"]
LINES = (
    ["put =a 0001", "get =a", "put =b 0002", "flush"]
    + ["convert"] * 9
    + ["swap =a 0001 0003", "swap =a 0001 0004", "flush"]
    + ["merge"] * 3
    + ["convert"] * 9
    + ["get =b", "delete =b", "put =c", "pot =c 0001", "swap =c 0001", "get =b"]
    + ["convert"] * 9
    + ["merge"] * 7
    + [
        "swap =a 0003 -",
        "swap =b 0002 0006",
        "swap =a - -",
        "swap =d - 0004",
        "get =a",
        "get =b",
        "get =c",
        "get =d",
        "flush",
        "put =c 0005",
        "swap =d 0005 0007",
        "swap =d 0004 0007",
        "swap =d - 0007",
        "swap =d 0004 -",
        "swap =c - 0007",
    ]
)
LIVES = (
    ["put =a 0001", "put =b 0002", "flush", "put =a 0003", "stop 12 mix", "get =a", "get =b"]
    + ["convert"] * 9
    + ["put =c 0004", "flush", "stop 0 zero"]
    + ["merge"] * 11
    + ["get =a", "get =b", "swap =c 0004 0005", "swap =c 0004 0006", "get =c"]
    + ["convert"] * 9
    + ["swap =c 0005 -", "flush"]
)

DEVICE = "refused 5 Device\n"
NO_STORE = "refused 1 NotFormatted\n"
# A build with checks tries every so many calls.
EVERY = 1 if PROVED else 7


@dataclass
class Job:
    """The words of a job, its lines, and what the file is before it."""

    words: list
    lines: list = field(default_factory=list)
    before: bytes = None

    @property
    def text(self):
        return "".join(line + "\n" for line in self.lines)


class JobCase(WatchedCase):
    def put_back(self, before):
        """Makes the file what it was, or takes it away."""
        path = self.path("store")
        path.unlink(missing_ok=True)
        if before is not None:
            path.write_bytes(before)

    def left(self):
        return self.path("store").read_bytes() if self.path("store").exists() else None

    def plain(self, job, lines=None):
        """The job without a fault."""
        self.put_back(job.before)
        return self.silt(
            *job.words, text=Job(job.words, job.lines if lines is None else lines).text
        )

    def report(self, content):
        """What a check says of a file of this content."""
        self.put_back(content)
        return self.silt("check", "store").out

    def judge_file(self, left, commands, replies):
        """The next run finds the accepted commands up to one that is not before the last
        acknowledged one."""
        least = max(
            [int(it.split()[1]) for it in replies if it.startswith("acknowledged")], default=0
        )
        self.assertRegex(self.report(left), r"\Ageneration ")
        self.assertEqual(self.left(), left, "a check wrote")
        found = self.silt("run", "store", text="".join(f"get {key}\n" for key in KEYS))
        allowed = [
            [answer(values, key) for key in KEYS] for values in maps_after({}, commands)[least:]
        ]
        self.assertIn(found.lines[1:], allowed)
