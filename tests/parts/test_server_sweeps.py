"""One call of a server fails, each in its turn, while a client writes and background work goes on.

Whatever fails, a reply never says more than was done, and the store is whole in the next run.
"""
import itertools
import re
import unittest

from commands import NONE, answer, differs, done, is_command, tried
from harness import PROVED, scaled
from served import SMALL, ServedCase
from watch import read_counts, watching

KEYS = [f"=key/{it}" for it in range(6)]
# Eight rows freeze a log of four, which is then converted and merged. The last swap differs.
LINES = [
    *(f"put {key} {number:04x}" for number, key in enumerate(KEYS[:4])),
    f"swap {KEYS[4]} - 0004",
    f"put {KEYS[0]} 00ff",
    f"swap {KEYS[1]} 0001 -",
    f"swap {KEYS[2]} 0002 00aa",
    f"swap {KEYS[3]} 0002 00bb",
    "flush",
    *(f"get {key}" for key in KEYS),
]
# What a connection gets instead of a session.
NO_THREAD = "busy: the system gives no thread"
# How many calls of a kind fail, one in each server.
MOST = 50
# The errors that a server may report.
CALL = r"a (read|write|sync)( at \d+)?: Input/output error \(os error 5\)"
REPORT = (
    rf"(silt: {CALL}; the store takes nothing more until it is opened again\n)?"
    rf"(silt: store: {CALL}\n)*"
)


def told(word):
    """What a get replies of a value of a swap."""
    return "absent" if word == NONE else f"value {word}"


class Replies:
    """What a client knows of the store: the values that each key may have, and the commands."""

    def __init__(self, case):
        self.case = case
        self.values = {key: {"absent"} for key in KEYS}
        self.accepted = 0
        self.has_failed = False
        self.refusals = []

    def take(self, line, reply, refusals):
        """Checks a reply, and notes what it says."""
        what = (line, reply, self.accepted, self.values)
        if self.has_failed:
            self.case.assertEqual(reply, "refused 9 Failed", what)
        self.has_failed |= reply == "refused 9 Failed" or reply.startswith("unsettled")
        word, *rest = line.split()
        if reply.startswith("refused "):
            self.case.assertIn(reply, refusals, what)
            self.refusals.append(reply)
        if word == "swap":
            self.take_swap(*rest, reply, what)
        elif word in ("put", "delete"):
            self.take_command(
                rest[0], f"value {rest[1]}" if word == "put" else "absent", reply, what
            )
        elif not reply.startswith("refused "):
            due = {f"acknowledged {self.accepted}"} if word == "flush" else self.values[rest[0]]
            self.case.assertIn(reply, due, what)

    def take_swap(self, key, old, new, reply, what):
        """A swap is a put or a delete of a key that has the old value, or none. If it differs, the
        key has another one."""
        old = {told(old)}
        new = told(new)
        if reply == "differs":
            self.values[key] = self.values[key] - old
        elif not reply.startswith("refused "):
            self.values[key] = self.values[key] & old
        self.case.assertTrue(self.values[key], what)
        if reply != "differs" and old <= self.values[key]:
            self.take_command(key, new, reply, what)

    def take_command(self, key, value, reply, what):
        """A command that was accepted is done. One that a device refused may have been done."""
        if reply.startswith("refused "):
            if reply == "refused 5 Device":
                self.values[key] = self.values[key] | {value}
            return
        self.accepted += 1
        self.case.assertIn(reply, (f"accepted {self.accepted}", f"unsettled {self.accepted}"), what)
        was = self.values[key] if reply.startswith("unsettled") else set()
        self.values[key] = was | {value}

    def cut(self, lines):
        """No reply came to the first of these lines."""
        if is_command(lines[0]):
            self.take(lines[0], "refused 5 Device", {"refused 5 Device"})

    def check_found(self, found):
        """A next run found one of its values for each key."""
        for key, reply in zip(KEYS, found, strict=True):
            self.case.assertIn(reply, self.values[key], key)


class RepliesAtOnce:
    """What a client knows that sends all lines in one write: what is there is a beginning of what
    it sent."""

    def __init__(self, case):
        self.case = case
        # The map after no command, the first, the first two, and so on, and how many of them a
        # flush has settled.
        self.maps = [{}]
        self.settled = 0
        # The commands that may have been done, since no reply says so.
        self.unknown = []
        self.has_failed = False

    def take(self, line, reply, refusals):
        """Checks a reply, and notes what it says."""
        what = (line, reply, self.maps)
        values = self.maps[-1]
        accepted = len(self.maps) - 1
        if self.has_failed:
            self.case.assertEqual(reply, "refused 9 Failed", what)
        elif reply.startswith("refused "):
            self.case.assertIn(reply, refusals, what)
            self.has_failed = reply == "refused 9 Failed"
            if reply == "refused 5 Device" and is_command(line):
                self.unknown = [line]
        elif is_command(line):
            self.take_command(line, reply, what)
        else:
            due = f"acknowledged {accepted}" if line == "flush" else answer(values, line.split()[1])
            self.case.assertEqual((reply, self.settled), (due, accepted), what)

    def take_command(self, line, reply, what):
        """A command that does not differ is done. If its flush was refused, so was that of all
        behind it."""
        if differs(self.maps[-1], line):
            self.case.assertEqual(reply, "differs", what)
            return
        is_settled = reply.startswith("accepted ") and self.settled == len(self.maps) - 1
        word = "accepted" if is_settled else "unsettled"
        self.case.assertEqual(reply, f"{word} {len(self.maps)}", what)
        self.maps.append(done(self.maps[-1], line))
        self.settled += is_settled
        self.unknown = []

    def cut(self, lines):
        """No reply came to these lines."""
        self.unknown = [it for it in lines if is_command(it)]

    def check_found(self, found):
        """A next run found the map after the settled commands and some first ones of the others."""
        maps = (
            self.maps[self.settled:-1]
            + list(itertools.accumulate(self.unknown, tried, initial=self.maps[-1]))
        )
        self.case.assertIn(found, [[answer(it, key) for key in KEYS] for it in maps])


class Sweeps(ServedCase):
    lines = LINES
    # 9 commands, a flush behind each, the flush, 9 steps of a conversion and 13 of a merge.
    calls = 9 + 9 + 1 + 9 + 13
    # At least so many syncs, writes, reads and requests for memory are among what is tried.
    least = 20

    def judge(self):
        return Replies(self)

    def calls_made(self, name):
        """How many calls of this name a server makes for all lines."""
        self.store(SMALL)
        server = self.serve("--sessions", 1, env=watching(self, counts="counts"))
        client = self.client(server)
        self.assertEqual(len(list(self.replies(client))), len(self.lines))
        client.close()
        self.check_calls(server.ended(), self.calls)
        return read_counts(self.path("counts"))[name]

    def sweep(self, call, error, refusals, most=scaled(MOST)):
        """Each of these calls fails in its turn, or some of them, if there are more."""
        made = self.calls_made(call)
        self.assertGreater(made, self.least, call)
        numbers = range(1, made + 1)
        if made > most:
            numbers = sorted(self.random.sample(numbers, most))
        for number in numbers:
            fault = f"{call}:{number}:{error}"
            try:
                self.check_fault(fault, refusals)
            except AssertionError as wrong:
                raise AssertionError(f"with {fault}: {wrong}") from wrong

    def check_fault(self, fault, refusals):
        """A server with this fault, a client of it, and what the next run finds."""
        self.silt("format", "store", *SMALL.split(), "--force")
        server = self.begin(
            "store", 0, "--sessions", 1, "--stay", *self.options, env=watching(self, fail=fault)
        )
        replies = self.judge()
        if (server.line(1) or "").startswith("listening"):
            self.ask_all(server.listen(), replies, refusals)
            self.connect_again(server)
        ended = server.ended()
        self.check_end(ended, replies)
        self.check_whole()
        replies.check_found(self.found(*KEYS))

    def ask_all(self, server, replies, refusals):
        """Sends one line after the other, until the server ends the session, and checks each
        reply."""
        try:
            client = self.client(server)
        except ConnectionError:
            return  # the server has ended
        for number, reply in enumerate(self.replies(client)):
            if reply is None:
                self.assertIn("refused 6 NoMemory", refusals, self.lines[number])
                replies.cut(self.lines[number:])
                break
            if (number, reply) == (0, NO_THREAD):
                self.assertIn("refused 6 NoMemory", refusals)
                break  # no session has read a line
            replies.take(self.lines[number], reply, refusals)
        client.close()

    def replies(self, client):
        """The replies to the lines, each of which is sent behind the one before. The last one is
        None if the server has ended the session."""
        for line in self.lines:
            yield self.reply_to(client, line)

    def reply_to(self, client, *lines):
        """The first reply to these lines. None if the server has ended the session."""
        try:
            client.send(*lines)
        except ConnectionError:
            return None
        return client.reply()

    def connect_again(self, server):
        """Connects once more, since a connection whose thread finds no memory is not counted."""
        try:
            self.client(server).close()
        except ConnectionError:
            pass  # the server has ended

    def check_end(self, ended, replies):
        """The server ended well, or with a reason, and reported each failure of the store."""
        if ended.status == 1 and "takes nothing more" not in ended.err:
            reasons = {
                "refused 5 Device",
                "refused 6 NoMemory",
                "silt: out of memory",
                "silt: store: out of memory",
            }
            self.assertTrue(reasons.intersection(ended.lines + ended.err.splitlines()), ended)
            return
        self.assertEqual(ended.status, int("takes nothing more" in ended.err), ended)
        self.assertTrue(re.fullmatch(REPORT, ended.err), ended)
        if replies.has_failed:
            self.assertIn("takes nothing more", ended.err)
            self.assertIn("silt: store: ", ended.err)

    def test_syncs(self):
        self.sweep("fdatasync", "EIO", {"refused 5 Device", "refused 8 NoRoom", "refused 9 Failed"})

    def test_writes(self):
        self.sweep("pwrite", "EIO", {"refused 5 Device", "refused 8 NoRoom", "refused 9 Failed"})

    def test_reads(self):
        self.sweep("pread", "EIO", {"refused 5 Device"})

    @unittest.skipUnless(PROVED, "a build with checks has an allocator of its own")
    def test_memory(self):
        self.sweep("memory", "ENOMEM", {"refused 6 NoMemory"})

    @unittest.skipUnless(PROVED, "a build with checks has an allocator of its own")
    def test_memory_of_an_idle_session(self):
        # The first message to a worker is then the one that ends it.
        self.lines = []
        self.calls = 0
        self.sweep("memory", "ENOMEM", {"refused 6 NoMemory"}, most=1000)


class PipelinedSweeps(Sweeps):
    """The client sends all lines in one write, and its commands are one batch."""

    options = ("--pipeline",)
    # One flush for all commands.
    calls = 9 + 1 + 9 + 13
    least = 12

    def judge(self):
        return RepliesAtOnce(self)

    def replies(self, client):
        if not self.lines:
            return
        yield self.reply_to(client, *self.lines)
        for _ in self.lines[1:]:
            yield client.reply()


if __name__ == "__main__":
    unittest.main()
