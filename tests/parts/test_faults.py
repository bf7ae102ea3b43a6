"""Refused calls of the system: each read, write and sync fails in turn, moves one byte alone, or is
interrupted.

A job ends with a refusal, one line is refused, or the store has failed; the reason is on the
standard error. After each run the file is whole: it holds the accepted commands up to one that
is not before the last acknowledged one.
"""
import contextlib
import errno
import fcntl
import os
import re
import resource
import signal
import subprocess
from dataclasses import dataclass

from commands import answer, is_command, maps_after
from failing import DEVICE, EVERY, GEOMETRY, LINES, LIVES, NO_STORE, Job, JobCase
from harness import NUMBERS, PROGRAM, TIME_LIMIT, Ended
from layout import CLOSED, OPEN, Layout
from notes import input_of, notes_of_lines
from watch import WatchedCase, read_counts, read_record, watching

SMALL = "2 2 4 2 2 8"


@dataclass
class Fault:
    """A call that fails with an error, moves one byte (no error), or is interrupted."""

    call: str
    error: str = ""
    onwards: str = ""

    def plan(self, number):
        if not self.error:
            return {"short": f"{self.call}:{number}"}
        return {"fail": f"{self.call}:{number}{self.onwards}:{self.error}"}

    @property
    def is_none(self):
        """Whether the program has to end as without it: short and interrupted calls are made
        again."""
        return self.error in ("", "EINTR")

    @property
    def text(self):
        number = getattr(errno, self.error)
        return f"{os.strerror(number)} (os error {number})"


STREAMS = [
    Fault("read", "EIO"),
    Fault("read", "EINTR"),
    Fault("read"),
    Fault("write", "EIO"),
    Fault("write", "ENOSPC"),
    Fault("write", "EINTR"),
    Fault("write"),
]
READS = [Fault("pread", "EIO"), Fault("pread", "EINTR"), Fault("pread")]
WRITES = [
    Fault("pwrite", "EIO"),
    Fault("pwrite", "ENOSPC", "+"),
    Fault("pwrite", "EINTR"),
    Fault("pwrite"),
]
SYNCS = [
    Fault("fdatasync", "EIO"),
    Fault("fdatasync", "ENOSPC", "+"),
    Fault("fdatasync", "EINTR"),
    Fault("fsync", "EIO"),
    Fault("fsync", "EINTR"),
]
OPENS = [
    Fault("open", "EACCES"),
    Fault("open", "EMFILE"),
    Fault("open", "EINTR"),
    Fault("ftruncate", "ENOSPC"),
    Fault("ftruncate", "EINTR"),
]


IN_USE = "the file is in use, and is free when the other program ends"


class FaultCase(JobCase):
    def try_all(self, job, judge, faults, short=""):
        """Runs the job with each fault at each call in turn, and judges each run. Other calls
        may be short always."""
        self.put_back(job.before)
        whole = self.silt(
            *job.words, text=job.text, env=watching(self, counts="counts", short=short)
        )
        at_end = self.left()
        counts = read_counts(self.path("counts"))
        tried = 0
        for fault in faults:
            begin = self.random.randint(1, min(EVERY, max(1, counts[fault.call])))
            for number in range(begin, counts[fault.call] + 1, EVERY):
                self.put_back(job.before)
                ended, calls = self.recorded(
                    *job.words, text=job.text, **{"short": short} | fault.plan(number)
                )
                with self.subTest(
                    job=job.words[0], call=fault.call, number=number, error=fault.error
                ):
                    if fault.is_none:
                        self.assertEqual((ended, self.left()), (whole, at_end))
                    elif self.failed_file(fault, calls) == "/dev/null":
                        self.judge_null_device(job, fault, ended)
                    else:
                        judge(job, fault, whole, ended, calls)
                tried += 1
        self.assertGreater(tried, 0)

    def failed_call(self, fault, calls):
        """The number of the call that failed first."""
        return next(
            n for n, it in enumerate(calls) if it.name == fault.call and it.error == fault.error
        )

    def failed_file(self, fault, calls):
        """The file of the call that failed first."""
        return calls[self.failed_call(fault, calls)].file

    def judge_null_device(self, job, fault, ended):
        """Without it a file could get the number of a closed stream, so no other file is opened."""
        self.assertEqual(ended, Ended(1, "", f"silt: /dev/null: {fault.text}\n"))
        self.assertEqual(self.left(), job.before)

    def reason(self, fault, call):
        """What the standard error says, as a pattern."""
        if call.name in ("read", "write"):
            return f"silt: {re.escape(fault.text)}\n"
        # A buffered write goes out with a later write or sync, and that one is named.
        where = {
            "pread": f"a read at {call.at}: ",
            "pwrite": r"(a sync|a write at \d+): ",
            "fdatasync": "a sync: ",
        }
        return f"silt: store: {where.get(call.name, '')}{re.escape(fault.text)}\n"

    def judge_reason(self, fault, call, ended):
        self.assertRegex(ended.err, rf"\A{self.reason(fault, call)}\Z")

    def judge_early(self, fault, whole, ended):
        """What was printed is a beginning. All of it is there only if the read of the end
        failed."""
        self.assertEqual(ended.status, 1)
        self.assertTrue(whole.out.startswith(ended.out), ended.out)
        self.assertTrue(fault.call == "read" or ended.out != whole.out)


class Runs(FaultCase):
    """A run with freezes, conversions and merges."""

    def judge_run(self, job, fault, whole, ended, calls):
        left = self.left()
        at = self.failed_call(fault, calls)
        if calls[at].file == "standard error":
            self.judge_note(whole, ended)
            return
        is_open = any(it.file == "standard output" for it in calls[:at])
        self.judge_notes(fault, ended, calls, at, is_open)
        commands = self.judge_replies(job, fault, whole, ended, is_open)
        self.judge_file(left, commands, ended.lines)

    def judge_note(self, whole, ended):
        """A note that cannot be written is left out, and nothing else changes."""
        self.assertEqual((ended.status, ended.out), (whole.status, whole.out))
        self.assertLess(len(ended.note + ended.err), len(whole.note + whole.err))

    def judge_notes(self, fault, ended, calls, at, is_open):
        """Why the session broke off comes first, then what is said of its lines, then the call that
        failed."""
        lines = re.escape(notes_of_lines(input_of(calls), ended.out)) if is_open else ""
        reason = self.reason(fault, calls[at])
        notes = reason + lines if fault.call in ("read", "write") else lines + reason
        self.assertRegex(ended.err, rf"\A{notes}\Z")

    def judge_replies(self, job, fault, whole, ended, is_open):
        """Judges what was answered. The commands that may have been accepted, in their order."""
        lines = job.lines
        due = whole.lines[1:]
        if fault.call in ("read", "write"):
            self.judge_early(fault, whole, ended)
        elif not is_open:
            self.assertEqual((ended.status, ended.out), (1, DEVICE))
        else:
            lines, due = self.judge_line(job, fault, whole, ended)
        return [
            line
            for line, reply in zip(lines, due) if is_command(line) and reply.startswith("accepted")
        ]

    def judge_line(self, job, fault, whole, ended):
        """One line is refused: all others are as if it had not been asked, or the store has
        failed."""
        self.assertEqual(ended.status, 0)
        got = ended.lines[1:]
        due = whole.lines[1:]
        at = next(n for n, (one, other) in enumerate(zip(got, due)) if one != other)
        self.assertEqual(got[at], "refused 5 Device")
        others = job.lines[:at] + job.lines[at + 1:]
        if fault.call == "pread":
            self.assertEqual(got[:at] + got[at + 1:], self.plain(job, others).lines[1:])
            return others, got[:at] + got[at + 1:]
        rest = [it if it.startswith("refused 2") else "refused 9 Failed" for it in due[at + 1:]]
        self.assertEqual(got[at + 1:], rest)
        return job.lines, got

    def job(self):
        before = self.store(GEOMETRY).read_bytes()
        return Job(["run", "store"], LINES, before)

    def test_the_standard_streams(self):
        self.try_all(self.job(), self.judge_run, STREAMS)

    def test_replies_one_by_one(self):
        """Each line comes by itself, and so does its reply."""
        faults = [Fault("write", "EIO"), Fault("write", "EINTR")]
        self.try_all(self.job(), self.judge_run, faults, short="read:1+")

    def test_all_calls_move_one_byte(self):
        job = self.job()
        whole = self.plain(job)
        self.put_back(job.before)
        names = ("read", "write", "pread", "pwrite")
        ended, calls = self.recorded(*job.words, text=job.text, short=[f"{it}:1+" for it in names])
        self.assertEqual(ended, whole)
        self.assertEqual({it.result for it in calls if it.name in names}, {0, 1})

    def test_reads(self):
        self.try_all(self.job(), self.judge_run, READS)

    def test_writes(self):
        self.try_all(self.job(), self.judge_run, WRITES)

    def test_syncs(self):
        self.try_all(self.job(), self.judge_run, SYNCS)

    def test_the_opening_of_the_file(self):
        self.try_all(self.job(), self.judge_run, [it for it in OPENS if it.call == "open"])

    def test_an_opening_that_seals(self):
        """The write and the sync that close what a crash left open."""
        geometry = "2 2 4 2 2 8"
        content = bytearray(self.store(geometry, ["put =a 0001", "flush"]).read_bytes())
        commits = Layout.of(geometry).commits(0)
        content[commits:commits + 4] = OPEN + CLOSED + 2 * OPEN
        job = Job(
            ["run", "store"], ["put =b 0002", "put =a 0003", "flush", "get =a"], bytes(content)
        )
        self.try_all(job, self.judge_sealed, WRITES + SYNCS + READS)

    def judge_sealed(self, job, fault, whole, ended, calls):
        """As any run, on a map that has one key already."""
        left = self.left()
        at = self.failed_call(fault, calls)
        is_open = any(it.file == "standard output" for it in calls[:at])
        self.judge_notes(fault, ended, calls, at, is_open)
        commands = self.judge_replies(job, fault, whole, ended, is_open)
        self.assertRegex(self.report(left), r"\Ageneration ")
        found = self.silt("run", "store", text="get =a\nget =b\n").lines[1:]
        least = max(
            [int(it.split()[1]) for it in ended.lines if it.startswith("acknowledged")], default=0
        )
        maps = maps_after({"=a": "0001"}, commands)[least:]
        self.assertIn(found, [[answer(values, key) for key in ("=a", "=b")] for values in maps])

    def test_a_dropped_sync_is_no_refused_one(self):
        """The judge refuses a run that hides a failure."""
        job = self.job()
        ended, calls = self.recorded("run", "store", text=job.text, fail="fdatasync:3:EIO")
        whole = self.plain(job)
        with self.assertRaises(AssertionError):
            self.judge_run(job, Fault("fdatasync", "EIO"), whole, whole, calls)
        hidden = Ended(ended.status, ended.out.replace("refused 9 Failed", "accepted 4"), ended.err)
        with self.assertRaises(AssertionError):
            self.judge_run(job, Fault("fdatasync", "EIO"), whole, hidden, calls)


# A list of file systems.
LIST = re.compile(r"/proc/self/mountinfo|/sys/fs/ext4/.*")


class Lists(FaultCase):
    """The look at the system's lists of file systems. If a call of it fails, nothing is said of the
    store's file system, and all else is as it was."""

    def runs_with(self, job, fault):
        """A run with this fault at each call on a list in turn."""
        self.put_back(job.before)
        _, calls = self.recorded(*job.words, text=job.text, lists=True)
        same = [it for it in calls if it.name == fault.call]
        for number, call in enumerate(same, 1):
            if LIST.fullmatch(call.file):
                self.put_back(job.before)
                yield self.recorded(*job.words, text=job.text, lists=True, **fault.plan(number))[0]

    def test_each_call_on_a_list(self):
        job = Job(["run", "store"], LINES, self.store(GEOMETRY).read_bytes())
        whole = self.plain(job)
        at_end = self.left()
        names = [Fault(it, error) for it in ("open", "read") for error in ("EACCES", "EIO", "EINTR")]
        for fault in [*names, Fault("read")]:
            tried = 0
            for ended in self.runs_with(job, fault):
                with self.subTest(call=fault.call, error=fault.error):
                    note = whole.note if fault.is_none else ""
                    self.assertEqual((ended, ended.note, self.left()), (whole, note, at_end))
                tried += 1
            self.assertGreater(tried, 0)


class Pieces(WatchedCase):
    """Standard input in pieces, each read interrupted first, and streams that fail in the middle,
    letter for letter."""

    def run_in_pieces(self, words, text, size, error=""):
        """Runs the program on a text that comes in pieces of so many bytes. It may fail behind the
        last one."""
        pieces = [text[at:at + size] for at in range(0, len(text), size)]
        fail = [f"read:{2 * number + 1}:EINTR" for number in range(len(pieces) + 1)]
        fail += [f"read:{2 * len(pieces) + 2}:{error}"] * bool(error)
        source, sink = os.pipe2(os.O_DIRECT)  # each read returns what one write wrote
        with self.start(
            *words.split(), stdin=source, env=watching(self, log="record", fail=fail)
        ) as running:
            os.close(source)
            with contextlib.suppress(BrokenPipeError), open(sink, "wb", 0) as into:
                for piece in pieces:
                    into.write(piece)
            ended = self.finish(running)
        reads = [it.result for it in read_record(self.path("record")) if it.name == "read"]
        self.assertEqual(reads[:-1], [it for piece in pieces for it in (-1, len(piece))] + [-1])
        return ended

    def test_pieces_of_each_size(self):
        text = b"put =abc 0102\r\n\nflush\nget =abc\nget =abc"
        out = "opened\naccepted 1\nacknowledged 1\nvalue 0102\n"
        rest = "silt: the last line has no line feed, and is not answered\n"
        for size in (1, 2, 7, 64):
            self.path("store").unlink(missing_ok=True)
            self.store(SMALL)
            self.assertEqual(
                self.run_in_pieces(f"script {SMALL}", text, size), Ended(0, out, ""), size
            )
            self.assertEqual(self.run_in_pieces("run store", text, size), Ended(0, out, rest), size)

    def test_a_reader_that_fails(self):
        """A script is read whole before its first life begins. A run has replied to the lines that
        came."""
        self.store(SMALL)
        text = b"put =abc 0102\nflush\nget"
        reset = "silt: Connection reset by peer (os error 104)\n"
        self.assertEqual(
            self.run_in_pieces(f"script {SMALL}", text, 9, "ECONNRESET"), Ended(1, "", reset)
        )
        out = "opened\naccepted 1\nacknowledged 1\n"
        rest = "silt: the last line has no line feed, and is not answered\n"
        self.assertEqual(
            self.run_in_pieces("run store", text, 9, "ECONNRESET"), Ended(1, out, reset + rest)
        )
        ended = self.run_in_pieces("run store", b"get =abc\nflush\n", 64, "EIO")
        self.assertEqual(
            ended,
            Ended(
                1, "opened\nvalue 0102\nacknowledged 0\n", "silt: Input/output error (os error 5)\n"
            ),
        )

    def check_writer(self, words, text, out, rooms):
        """The writer takes so many bytes, and then fails. If the pipe is closed, nothing is
        said."""
        note = len(self.silt(*words.split(), text=text).note)
        for room in rooms:
            for error, said in (
                ("EPIPE", ""),
                ("ENOSPC", "silt: No space left on device (os error 28)\n"),
            ):
                env = watching(self, short="write:1+", fail=f"write:{note + room + 1}:{error}")
                self.assertEqual(
                    self.silt(*words.split(), text=text, env=env),
                    Ended(1, out[:room], said),
                    (room, error),
                )

    def test_a_writer_that_fails(self):
        self.check_writer(
            f"script {SMALL}",
            "put =abc 0102\nget =abc\n",
            "opened\naccepted 1\nvalue 0102\n",
            (0, 6, 7, 8, 17, 18, 28),
        )
        self.store(SMALL, ["put =abc 0102", "flush"])
        self.check_writer(
            "run store", "get =abc\nflush\n", "opened\nvalue 0102\nacknowledged 0\n", (0, 6, 7, 17)
        )

    def test_a_full_device_and_a_closed_pipe(self):
        full = "silt: No space left on device (os error 28)\n"
        for place, said in (("/dev/full", full), (None, "")):
            self.path("store").unlink(missing_ok=True)
            self.store(SMALL, ["put =a 0102", "flush"])
            for words in (
                "run store",
                "tend store",
                "check store",
                "dump store",
                f"script {SMALL}",
            ):
                self.assertEqual(self.run_into(place, words), Ended(1, "", said), (words, place))
            store = "a store (V 2, B 2, CAP 4, NL 2, NH 2, S 8) of at most 1 keys"
            for force, note in (
                ("", f"silt: store: it holds {store}; --force overwrites it\n"),
                (" --force", f"silt: store holds {store}; it is overwritten\n"),
            ):
                self.assertEqual(
                    self.run_into(place, f"format store {SMALL}{force}"),
                    Ended(1, "", note + said),
                    place,
                )

    def run_into(self, place, words):
        """Runs the program with its standard output at a place, or in a pipe that is closed."""
        if place is None:
            source, sink = os.pipe()
            os.close(source)
        else:
            sink = os.open(place, os.O_WRONLY)
        with self.start(*words.split(), stdout=sink) as running:
            os.close(sink)
            return self.finish(running, "flush\n")


class WorkedFaults(WatchedCase):
    """Device calls that fail, letter for letter."""

    def test_a_failed_write(self):
        """The third line freezes the log, and so writes the row of the second one."""
        self.store("2 2 1 3 3 8")
        text = "get =a\nput =a 0102\nput =b 0102\nput =c 0102\nflush\n"
        ended, _ = self.recorded("run", "store", text=text, fail="pwrite:1+:EBADF")
        out = "opened\nabsent\naccepted 1\nrefused 5 Device\nrefused 9 Failed\nrefused 9 Failed\n"
        err = (
            "silt: 1 line refused 5 Device, first line 3\n"
            "silt: 2 lines refused 9 Failed, first line 4; an earlier write or sync failed, and "
            "running again opens the "
            "store anew\nsilt: store: a write at 16384: Bad file descriptor (os error 9)\n"
        )
        self.assertEqual(ended, Ended(0, out, err))

    def test_a_failed_read(self):
        """The file is cut short while it is open. The first failed read is reported, and behind the
        replies."""
        self.store(SMALL, ["put =a 0102", "put =b 0304", "flush"])
        with self.start("run", "store") as running:
            self.assertEqual(running.stdout.readline(), b"opened\n")
            os.truncate(self.path("store"), 16384)
            ended = self.finish(running, "get =a\nget =b\nflush\n")
        out = "refused 5 Device\nrefused 5 Device\nacknowledged 0\n"
        err = (
            "silt: 2 lines refused 5 Device, first line 1\n"
            "silt: store: a read at 16384: failed to fill whole buffer\n"
        )
        self.assertEqual(ended, Ended(0, out, err))

    def test_a_failed_sync_of_an_opening(self):
        """The next run works."""
        self.store(SMALL)
        ended, _ = self.recorded("run", "store", text="flush\n", fail="fdatasync:1:EIO")
        self.assertEqual(
            ended, Ended(1, DEVICE, "silt: store: a sync: Input/output error (os error 5)\n")
        )
        self.assert_ends("run store", "opened\nacknowledged 0\n", text="flush\n")


class Others(FaultCase):
    """Checks, scripts and formattings."""

    def used(self):
        """A store with a frozen log, hash stores and entries."""
        return self.store(GEOMETRY, LINES).read_bytes()

    def judge_check(self, job, fault, whole, ended, calls):
        """The report or a refusal, and the file is as it was."""
        self.assertEqual(self.left(), job.before)
        call = calls[self.failed_call(fault, calls)]
        if call.file == "standard error" or ended.out == whole.out:
            # The numbers of the store are named beside the report, if they can be read again.
            self.assertEqual((ended.status, ended.out), (0, whole.out))
            self.assertTrue(whole.err.startswith(ended.err), ended.err)
            return
        self.judge_reason(fault, call, ended)
        if fault.call == "write":
            self.judge_early(fault, whole, ended)
        else:
            self.assertEqual((ended.status, ended.out), (1, DEVICE))

    def test_a_check(self):
        job = Job(["check", "store"], [], self.used())
        faults = (
            [it for it in STREAMS if it.call == "write"]
            + READS
            + [it for it in OPENS if it.call == "open"]
        )
        self.try_all(job, self.judge_check, faults)

    def judge_script(self, job, fault, whole, ended, calls):
        self.judge_reason(fault, calls[self.failed_call(fault, calls)], ended)
        self.judge_early(fault, whole, ended)

    def test_a_script(self):
        self.try_all(Job(["script", *GEOMETRY.split()], LIVES), self.judge_script, STREAMS)

    def is_filling(self, calls, at):
        """Whether this call gives the store's file its length, fills it or syncs it."""
        first = next(
            (n for n, it in enumerate(calls) if (it.name, it.file) == ("ftruncate", "store")), at + 1
        )
        ends = (
            n for n, it in enumerate(calls) if n > first and (it.name, it.file) == ("fsync", "store")
        )
        return first <= at <= next(ends, len(calls))

    def judge_filling(self, job, fault, ended):
        """There is no file where there was none, and an old one has its bytes and its length."""
        self.assertEqual((ended.status, ended.out, self.left()), (1, DEVICE, job.before))
        self.assertRegex(
            ended.err, rf"\A(silt: store holds a store .*\n)?silt: store: {re.escape(fault.text)}\n\Z"
        )

    def judge_format(self, job, fault, whole, ended, calls):
        """The file is no store, an empty one or the old one. The next formatting, by force, makes
        an empty store of it."""
        at = self.failed_call(fault, calls)
        if self.is_filling(calls, at):
            self.judge_filling(job, fault, ended)
            return
        left = self.left()
        empty = self.report_after(None, job)
        call = calls[at]
        if call.name == "open" and call.asked & 0o300 == 0o300 and not ended.status:
            # A file that cannot be made anew is opened, and made if there is none.
            self.assertEqual((ended, self.report(left)), (whole, empty))
            return
        if (fault.call, call.at, call.asked) == ("pread", 2048, 37):
            # It cannot see whether the file is marked as a shard.
            self.assertEqual((ended.status, ended.out), (1, DEVICE))
            self.assertEqual(self.report_after(left, job), empty)
            return
        if fault.call == "pread":
            # It cannot see the store that is lost, or not its numbers, or not how many keys.
            self.assertEqual((ended.status, ended.out, self.report(left)), (0, whole.out, empty))
            first = next(it for it in calls if it.name == "pread")
            seen = (
                rf"silt: store holds a store( of at most 4 keys| \({NUMBERS}\) that is damaged or "
                r"cannot be read); it is overwritten\n"
            )
            self.assertRegex(ended.err, r"\A\Z" if call is first else rf"\A{seen}\Z")
            return
        if call.file == "standard error":
            # It says in part that a store is lost.
            self.assertEqual((ended.status, ended.out, self.report(left)), (0, whole.out, empty))
            self.assertTrue(whole.err.startswith(ended.err))
            return
        self.assertRegex(
            ended.err, rf"\A(silt: store holds a store .*\n)?{self.reason(fault, call)}\Z"
        )
        if fault.call == "write":
            self.judge_early(fault, whole, ended)
            self.assertEqual(self.report(left), empty)
            return
        self.assertEqual((ended.status, ended.out), (1, DEVICE))
        if left is not None:
            self.assertIn(self.report(left), [empty, NO_STORE, self.report(job.before)])
        self.assertEqual(self.report_after(left, job), empty)

    def report_after(self, content, job):
        """What a check says of a file of this content that is formatted by force."""
        self.put_back(content)
        self.silt(*(it for it in job.words if it != "--force"), "--force")
        return self.report(self.left())

    def test_a_format_of_a_new_file(self):
        self.try_all(
            Job(["format", "store", *GEOMETRY.split()]), self.judge_format, self.of_a_format()
        )

    def test_a_format_of_a_store(self):
        job = Job(["format", "store", *GEOMETRY.split(), "--force"], [], self.used())
        self.try_all(job, self.judge_format, self.of_a_format())

    def judge_kept(self, job, fault, whole, ended, calls):
        """A store with keys stays, whatever can be seen of it."""
        self.assertEqual((ended.status, self.left()), (1, job.before))
        if fault.call != "write":
            self.assertEqual(ended.out, DEVICE)
            self.assertRegex(ended.err, r"\Asilt: store: .*\n\Z")

    def test_a_format_that_is_refused(self):
        job = Job(["format", "store", *GEOMETRY.split()], [], self.used())
        self.try_all(job, self.judge_kept, self.of_a_format())

    def of_a_format(self):
        return [it for it in STREAMS if it.call == "write"] + READS + WRITES + SYNCS + OPENS


class Files(FaultCase):
    """Files that cannot be opened, and a file system that takes no more."""

    def refused(self, *words, reason):
        ended = self.silt(*words)
        self.assertEqual((ended.status, ended.out, ended.err), (1, DEVICE, f"silt: {reason}\n"))

    def test_files_that_cannot_be_opened(self):
        missing = "No such file or directory (os error 2)"
        folder = "Is a directory (os error 21)"
        self.path("folder").mkdir()
        for name in ("none", "folder/none"):
            for job in ("run", "tend", "check", "dump"):
                self.refused(job, name, reason=f"{name}: {missing}")
            self.refused("serve", name, 0, reason=f"{name}: {missing}")
            self.refused(
                "format", f"{name}/store", *GEOMETRY.split(), reason=f"{name}/store: {missing}"
            )
            self.assertFalse(self.path(name).exists())
        for job in ("run", "tend"):
            self.refused(job, "folder", reason=f"folder: {folder}")
        self.refused("format", "folder", *GEOMETRY.split(), reason=f"folder: {folder}")
        ended = self.silt("check", "folder")
        self.assertEqual((ended.status, ended.out), (1, DEVICE))
        self.assertRegex(ended.err, r"\Asilt: folder: .*\n\Z")

    def test_a_file_in_use(self):
        """Each job is refused before it reads or writes anything."""
        before = self.store(GEOMETRY).read_bytes()
        with self.start("run", "store") as running:
            running.stdout.readline()
            for job in ("run", "tend", "check", "dump", "serve"):
                self.refused(job, "store", *["0"] * (job == "serve"), reason=f"store: {IN_USE}")
            for numbers in (GEOMETRY, "2 2 8 2 2 16", "100 1024 3000 4 4 100000"):
                self.refused("format", "store", *numbers.split(), reason=f"store: {IN_USE}")
            running.communicate()
        self.assertEqual(self.path("store").read_bytes(), before)
        self.assert_ends("run store", "opened\n")

    def test_a_file_that_others_read(self):
        """A check shares it. A job that may write does not."""
        self.store(SMALL)
        with self.path("store").open("rb") as reader:
            fcntl.flock(reader, fcntl.LOCK_SH)
            checked = self.silt("check", "store")
            self.assertEqual(
                (checked.status, checked.err),
                (0, "silt: store: V 2, B 2, CAP 4, NL 2, NH 2, S 8; charge 0 of 8\n"),
            )
            self.assertEqual(self.silt("dump", "store"), Ended(0, "", ""))
            for job in ("run", "tend"):
                self.refused(job, "store", reason=f"store: {IN_USE}")

    def limited(self, limit, job, is_ignored):
        """Runs a job that may write no file beyond this length. A signal comes with that, which
        may be ignored."""
        def prepare():
            signal.signal(signal.SIGXFSZ, signal.SIG_IGN if is_ignored else signal.SIG_DFL)
            resource.setrlimit(resource.RLIMIT_FSIZE, (limit, limit))

        ran = subprocess.run(
            [PROGRAM, *job.words],
            input=job.text.encode(),
            cwd=self.folder,
            preexec_fn=prepare,
            restore_signals=False,
            capture_output=True,
            timeout=TIME_LIMIT,
        )
        return Ended(ran.returncode, ran.stdout.decode(), ran.stderr.decode())

    def test_a_limit_of_the_file(self):
        """Writes beyond a length fail: EFBIG, or a signal that ends the program."""
        job = Job(["run", "store"], LINES, self.store(GEOMETRY).read_bytes())
        whole = self.plain(job)
        commands = [
            line for line, reply in zip(LINES, whole.lines[1:]) if reply.startswith("accepted")
        ]
        for limit in (4096, 12290, 16400, 20480, 24700, 28700, 40960 + 30):
            for is_ignored in (True, False):
                self.put_back(job.before)
                ended = self.limited(limit, job, is_ignored)
                with self.subTest(limit=limit, is_ignored=is_ignored):
                    self.judge_limited(job, commands, ended, is_ignored)

    def judge_limited(self, job, commands, ended, is_ignored):
        if is_ignored or ended.status >= 0:
            self.assertEqual(ended.status, 0)
            lines = re.escape(notes_of_lines(job.text.encode(), ended.out))
            self.assertRegex(
                ended.err,
                rf"\A{lines}silt: store: a (sync|write at \d+): File too large \(os error 27\)\n\Z",
            )
            after = ended.lines[ended.lines.index("refused 5 Device") + 1:]
            self.assertEqual(
                {it for it in after if not it.startswith("refused 2")}, {"refused 9 Failed"}
            )
        else:
            self.assertEqual(-ended.status, signal.SIGXFSZ)
        self.judge_file(self.left(), commands, ended.lines)

    def test_a_limit_of_a_format(self):
        job = Job(["format", "store", *GEOMETRY.split()])
        ended = self.limited(30000, job, True)
        reason = "silt: store: File too large (os error 27)\n"
        self.assertEqual((ended.status, ended.out, ended.err), (1, DEVICE, reason))
        self.assertIsNone(self.left(), "what was made for it is removed")
        self.assertEqual(self.silt(*job.words).status, 0)
