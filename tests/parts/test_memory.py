"""Refused memory: each request of a job, of a server and of some test programs is refused in turn.

A job is refused, ends early, or answers one line with a refusal; nothing that was acknowledged
is lost.
"""
import itertools
import re
import signal
import socket
import subprocess
import unittest

from commands import answer, differs, is_command, tried
from failing import DEVICE, GEOMETRY, KEYS, LINES, LIVES, NO_STORE, Job, JobCase
from harness import PROVED, TIME_LIMIT, TOP, Ended, without_note
from watch import read_counts, watching

NO_MEMORY = "refused 6 NoMemory\n"
# A file that cannot be opened for lack of memory is refused as a device.
OF_A_JOB = (NO_MEMORY, DEVICE)


def lines_of_replies(lines):
    """For each reply of a script the numbers of the lines that are not done if it is a refusal:
    the line's own, and for a life that is not opened all of its lines."""
    made, life = [], []
    for number, line in enumerate([*lines, "stop"]):
        if line.startswith("stop"):
            made += [life] + [[n] for n in life] + [[]]
            life = []
        else:
            life.append(number)
    return made


@unittest.skipUnless(PROVED, "a build with a memory checker has an allocator of its own")
class MemoryCase(JobCase):
    def plan(self, number, onwards=""):
        return {"fail": f"memory:{number}{onwards}:ENOMEM"}

    def requests(self):
        """How many requests for memory the last run made."""
        return read_counts(self.path("counts"))["memory"]

    def ended(self, job, **plans):
        """How the job ends. It reads its lines byte by byte, and so answers each by itself."""
        self.put_back(job.before)
        return self.silt(*job.words, text=job.text, env=watching(self, short="read:1+", **plans))

    def try_all(self, job, judge):
        """Runs the job with each request refused in turn, and with some and all later ones."""
        whole = self.ended(job, counts="counts")
        last = self.requests()
        self.assertGreater(last, 50)
        for onwards, numbers in (
            ("", range(1, last + 1)),
            ("+", range(self.random.randint(1, 4), last + 1, 4)),
        ):
            for number in numbers:
                ended = self.ended(job, **self.plan(number, onwards))
                with self.subTest(job=job.words[0], request=f"{number}{onwards}"):
                    self.judge_end(ended)
                    judge(job, whole, ended, onwards)

    def judge_end(self, ended):
        """No signal, no other status, and reasons alone on the standard error."""
        self.assertIn(ended.status, (0, 1), ended)
        self.assertRegex(ended.err, r"\A(silt: .*\n)*\Z")

    def is_job(self, whole, ended):
        """Whether the job ended as a whole job may: as it does with memory, by one refusal, or
        early."""
        if ended == whole:
            return True
        if ended.status == 1 and ended.out in OF_A_JOB:
            return True
        return ended.status == 1 and whole.out.startswith(ended.out)

    def judge_lines(self, job, whole, ended):
        """As a job, or one line is refused. The numbers of the lines that were not done."""
        if self.is_job(whole, ended):
            return []
        got = ended.out.splitlines()
        due = whole.out.splitlines()
        at = next((n for n, (one, other) in enumerate(zip(got, due)) if one != other), None)
        self.assertIsNotNone(at, ended)
        self.assertEqual((ended.status, got[at] + "\n"), (whole.status, NO_MEMORY))
        left_out = lines_of_replies(job.lines)[at]
        other = self.plain(
            job, [line for n, line in enumerate(job.lines) if n not in left_out]
        ).lines
        self.assertEqual(got[at + 1:], other[at + (due[at] == "opened"):])
        return left_out


# What a format says of the old store if the look at it lacks memory, by force and without.
UNREAD = re.compile(
    r"silt: store holds a store \(.*\) that is damaged or cannot be read; it is overwritten\n"
)
UNREAD_KEPT = re.compile(
    r"silt: store: it holds a store \(.*\) that is damaged or cannot be read; "
    r"--force overwrites it\n"
)


class Jobs(MemoryCase):
    def judge_run(self, job, whole, ended, onwards):
        """What was answered, and what the next run finds: a command may be done whose reply was
        lost, but one alone."""
        left = self.left()
        replies = ended.lines[1:]
        if not onwards:
            self.judge_lines(job, whole, ended)
        if ended.status and ended.out.startswith("opened\n"):
            self.assertTrue(ended.err.startswith("silt: out of memory\n"), ended)
            self.broken_off += 1
        accepted = [line for line, reply in zip(job.lines, replies) if reply.startswith("accepted")]
        lost = [
            line for line, reply in zip(job.lines, whole.lines[1:]) if reply.startswith("accepted")
        ]
        lost = [line for line in job.lines[len(replies):][:1] if line in lost]
        self.judge_file(left, accepted + lost, ended.lines)

    def test_a_run(self):
        before = self.store(GEOMETRY).read_bytes()
        self.broken_off = 0
        self.try_all(Job(["run", "store"], LINES, before), self.judge_run)
        self.assertGreater(self.broken_off, 0)

    def recorded_all(self, *words, text=""):
        """Runs a job with each request refused in turn: how it ended, and its calls."""
        self.silt(*words, text=text, env=watching(self, short="read:1+", counts="counts"))
        for number in range(1, self.requests() + 1):
            yield self.recorded(*words, text=text, short="read:1+", **self.plan(number))

    def test_words(self):
        """If there is no memory for the words, that is reported, and no file is opened."""
        before = self.store(GEOMETRY).read_bytes()
        refused = 0
        for ended, calls in self.recorded_all("run", "store"):
            opened = {it.file for it in calls if it.name == "open"}
            if opened == {"/dev/null"}:
                self.assertEqual(ended, Ended(1, NO_MEMORY, ""))
                refused += 1
            elif not opened:
                self.assertEqual((ended.status, ended.out), (1, ""))
                self.assertIn("/dev/null", ended.err)
        self.assertGreater(refused, 0)
        self.assertEqual(self.left(), before)

    def test_lines_of_a_script(self):
        """If there is no memory for a line, the reading ends, and no life begins."""
        text = "get =a\nno line\nput =b 00\nget =c\n"
        refused = set()
        for ended, calls in self.recorded_all("script", "1", *GEOMETRY.split()[1:], text=text):
            reads = [it for it in calls if it.name == "read"]
            if 0 < len(reads) <= len(text):
                self.assertEqual(ended, Ended(1, NO_MEMORY, ""))
                refused.add(len(reads))
        self.assertIn(text.index("\nget =c") + 1, refused)

    def judge_script(self, job, whole, ended, onwards):
        if not onwards:
            self.judge_lines(job, whole, ended)

    def test_a_script(self):
        self.try_all(Job(["script", *GEOMETRY.split()], LIVES), self.judge_script)

    def judge_check(self, job, whole, ended, onwards):
        self.assertEqual(self.left(), job.before)
        self.assertTrue(self.is_job(whole, ended), ended)

    def test_a_check(self):
        before = self.store(GEOMETRY, LINES).read_bytes()
        self.try_all(Job(["check", "store"], [], before), self.judge_check)

    def judge_format(self, job, whole, ended, onwards):
        """The file is no store, an empty one or the old one. The next formatting makes an empty
        store of it."""
        left = self.left()
        is_unread = (
            (ended.status, ended.out) == (whole.status, whole.out) and UNREAD.fullmatch(ended.err)
        )
        self.assertTrue(is_unread or self.is_job(whole, ended), ended)
        if left is not None:
            self.assertIn(self.report(left), [self.empty, NO_STORE, self.report(job.before)])
        self.put_back(left)
        self.assertEqual(self.silt(*job.words).status, 0)
        self.assertEqual(self.report(self.left()), self.empty)

    def test_a_format(self):
        self.empty = self.report(self.store(GEOMETRY).read_bytes())
        used = self.store(GEOMETRY, LINES).read_bytes()
        words = ["format", "store", *GEOMETRY.split(), "--force"]
        self.try_all(Job(words, [], used), self.judge_format)

    def judge_kept(self, job, whole, ended, onwards):
        """A store with keys stays. What it holds is not known if the look at it lacks memory."""
        self.assertEqual((ended.status, self.left()), (1, job.before))
        self.assertIn(ended.out, (*OF_A_JOB, ""))
        if "--force" in ended.err and not ended.err.startswith(whole.err):
            self.assertRegex(ended.err, UNREAD_KEPT)

    def test_a_format_that_is_refused(self):
        used = self.store(GEOMETRY, LINES).read_bytes()
        self.try_all(Job(["format", "store", *GEOMETRY.split()], [], used), self.judge_kept)

    def test_another_refusal_is_refused(self):
        """The judge sees a request that is reported as something else, and a line that is left
        out."""
        job = Job(["run", "store"], LINES, self.store(GEOMETRY).read_bytes())
        whole = self.plain(job)
        other = whole.out.replace("accepted 2", "refused 5 Device")
        for out in (other, whole.out.replace("accepted 2\n", ""), whole.out + "accepted 7\n"):
            with self.assertRaises(AssertionError):
                self.judge_lines(job, whole, type(whole)(0, out, ""))


# Each put of this session freezes a log, and both workers have something to do. A put finds no room
# if they have not freed a log yet.
OF_SERVERS = "2 2 1 6 3 40"
SESSION = (
    [f"put {KEYS[n % 4]} {n:04x}" for n in range(1, 9)]
    + [
        "flush",
        "get =a",
        "swap =a 0008 0009",
        "swap =a 0008 000a",
        "get =a",
        "swap =b 0005 -",
        "get =b",
        "swap =b - 000b",
        "get =d",
    ]
)


class Servers(MemoryCase):
    def talk(self, port):
        """Sends the lines of a session one by one, by another connection if one is closed. The
        replies, None for a line whose reply did not come."""
        replies = []
        for _ in range(4):
            try:
                with socket.create_connection(
                    ("127.0.0.1", port), timeout=TIME_LIMIT
                ) as link, link.makefile("rb") as answers:
                    while len(replies) < len(SESSION):
                        link.sendall(SESSION[len(replies)].encode() + b"\n")
                        replies.append(self.reply(answers))
                        if replies[-1] is None:
                            break
            except ConnectionError:
                replies += [None] * (len(replies) < len(SESSION))
            if len(replies) == len(SESSION):
                break
        return replies

    def reply(self, answers):
        """The next reply. None if the connection is closed, also with a line that no thread is there for it."""
        line = answers.readline()
        if line == b"busy: the system gives no thread\n":
            return None
        return line.decode().rstrip("\n") if line.endswith(b"\n") else None

    def serve(self, **plans):
        """A server with one session: what it printed, and the replies, none if it did not
        listen."""
        with self.start(
            "serve", "store", 0, "--sessions", 1, env=watching(self, **plans)
        ) as running:
            first, second = (running.stdout.readline().decode() for _ in range(2))
            replies = self.talk(int(second.split()[1])) if second.startswith("listening") else []
            try:
                rest, err = running.communicate(timeout=1 if None in replies else TIME_LIMIT)
            except subprocess.TimeoutExpired:
                running.send_signal(signal.SIGTERM)
                rest, err = running.communicate(timeout=TIME_LIMIT)
        out = first + second + rest.decode()
        return running.returncode, out, without_note(err.decode()), replies

    def judge_session(self, replies):
        """Judges the replies to the lines, and returns the maps that the file may be."""
        values, unknown = {}, []
        for line, reply in zip(SESSION, replies):
            if reply is None and is_command(line):
                unknown.append(line)
            elif reply in (None, "refused 6 NoMemory", "refused 8 NoRoom"):
                continue
            elif is_command(line):
                values = self.judge_command(line, reply, self.maps(values, unknown))
                unknown = []
            elif line == "flush":
                self.assertRegex(reply, r"\Aacknowledged \d+\Z")
            elif not unknown:
                self.assertEqual(reply, answer(values, line.split()[1]))
        return self.maps(values, unknown)

    def maps(self, values, unknown):
        """The maps that commands may leave whose replies did not come."""
        return list(itertools.accumulate(unknown, tried, initial=values))

    def judge_command(self, line, reply, maps):
        """Judges the reply to a command of a store of one of these maps. The map after it."""
        is_accepted = reply != "differs"
        self.assertRegex(reply, r"\A(accepted \d+|differs)\Z")
        before = [it for it in maps if differs(it, line) != is_accepted]
        self.assertTrue(before, f"{line}: {reply}, and the map is one of {maps}")
        return tried(before[0], line)

    def judge_server(self, status, out, err, replies):
        if not replies:
            self.assertEqual(status, 1)
            self.assertIn(out.removeprefix("opened\n"), (*OF_A_JOB, "network fault\n", ""))
            return
        self.assertIn(status, (0, 1, -signal.SIGTERM))
        maps = self.judge_session(replies)
        left = self.left()
        self.assertRegex(self.report(left), r"\Ageneration ")
        found = self.silt("run", "store", text="".join(f"get {key}\n" for key in KEYS)).lines[1:]
        self.assertIn(found, [[answer(values, key) for key in KEYS] for values in maps])

    def test_a_server(self):
        before = self.store(OF_SERVERS).read_bytes()
        status, out, err, replies = self.serve(counts="counts")
        self.assertEqual((status, err, None in replies), (0, "", False), replies)
        for number in range(1, self.requests() + 3):
            self.put_back(before)
            ended = self.serve(**self.plan(number))
            with self.subTest(request=number):
                self.judge_server(*ended)


# From this size on the C library gives a block a mapping of its own.
MAPPED = 128 * 1024


class Freed(MemoryCase):
    """The C library takes blocks from its heaps that are no larger than any mapping that was freed,
    and these heaps keep what is freed. So no block is freed while it is large."""

    def test_an_index(self):
        keys = 400_000
        store = self.store(self.silt("plan", keys, 4).lines[0])
        lines = "".join(f"put ={number} 00112233\n" for number in range(keys))
        ran = self.silt("run", "--tend", "store", text=lines, env=watching(self, counts="counts"))
        self.assertEqual((ran.status, ran.out.count("accepted ")), (0, keys))
        merged = int(re.search(r"^sorted entries (\d+)$", self.silt("check", store).out, re.M)[1])
        self.assertGreater(merged * 6 // 8, MAPPED)  # an index has six bits a key and more
        self.assertLess(read_counts(self.path("counts"))["freed"], MAPPED)


# Tests that pass whichever of their requests is refused: a refused call changes nothing, and is
# asked again.
PROGRAMS = {
    "silt_index_tests": ["memory::a_builder_lacks_memory"],
    "silt_tests": [
        "memory::each_call_lacks_memory",
        "memory::a_run_lacks_memory",
        "memory::a_life_lacks_memory",
    ],
    "silt_desk_tests": ["desk::memory::each_call_is_asked_again", "inbox::a_queue_keeps_the_order"],
    "silt_line_tests": ["wire::sessions::ends_where_memory_is_refused"],
}

# What a test says that was refused memory while it makes the store that it needs. It ends there.
BEFORE = ("error: AllocError\n", 'error: "formats"\n', 'error: "opens"\n')


class Programs(MemoryCase):
    def run_test(self, program, test, **plans):
        return subprocess.run(
            [program, test],
            env=watching(self, **plans),
            cwd=self.folder,
            timeout=60,
            capture_output=True,
        )

    def try_program(self, crate):
        program = TOP / f"crates/{crate}/out/{crate}_tests"
        if not program.exists():
            self.skipTest(f"rt test in crates/{crate} makes {program.name}")
        for test in PROGRAMS[crate]:
            self.assertEqual(self.run_test(program, test, counts="counts").returncode, 0)
            has_begun = False
            for number in range(1, self.requests() + 1):
                ran = self.run_test(program, test, **self.plan(number))
                said = ran.stdout.decode() + ran.stderr.decode()
                has_begun = has_begun or not said.startswith(BEFORE)
                with self.subTest(test=test, request=number):
                    self.assertEqual(ran.returncode, 0 if has_begun else 101, said)
            self.assertTrue(has_begun, test)

    def test_indexes(self):
        self.try_program("silt_index_tests")

    def test_stores(self):
        self.try_program("silt_tests")

    def test_desks(self):
        self.try_program("silt_desk_tests")

    def test_sessions(self):
        self.try_program("silt_line_tests")
