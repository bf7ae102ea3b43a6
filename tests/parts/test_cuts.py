"""Power cuts on real files.

All writes and syncs of a run or of a server are recorded. Then the file is made anew as a crash
at any call could leave it. It has to open, to hold what was acknowledged, to be the map of a
beginning of the accepted commands, and to take new commands. All of this holds for files of both
versions of the layout.
"""
import collections
import socket
import threading

from commands import Commands, answer, differs, done, is_command, maps_after, names
from crashes import cuts, fills, image
from harness import PROVED, scaled, without_note
from layout import Layout, as_version_1, key_bytes
from notes import notes_of_lines
from watch import WatchedCase, read_record, watching

# How many cuts this part makes of runs, of servers and of formattings, and how many of one life.
OF_RUNS, OF_SERVERS, OF_FORMATS = (
    scaled(it) for it in ((1600, 400, 100) if PROVED else (160, 40, 20))
)
OF_A_LIFE = 12
# A build with checks tries every so many cuts of the worked lives.
EVERY = 1 if PROVED else 9
GEOMETRIES = ("2 2 4 3 3 64", "3 4 7 2 2 64", "1 2 1 3 3 64", "700 2 3 4 2 40")
KEYS = names(8)
# The parts of a file that have to be pending at some cuts: rows, a conversion, a merge, and a
# freeze or an end of these.
PARTS = ("log", "hash", "sorted", "manifest")


class Lived:
    """A recorded run of lines: which commands it accepted, and what a crash at each call may
    leave of them."""

    def __init__(self, lines, replies, calls):
        self.lines = lines
        self.replies = replies[1:]
        self.calls = calls
        self.accepted = [line for line, it in zip(lines, self.replies) if it.startswith("accepted")]
        self.read = [0]
        self.replied = [-1]
        for it in calls:
            ends = it.data.count(b"\n")
            self.read.append(self.read[-1] + ends * (it.file == "standard input"))
            self.replied.append(self.replied[-1] + ends * (it.file == "standard output"))

    def owed(self, number):
        """The least and the greatest number of commands that a crash at the call of this number may
        leave.

        Those count as acknowledged whose reply was begun before. `opened` is no reply to a line."""
        seen = self.replies[:max(0, self.replied[number])]
        least = max([int(it.split()[1]) for it in seen if it.startswith("acknowledged")], default=0)
        return least, sum(it.startswith("accepted") for it in self.replies[:self.read[number]])


def lines_after(layout, keys, value):
    """The lines that a file is tried with: gets, commands, swaps, all work in the background to its
    end, and commands."""
    gets = [f"get {key}" for key in keys]
    new = [f"put {keys[0]} {value}", "flush", f"delete {keys[1]}", "flush"]
    swaps = [f"swap {key} {value} {'dd' * layout.values}" for key in (keys[0], *keys[:2])]
    swaps += [f"swap {keys[1]} - {value}", f"swap {keys[1]} {value} -"]
    steps = (layout.slots + 1) * layout.hashes
    work = ["convert"] * steps + ["merge"] * (steps + len(keys) + 1)
    return gets + new + swaps + gets + work * (layout.logs // layout.hashes + 1) + new + gets


class CutCase(WatchedCase):
    def lived(self, lines, before, **plans):
        """A recorded run of these lines on a file that was this before."""
        self.path("store").write_bytes(before)
        if self.random.random() < 0.7:
            replies, calls = self.record_by_lines(lines, **plans)
        else:
            ended, calls = self.recorded(
                "run", "store", text="".join(it + "\n" for it in lines), **plans
            )
            replies = ended.lines
        self.assertEqual((replies[0], len(replies)), ("opened", len(lines) + 1))
        return Lived(lines, replies, calls)

    def take_up(self, content, layout, keys=KEYS, value=None):
        """Opens a file of this content, and tries whether it takes all that a store takes. The
        map that it held."""
        path = self.path("cut")
        path.write_bytes(content)
        checked = self.silt("check", "cut")
        self.assert_checked(checked, "cut")
        held = self.dumped(keys)
        self.assertEqual(path.read_bytes(), content, "a check or a dump wrote")
        lines = lines_after(layout, keys, value or "ee" * layout.values)
        text = "".join(line + "\n" for line in lines)
        ran = self.silt("run", "cut", text=text)
        notes = notes_of_lines(text.encode(), ran.out)
        self.assertEqual((ran.status, ran.err, len(ran.lines)), (0, notes, len(lines) + 1), ran)
        self.assertEqual(path.read_bytes()[:37], content[:37], "a run wrote the header")
        self.follow(lines, ran.lines, held)
        accepted = [it.startswith("accepted") for it in ran.lines[-len(keys) - 4:-len(keys):2]]
        self.assertEqual(accepted, [True, True], "the work in the background made no room")
        return held

    def dumped(self, keys):
        """The whole map of the file. A key that none of these words means is there in its
        digits."""
        ended = self.silt("dump", "cut")
        self.assertEqual((ended.status, ended.err), (0, ""), ended)
        words = {key_bytes(it).hex(): it for it in keys}
        return {
            words.get(key, key): value for _, key, value in (line.split() for line in ended.lines)
        }

    def follow(self, lines, replies, values):
        """Judges the replies to these lines of a store of this map."""
        accepted = 0
        self.assertEqual(replies[0], "opened")
        for line, reply in zip(lines, replies[1:]):
            if differs(values, line):
                self.assertEqual(reply, "differs", line)
            elif is_command(line) and not reply.startswith("refused"):
                accepted = accepted + 1
                values = done(values, line)
                self.assertEqual(reply, f"accepted {accepted}")
            elif is_command(line):
                self.assertIn(reply, ("refused 7 StoreFull", "refused 8 NoRoom"), line)
            elif line == "flush":
                self.assertEqual(reply, f"acknowledged {accepted}")
            elif line.startswith("get"):
                self.assertEqual(reply, answer(values, line.split()[1]), line)
            else:
                self.assertIn(reply, ("idle", "waiting", "moved", "finished"), line)

    def some_cuts(self, layout, before, calls, count):
        """Some cuts of a record. Those with pending bytes in a part of the file that seldom has
        some are as many."""
        by_part = collections.defaultdict(list)
        for cut in cuts(before, calls, "store"):
            for part in {layout.place(at) for at, _ in cut.pending} or {None}:
                by_part[part].append(cut)
        parts = sorted(by_part, key=str)
        return [self.random.choice(by_part[self.random.choice(parts)]) for _ in range(count)]

    def judge(self, cut, content, layout, base, commands, owed):
        """Whether the file is the map of a beginning of the commands within these bounds.
        Returns that map."""
        least, most = owed
        try:
            held = self.take_up(content, layout)
            allowed = maps_after(base, commands)[least:most + 1]
            self.assertIn(held, allowed, f"after {least} to {most} commands")
        except AssertionError as why:
            raise AssertionError(
                f"a crash at call {cut.number}, {len(cut.pending)} writes pending: {why}"
            ) from None
        return held


class Runs(CutCase):
    def try_life(self, layout, before, base, seen, **plans):
        """Records a life and judges some of its cuts. The content of one of them and its map."""
        made = Commands(self.random, KEYS, layout.values, burst=layout.slots + len(KEYS) + 2)
        life = self.lived(made.lines(self.random.randint(20, 200)), before, **plans)
        left = before, base
        for cut in self.some_cuts(layout, before, life.calls, OF_A_LIFE):
            content = image(self.random, cut)
            held = self.judge(cut, content, layout, base, life.accepted, life.owed(cut.number))
            seen.update(["cut"] + [layout.place(at) for at, _ in cut.pending])
            left = self.random.choice((left, (content, held)))
        return left

    def try_lives(self, geometry):
        """Lives on files of both versions."""
        for version in (1, 2):
            with self.subTest(version=version):
                self.try_lives_of_version(version, geometry, OF_RUNS // len(GEOMETRIES) // 2)

    def try_lives_of_version(self, version, geometry, count):
        """Lives one after the other, each on a file that a crash left, until there are enough
        cuts of each kind. A file of version 1 has digests or none."""
        self.path("store").unlink(missing_ok=True)
        layout = Layout.of(geometry)
        seen = collections.Counter()
        left = self.store(geometry).read_bytes(), {}
        while seen["cut"] < count or not all(seen[part] for part in PARTS):
            if version == 1 and self.random.random() < 0.5:
                left = as_version_1(left[0]), left[1]
            left = self.try_life(layout, *left, seen)
            self.assertLess(
                seen["cut"], 3 * count + 20 * OF_A_LIFE, f"pending parts of the file: {seen}"
            )

    def test_small_rows(self):
        self.try_lives(GEOMETRIES[0])

    def test_more_buckets(self):
        self.try_lives(GEOMETRIES[1])

    def test_logs_of_one_row(self):
        self.try_lives(GEOMETRIES[2])

    def test_rows_over_several_sectors(self):
        self.try_lives(GEOMETRIES[3])

    def test_after_failed_calls(self):
        """A write or a sync fails, the store is failed, and then the crash comes."""
        layout = Layout.of(GEOMETRIES[0])
        before = self.store(GEOMETRIES[0]).read_bytes()
        for _ in range(max(2, OF_RUNS // 8 // OF_A_LIFE)):
            call = self.random.choice(("pwrite", "fdatasync"))
            # The first sync is the opening's.
            fault = f"{call}:{self.random.randint(2, 40)}:{self.random.choice(('EIO', 'ENOSPC'))}"
            self.try_life(layout, before, {}, collections.Counter(), fail=fault)

    def test_both_versions_make_the_same_calls(self):
        """Each life makes the same writes, syncs and reads on a file without digests."""
        layout = Layout.of(GEOMETRIES[0])
        before = self.store(GEOMETRIES[0]).read_bytes()
        for _ in range(max(4, OF_RUNS // 8 // OF_A_LIFE)):
            lines = Commands(
                self.random, KEYS, layout.values, burst=layout.slots + len(KEYS) + 2
            ).lines(100)
            of_versions = []
            for content in (as_version_1(before), before):
                self.path("store").write_bytes(content)
                calls = self.record_by_lines(lines)[1]
                of_versions.append(
                    [(it.name, it.at, it.asked, it.data) for it in calls if it.file == "store"]
                )
            self.assertEqual(*of_versions)
            before = self.path("store").read_bytes()

    def test_a_program_without_syncs_is_refused(self):
        before = self.store(GEOMETRIES[0]).read_bytes()
        with self.assertRaises(AssertionError):
            for _ in range(10):
                self.try_life(
                    Layout.of(GEOMETRIES[0]), before, {}, collections.Counter(), drop="fdatasync"
                )

    def test_a_reply_before_its_sync_is_refused(self):
        """The judge sees a run whose replies go out before the syncs that they rest on."""
        before = self.store(GEOMETRIES[0]).read_bytes()
        life = self.lived(["put =aa 0001", "flush"] * 5, before)
        early = sorted(life.calls, key=lambda it: it.file != "standard output")
        life = Lived(life.lines, ["opened", *life.replies], early)
        at = next(cut for cut in cuts(before, early, "store"))
        self.assertEqual(life.owed(at.number)[0], 5)
        with self.assertRaises(AssertionError):
            self.judge(
                at, at.settled, Layout.of(GEOMETRIES[0]), {}, life.accepted, life.owed(at.number)
            )


# The worked lives of test_sweeps.py, on files with room for more: three puts; a put and a delete;
# puts without a flush; five puts, which freeze a log; swaps, also from and to no value; and with a
# swap behind them a conversion, two merges of which the second drops a delete, and a merge beside
# two conversions.
CONVERT = ["convert"] * 9
MERGE = ["merge"]
FIVE_PUTS = [f"put =a{it} 000{i}" for i, it in enumerate("abcde")] + ["flush"]
WORKED = (
    ("2 2 4 3 3 64", ["put =aa 0001", "put =ab 0002", "put =ac 0003", "flush"]),
    ("2 2 4 3 3 64", ["put =aa 0001", "flush", "delete =aa", "flush"]),
    ("2 2 4 3 3 64", ["put =aa 0001", "flush", "put =aa 0002", "get =aa", "put =ab 0003"]),
    ("2 2 4 3 3 64", FIVE_PUTS),
    (
        "2 2 4 3 3 64",
        [
            "put =aa 0001",
            "swap =aa 0001 0002",
            "flush",
            "swap =aa 0001 0003",
            "swap =aa 0002 0004",
            "delete =aa",
            "swap =aa 0004 0005",
            "swap =aa - 0006",
            "swap =aa - 0007",
            "flush",
            "swap =aa 0006 -",
        ],
    ),
    ("2 2 4 3 3 64", [*FIVE_PUTS, *CONVERT, "swap =ac 0002 0006"]),
    (
        "2 2 1 3 2 64",
        [
            "put =aa 0102",
            "put =ab 0304",
            *CONVERT,
            *MERGE * 10,
            "delete =aa",
            *CONVERT,
            "put =ac 0506",
            *CONVERT,
            *MERGE * 19,
            "get =aa",
            "get =ab",
            "get =ac",
            "flush",
            "swap =ab 0304 0607",
        ],
    ),
    (
        "2 2 1 3 3 64",
        [
            "put =aa 0001",
            "put =ab 0002",
            *CONVERT,
            "put =aa 0003",
            *MERGE * 3,
            *CONVERT,
            "put =ab 0004",
            *CONVERT,
            *MERGE * 7,
            "get =aa",
            "get =ab",
            "swap =aa 0003 0005",
        ],
    ),
)


class Worked(CutCase):
    """Each cut of the worked lives with each fill, and torn at random. No line of them is
    refused."""

    def try_each_cut(self, geometry, lines):
        layout = Layout.of(geometry)
        self.path("store").unlink(missing_ok=True)
        before = self.store(geometry).read_bytes()
        life = self.lived(lines, before)
        self.assertEqual([it for it in life.replies if it.startswith("refused")], [])
        every = list(cuts(before, life.calls, "store"))
        for cut in every[self.random.randrange(EVERY)::EVERY]:
            contents = {content: name for name, content in fills(cut)} | {
                image(self.random, cut): "torn"
            }
            for content, name in contents.items():
                with self.subTest(call=cut.number, fill=name, version=self.version):
                    self.judge(cut, content, layout, {}, life.accepted, life.owed(cut.number))

    def test_each_cut(self):
        for geometry, lines in WORKED:
            self.try_each_cut(geometry, lines)


class WorkedOfVersion1(Worked):
    version = 1


# A flush, a freeze with none waiting, and a conversion. The numbers are of the syncs that no later
# one stands for: a flush's two, a manifest's before its commit byte is opened, the closing of an open
# commit byte.
LINES = (
    [
        "put =aa 0001",
        "put =ab 0002",
        "put =ac 0003",
        "put =ad 0004",
        "flush",
        "put =ae 0005",
        "flush",
    ]
    + ["convert"] * 9
)
NEEDED = {
    2: "rows",
    3: "commit bytes",
    6: "a body",
    8: "rows",
    9: "commit bytes",
    11: "the closing",
    12: "a body",
}


class Needed(CutCase):
    """The judge sees each sync that is left out, if the file needs it."""

    def window(self, before, calls, number):
        """The last cut before a sync that is not in the record, where what it should have
        settled is pending."""
        found, syncs = None, 1
        for cut in cuts(before, calls, "store"):
            found = cut if syncs == number else found
            syncs += cut.number < len(calls) and calls[cut.number].name == "fdatasync"
        return found

    def test_each_needed_sync(self):
        layout = Layout.of(GEOMETRIES[0])
        before = self.store(GEOMETRIES[0]).read_bytes()
        for number, name in NEEDED.items():
            self.path("store").write_bytes(before)
            replies, calls = self.record_by_lines(LINES, drop=f"fdatasync:{number}")
            life = Lived(LINES, replies, calls)
            cut = self.window(before, calls, number)
            with self.subTest(sync=number, of=name), self.assertRaises(AssertionError):
                for _ in range(300):
                    content = image(self.random, cut)
                    self.judge(cut, content, layout, {}, life.accepted, life.owed(cut.number))

    def test_a_row_that_is_torn(self):
        """A commit byte that is open before its row, as a program would leave it that opens commit bytes
        first."""
        layout = Layout.of(GEOMETRIES[0])
        before = self.store(GEOMETRIES[0]).read_bytes()
        self.path("store").write_bytes(before)
        life = Lived(LINES, *self.record_by_lines(LINES))
        commits = next(
            n for n, it in enumerate(life.calls) if it.name == "pwrite" and it.at == layout.commits(0)
        )
        cut = next(it for it in cuts(before, life.calls, "store") if it.number == commits)
        torn = bytearray(image(self.random, cut))
        torn[layout.commits(0):layout.commits(0) + 4] = b"\xa7" * 4
        torn[layout.bodies(0) + layout.row_len + 5] ^= 1
        with self.assertRaises(AssertionError):
            self.judge(cut, bytes(torn), layout, {}, life.accepted, life.owed(cut.number))


class NeededOfVersion1(Needed):
    version = 1


class Session:
    """The lines of one connection and their replies, each with the number of the call that moved
    its last byte, or, of a reply, its first."""

    def __init__(self, calls, name):
        self.lines = list(pieces(calls, name, "recv"))
        self.replies = list(pieces(calls, name, "send"))


def pieces(calls, file, name):
    """The lines that went through a socket, with the numbers of the calls in which they ended."""
    rest = b""
    for number, call in enumerate(calls):
        if call.file == file and call.name == name:
            *whole, rest = (rest + call.moved).split(b"\n")
            yield from ((number, it.decode()) for it in whole)


class Served:
    """A recorded server: its accepted commands in their order, and what a crash at each call may
    leave of them."""

    def __init__(self, calls):
        self.calls = calls
        commands = {}
        sockets = {it.file for it in calls if it.file.startswith("socket")}
        for session in (Session(calls, it) for it in sorted(sockets)):
            for (read, line), (sent, reply) in zip(session.lines, session.replies):
                if is_command(line) and reply.startswith("accepted"):
                    commands[int(reply.split()[1])] = line, read, sent
        in_order = [commands[n] for n in sorted(commands)]
        self.is_whole = sorted(commands) == list(range(1, len(commands) + 1))
        self.accepted = [line for line, _, _ in in_order]
        self.reads = [read for _, read, _ in in_order]
        self.sends = [sent for _, _, sent in in_order]

    def owed(self, number):
        """A reply that was begun has to hold. A command may hold from when its line was read."""
        least = max([n for n, sent in enumerate(self.sends, 1) if sent < number], default=0)
        unread = [n for n, read in enumerate(self.reads) if read >= number]
        return least, unread[0] if unread else len(self.reads)


class Servers(CutCase):
    def client(self, port, lines):
        """Sends some lines at a time, and waits for their replies."""
        with socket.create_connection(("127.0.0.1", port), timeout=60) as link, link.makefile(
            "rb"
        ) as replies:
            while lines:
                count = min(len(lines), self.random.randint(1, 6))
                link.sendall("".join(it + "\n" for it in lines[:count]).encode())
                for _ in range(count):
                    replies.readline()
                lines = lines[count:]

    def served(self, layout, before, clients=4, **plans):
        """A recorded server under some clients, whose values differ."""
        self.path("store").write_bytes(before)
        with self.start(
            "serve", "store", 0, "--sessions", clients, env=watching(self, log="record", **plans)
        ) as run:
            run.stdout.readline()
            port = int(run.stdout.readline().split()[1])
            made = Commands(self.random, KEYS, layout.values)
            threads = [
                threading.Thread(target=self.client, args=(port, made.lines(40)))
                for _ in range(clients)
            ]
            for thread in threads:
                thread.start()
            out, err = run.communicate(timeout=60)
        self.assertEqual((run.returncode, without_note(err.decode())), (0, ""), out)
        return Served(read_record(self.path("record")))

    def try_server(self, geometry, count, **plans):
        layout = Layout.of(geometry)
        base = {}
        before = self.store(geometry).read_bytes()
        while count > 0:
            before = self.random.choice((before, as_version_1(before)))
            life = self.served(layout, before, **plans)
            self.assertTrue(life.is_whole, "the numbers of the accepted commands have gaps")
            for cut in self.some_cuts(layout, before, life.calls, OF_A_LIFE):
                content = image(self.random, cut)
                held = self.judge(cut, content, layout, base, life.accepted, life.owed(cut.number))
            before = content
            base = held
            count = count - OF_A_LIFE

    def test_a_server_under_clients(self):
        self.try_server("2 4 8 4 2 100", OF_SERVERS // 2)

    def test_a_server_of_small_logs(self):
        self.try_server("2 2 2 3 3 100", OF_SERVERS // 2)

    def test_a_server_without_syncs_is_refused(self):
        with self.assertRaises(AssertionError):
            self.try_server("2 4 8 4 2 100", 4 * OF_A_LIFE, drop="fdatasync")


class Formats(CutCase):
    """A crash while a file is formatted leaves what was there, no store, or an empty one. While the
    file is being filled, each byte is written anew, and a crash may leave anything there."""

    def report(self, content):
        self.path("cut").write_bytes(content)
        checked = self.silt("check", "cut")
        return checked.out

    def try_format(self, geometry, before):
        """Records a formatting of a file of this content, and judges cuts of it."""
        words = geometry.split()
        old = before and self.report(before)
        if before is not None:
            self.path("store").write_bytes(before)
        ended, calls = self.recorded("format", "store", *words, "--force")
        self.assertEqual(ended.status, 0, ended)
        made = self.path("store").read_bytes()
        empty = self.report(made)
        filled = max(n for n, it in enumerate(calls) if (it.name, it.file) == ("fsync", "store"))
        for cut in cuts(before or bytes(len(made)), calls, "store"):
            for _ in range(max(1, OF_FORMATS // 40)):
                report = self.report(image(self.random, cut))
                is_done = cut.number == len(calls)
                allowed = [empty] if is_done else [old, "refused 1 NotFormatted\n", empty]
                if not old or cut.number > filled:
                    self.assertIn(report, allowed, f"a crash at call {cut.number}")
                self.assertEqual(self.silt("format", "cut", *words, "--force").status, 0)
                self.assertEqual(self.report(self.path("cut").read_bytes()), empty)
        self.path("store").unlink()

    def test_a_new_file(self):
        self.try_format("2 2 4 2 2 8", None)

    def test_a_file_with_a_store(self):
        lines = [f"put =k{n} 0001" for n in range(6)] + ["convert"] * 9 + ["flush"]
        before = self.store("2 2 4 2 2 8", lines).read_bytes()
        for content in (before, as_version_1(before)):
            self.try_format("2 2 4 2 2 8", content)
