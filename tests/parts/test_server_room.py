"""Writers that wait for room: a server refuses no command that a worker can make room for.

    export SILT_TEST_PROGRAM=crates/silt/out/silt PYTHONPATH=tests/helpers
    python3 tests/parts/test_server_room.py speed

prints how fast loads are, with waits and without. The tests measure no time: their waits are longer
than a test may take, or end by what a worker does.
"""
import concurrent.futures
import hashlib
import select
import sys
import time
import unittest

from commands import NONE, answer, is_command, tried
from expected import BAD_LINES, Expected
from harness import PROVED, TIME_LIMIT, scaled
from served import CONVERTER, FIRST_SESSION, FOREVER, MERGER, ROOMY, Client, ServedCase
from watch import read_record, watching
from writers import KillCase

# Two logs of four rows, and a place for each of many rows.
TIGHT = "2 2 4 2 2 4000"
NO_ROOM = "refused 8 NoRoom"
FULL = "refused 7 StoreFull"
FAILED = "refused 9 Failed"


def puts(count, keys=None):
    """So many puts, each of a key of its own, or in turn of so many keys."""
    return [f"put =key/{it % (keys or count)} {it:04x}" for it in range(count)]


def dumped(lines):
    """What a dump prints of the map that these puts make."""
    values = {}
    for line in lines:
        _, name, value = line.split()
        values[hashlib.sha1(name.removeprefix("=").encode()).hexdigest()] = value
    return [f"put {key} {values[key]}" for key in sorted(values)]


class RoomCase(ServedCase):
    options = ("--pipeline",)

    def load(self, server, lines, connections=1):
        """Sends the lines, in turn, through so many connections at once. The replies in the order
        of the lines."""
        clients = [Client(server.port, limit=4 * TIME_LIMIT) for _ in range(connections)]
        for client in clients:
            self.addCleanup(client.close)
        shares = [lines[it::connections] for it in range(connections)]
        with concurrent.futures.ThreadPoolExecutor(connections) as pool:
            replies = list(pool.map(lambda client, share: client.exchange(share), clients, shares))
        self.assertEqual([*map(len, replies)], [*map(len, shares)])
        return [replies[it % connections][it // connections] for it in range(len(lines))]

    def check_accepted(self, replies, connections=1):
        """Each command is accepted, each number is given once, and they grow along each
        connection."""
        refused = [it for it in replies if not it.startswith("accepted ")]
        self.assertEqual(refused[:5], [], f"{len(refused)} of {len(replies)}")
        numbers = [int(it.split()[1]) for it in replies]
        self.assertEqual(sorted(numbers), list(range(1, len(numbers) + 1)))
        for first in range(connections):
            self.assertEqual(numbers[first::connections], sorted(numbers[first::connections]))

    def check_dump(self, lines):
        """A dump has the keys of these puts, each with its last value."""
        dump = self.silt("dump", "store", limit=2 * TIME_LIMIT)
        self.assertEqual((dump.status, dump.err), (0, ""))
        self.assertTrue(dump.lines == dumped(lines), f"{len(dump.lines)} lines")

    def check_end(self, server, err=""):
        ended = server.ended(limit=4 * TIME_LIMIT)
        self.assertEqual((ended.status, ended.err), (0, err), ended)
        return int(ended.lines[-1].removeprefix("calls "))


class Loads(RoomCase):
    """Loads that are faster than the workers. All commands are accepted, and each key has its
    value.

    Most of them may wait longer than a slow machine needs."""

    options = ("--pipeline", "--wait", FOREVER)

    def check_load(self, lines, connections, *options):
        server = self.serve("--sessions", connections, *options)
        replies = self.load(server, lines, connections)
        self.check_accepted(replies, connections)
        self.check_end(server)
        self.check_dump(lines)

    def planned(self, keys, length):
        """A store as `plan` gives it."""
        self.path("store").unlink(missing_ok=True)
        plan = self.silt("plan", keys, length)
        self.assertEqual(plan.status, 0, plan)
        self.store(plan.lines[0])

    def test_the_store_of_the_reference(self):
        """The store for bulk loads of docs/program.md has room for 512 rows at once."""
        self.store(ROOMY)
        self.check_load(puts(2000), 1)

    def test_a_plan_for_a_thousand_keys(self):
        for connections in (1, 4, 16):
            with self.subTest(connections=connections):
                self.planned(1000, 2)
                self.check_load(puts(1000), connections)

    def test_a_plan_for_ten_thousand_keys(self):
        """A build with checks takes minutes for so many, so it has fewer."""
        keys = 10_000 if PROVED else 2500
        for connections in (1, 4, 16) if PROVED else (4,):
            with self.subTest(connections=connections):
                self.planned(keys, 2)
                self.check_load(puts(keys), connections)

    def test_clients_that_wait_for_each_reply(self):
        """Without the option the logs of four rows fill too."""
        self.options = ("--wait", FOREVER)
        self.store(TIGHT)
        self.check_load(puts(200), 4)

    def test_the_wait_that_is_left_out(self):
        """Ten seconds are enough for a conversion of four rows."""
        self.options = ("--pipeline",)
        self.store(TIGHT)
        self.check_load(puts(100), 1)

    def test_keys_that_are_written_again_and_again(self):
        """Merges drop what was overwritten, and the charge stays small."""
        self.store("2 2 4 2 2 60")
        lines = puts(300, keys=7)
        self.check_load(lines, 1)


class NoWait(RoomCase):
    """With `--wait 0` a command is refused at once if there is no room."""

    def test_some_are_refused(self):
        self.store(ROOMY)
        server = self.serve("--sessions", 1, "--wait", 0)
        lines = puts(2000)
        replies = self.load(server, lines)
        self.check_end(server)
        self.assertEqual(
            {it.split(" ", 1)[0] if it.startswith("accepted") else it for it in replies},
            {"accepted", NO_ROOM},
        )
        accepted = [(line, it) for line, it in zip(lines, replies) if it != NO_ROOM]
        self.check_accepted([it for _, it in accepted])
        self.check_dump([line for line, _ in accepted])


class Final(RoomCase):
    """Refusals that no worker can change come at once, however long a command may wait."""

    options = ("--pipeline", "--wait", FOREVER)

    def test_a_full_store(self):
        """The store may hold eight rows and entries. It says so to the ninth put, though its logs
        have no room either."""
        self.store("2 2 4 2 2 8")
        server = self.serve("--sessions", 1)
        replies = self.load(server, puts(12))
        self.check_end(server)
        self.assertEqual(replies, [f"accepted {it}" for it in range(1, 9)] + [FULL] * 4)
        self.check_dump(puts(12)[:8])

    def test_a_full_store_and_deletes(self):
        """A delete and a swap to no value need room alone, so they wait for that, and puts behind
        them are refused still."""
        self.store("2 2 4 2 2 8")
        server = self.serve("--sessions", 1)
        lines = [
            *puts(8),
            "put =other 0000",
            "delete =key/0",
            "swap =key/1 0001 0002",
            "swap =key/2 0002 -",
            "swap =other - 0000",
            "get =key/1",
            "get =key/2",
        ]
        replies = self.load(server, lines)
        self.check_end(server)
        self.assertEqual(
            replies[8:], [FULL, "accepted 9", FULL, "accepted 10", FULL, "value 0001", "absent"]
        )

    def test_a_failed_store(self):
        self.store(TIGHT)
        server = self.serve("--sessions", 1, "--stay", env=watching(self, fail="fdatasync:2+:EIO"))
        replies = self.load(server, [*puts(40), "get =key/0"])
        self.assertEqual(server.ended().status, 1)
        self.assertEqual({it.split()[0] for it in replies}, {"unsettled", "refused"})
        self.assertEqual(replies[-2:], [FAILED] * 2)


class Workers(RoomCase):
    """A worker that cannot work. Each wait ends by what it does, and the server goes on."""

    options = ("--pipeline", "--wait", FOREVER)

    def failing(self, *faults, geometry=TIGHT):
        """A server whose calls fail so, and the replies to puts of more rows than its regions
        take."""
        self.path("store").unlink(missing_ok=True)
        self.store(geometry)
        self.server = self.serve("--sessions", 2, "--stay", env=watching(self, fail=list(faults)))
        return self.load(self.server, puts(60))

    def check_values(self, replies, found):
        """Each accepted put is there, and no refused one."""
        for number, (reply, value) in enumerate(zip(replies, found, strict=True)):
            if not reply.startswith("unsettled"):
                self.assertEqual(
                    value, f"value {number:04x}" if reply.startswith("accepted") else "absent"
                )

    def check_kept(self, replies):
        """Another client reads what was accepted, and so does a run behind the end of the
        server."""
        keys = [f"=key/{it}" for it in range(len(replies))]
        client = self.client(self.server)
        self.check_values(replies, client.ask(*(f"get {key}" for key in keys)))
        client.close()
        self.assertEqual(self.server.ended(limit=2 * TIME_LIMIT).status, 0)
        self.check_values(replies, self.found(*keys))

    def check_refused(self, replies, count):
        """So many are accepted, and all behind them are refused."""
        self.assertEqual(
            replies, [f"accepted {it}" for it in range(1, count + 1)] + [NO_ROOM] * (60 - count)
        )
        self.check_kept(replies)

    def test_a_merger_that_cannot_read(self):
        """Two hash regions fill, and two logs."""
        self.check_refused(self.failing(f"pread@{MERGER}:1+:EIO"), 16)

    def test_a_converter_that_cannot_read(self):
        """Two logs fill."""
        self.check_refused(self.failing(f"pread@{CONVERTER}:1+:EIO"), 8)

    def test_a_converter_that_cannot_read_once(self):
        """Its first step is refused, and the next try is not."""
        replies = self.failing(f"pread@{CONVERTER}:1:EIO")
        self.check_accepted(replies)
        self.check_kept(replies)

    def test_a_merger_that_cannot_write(self):
        """The store fails, and says so to all that wait."""
        replies = self.failing(f"pwrite@{MERGER}:1+:EIO", f"fdatasync@{MERGER}:1+:EIO")
        count = replies.index(FAILED)
        self.assertEqual(replies[count:], [FAILED] * (60 - count))
        self.assertEqual(
            {it.split()[0] for it in replies[:count]} - {"unsettled", "accepted"}, set()
        )
        self.assertEqual(self.client(self.server).ask("get =key/0", "put =new 0001"), [FAILED] * 2)
        self.server.kill()
        self.check_values(replies, self.found(*(f"=key/{it}" for it in range(60))))

    @unittest.skipUnless(PROVED, "a build with a memory checker has an allocator of its own")
    def test_a_worker_without_memory(self):
        for worker in (MERGER, CONVERTER):
            self.check_refused(
                self.failing(f"memory@{worker}:1+:ENOMEM"), 16 if worker == MERGER else 8
            )


class Held(RoomCase):
    """A converter that begins only when the test lets it. Two logs take 16 rows."""

    def serve_held(self, *options, sessions=2, lines=(), hold=(), **plans):
        self.store("2 4 8 2 4 400", lines)
        hold = [f"thread:{CONVERTER}:convert", *hold]
        env = watching(self, log="record", hold=hold, **plans)
        return self.serve("--sessions", sessions, *options, env=env)

    def let(self, name):
        """Lets what is held for this name begin."""
        self.path(name).touch()

    def wait_for(self, server, session):
        """Waits until this session, counted from 0, has handed its lines to the writer."""
        thread = FIRST_SESSION + session
        self.wait_until(lambda: server.awaits_another(thread), "lines of a session")

    def is_silent(self, client):
        """Whether nothing more has come for a client."""
        return not client.received and not select.select([client.socket], [], [], 0)[0]

    def filled(self, client):
        """The client takes all places that there are for rows."""
        self.assertEqual(client.ask(*puts(16)), [f"accepted {it}" for it in range(1, 17)])

    def test_gets_go_on_while_a_writer_waits(self):
        server = self.serve_held("--wait", FOREVER)
        writer, reader = self.clients(server, 2)
        self.filled(writer)
        writer.send("put =late 0001")
        self.wait_for(server, 0)
        for _ in range(20):
            self.assertEqual(reader.ask("get =key/15"), ["value 000f"])
        self.assertTrue(self.is_silent(writer))
        self.let("convert")
        self.assertEqual((writer.reply(), reader.ask("get =late")), ("accepted 17", ["value 0001"]))

    def test_commands_before_one_that_waits(self):
        """Those of other clients have their replies before it. Here the first client waits, and the
        two others come behind it, the third one first. The second one needs four more conversions,
        whose reads are slow."""
        server = self.serve_held(
            "--wait",
            FOREVER,
            sessions=3,
            hold=[f"recv@{FIRST_SESSION + 1}:1:second", f"recv@{FIRST_SESSION + 2}:1:third"],
            slow=f"pread@{CONVERTER}:9+:100",
        )
        first, second, third = self.clients(server, 3)
        self.filled(first)
        first.send("put =first 0001")
        self.wait_for(server, 0)
        third.send("put =third 0001", "flush")
        self.let("third")
        self.wait_for(server, 2)
        second.send(*(f"put =second/{it} 0001" for it in range(40)))
        self.let("second")
        self.wait_for(server, 1)
        self.let("convert")
        self.assertEqual(first.reply(), "accepted 17")
        accepted, acknowledged = third.replies(2)
        self.assertEqual(accepted, "accepted 18")
        # The flush may count those of the second one for which there was room before it.
        self.assertIn(acknowledged, [f"acknowledged {it}" for it in range(18, 58)])
        self.assertEqual(second.replies(40), [f"accepted {it}" for it in range(19, 59)])
        sends = [it.file for it in read_record(self.path("record")) if it.name == "send"]
        self.assertLess(sends.index("socket 3"), sends.index("socket 2"))

    def test_a_wait_ends_by_its_limit(self):
        """The converter works longer than a command may wait."""
        client = self.client(self.serve_held("--wait", 1))
        self.filled(client)
        self.assertEqual(client.ask("put =late 0001", "put =later 0001"), [NO_ROOM] * 2)

    def test_a_merger_that_cannot_read_beside_a_converter_with_work(self):
        """The merger answers each message with a refused step, which makes no room. That uses up no
        try of a command, which waits for the converter."""
        lines = [*puts(9), *["convert"] * 17, *puts(24)[9:], "flush"]
        server = self.serve_held(
            "--wait", FOREVER, "--merge-at", 1, lines=lines, fail=f"pread@{MERGER}:1+:EIO"
        )
        writer, reader = self.clients(server, 2)
        writer.send("put =late 0001")
        self.wait_until(lambda: len(self.failed_reads()) > 1, "the merger's second try")
        for _ in range(20):
            self.assertEqual(reader.ask("get =key/23"), ["value 0017"])
        self.assertTrue(self.is_silent(writer))
        self.let("convert")
        self.assertEqual((writer.reply(), reader.ask("get =late")), ("accepted 1", ["value 0001"]))

    def failed_reads(self):
        return [it for it in read_record(self.path("record")) if it.name == "pread" and it.error]

    def test_a_client_that_goes_while_it_waits(self):
        server = self.serve_held("--wait", FOREVER)
        gone, other = self.clients(server, 2)
        self.filled(gone)
        gone.send(*(f"put =late/{it} 0001" for it in range(30)))
        self.wait_for(server, 0)
        gone.reset()
        self.let("convert")
        self.assertEqual(other.ask("put =other 0001")[0].split()[0], "accepted")
        other.close()
        self.check_end(server)
        self.assertEqual(self.found("=other", "=key/15"), ["value 0001", "value 000f"])


class Order(RoomCase):
    """Replies come in the order of the lines, whether a command waits or not."""

    def random_lines(self, count):
        """Commands of eight keys, with gets, flushes and bad lines between them."""
        values, lines = {}, []
        for number in range(count):
            key = f"=key/{self.random.randrange(8)}"
            kind = self.random.randrange(12)
            old = values.get(key, NONE if kind == 1 else "ffff")
            line = (
                f"delete {key}"
                if kind == 0
                else f"swap {key} {old} {number:04x}"
                if kind < 3
                else f"get {key}"
                if kind == 3
                else "flush"
                if kind == 4
                else self.random.choice(list(BAD_LINES))
                if kind == 5
                else f"put {key} {number:04x}"
            )
            lines.append(line)
            if is_command(line) and line not in BAD_LINES:
                values = tried(values, line)
        return lines

    def check_replies(self, lines, replies):
        expected = Expected()
        self.assertEqual(len(replies), len(lines))
        for number, (line, reply) in enumerate(zip(lines, replies)):
            due = expected.reply_to(line)
            if line == "flush":
                self.assertRegex(reply, r"\Aacknowledged \d+\Z")
                self.assertGreaterEqual(int(reply.split()[1]), expected.accepted)
            else:
                self.assertEqual(reply, due, (number, line[:60]))
        keys = [f"=key/{it}" for it in range(8)]
        self.assertEqual(self.found(*keys), [answer(expected.values, key) for key in keys])

    def test_random_lines(self):
        for _ in range(scaled(3)):
            self.path("store").unlink(missing_ok=True)
            self.store("2 2 4 2 2 100")
            lines = self.random_lines(400)
            server = self.serve("--sessions", 1)
            replies = self.client(server).exchange(lines)
            self.check_end(server)
            self.check_replies(lines, replies)

    def test_a_flush_behind_commands_that_waited(self):
        """What it acknowledges counts them."""
        self.store(TIGHT)
        server = self.serve("--sessions", 1)
        replies = self.client(server).exchange([*puts(100), "flush", "get =key/99"])
        self.check_end(server)
        self.assertEqual(
            replies, [f"accepted {it}" for it in range(1, 101)] + ["acknowledged 100", "value 0063"]
        )


class Records(RoomCase):
    """What a command tries while it waits is recorded, and that is little."""

    def check_record(self, count, keys, rows, buckets):
        """A load of so many puts is recorded whole if there is room for the commands, a flush of
        each, the steps of the workers, and eight tries for each log that is to be converted."""
        logs = count // rows
        most = 2 * count + logs * (4 * buckets + 1) + logs * (4 * buckets + keys + 1) + 8 * logs
        server = self.serve("--sessions", 1, "--audit", most)
        lines = puts(count, keys)
        replies = self.load(server, lines)
        calls = self.check_end(server)
        self.check_accepted(replies)
        self.check_dump(lines)
        self.assertLessEqual(calls, most)

    def test_a_load_of_small_logs(self):
        self.store("2 2 4 2 2 100")
        self.check_record(200, keys=3, rows=4, buckets=2)

    def test_a_load_of_larger_logs(self):
        self.store("2 16 32 3 4 1000")
        self.check_record(1000, keys=20, rows=32, buckets=16)

    def test_tries_that_are_refused(self):
        """If the converter cannot read, a put is tried eight times at most, each of which is
        recorded."""
        self.store(TIGHT)
        unable = watching(self, fail=f"pread@{CONVERTER}:1+:EIO")
        server = self.serve("--sessions", 1, "--wait", FOREVER, env=unable)
        replies = self.load(server, puts(28))
        self.assertEqual(replies[8:], [NO_ROOM] * 20)
        ended = server.ended()
        self.assertEqual(ended.status, 0, ended)
        calls = int(ended.lines[-1].removeprefix("calls "))
        # The commands and their flushes, 8 tries of 20, a refused step of the converter for each,
        # and those at the end.
        self.assertLessEqual(calls, 2 * 28 + 20 * 8 * 2 + 8)


class Kills(KillCase):
    """A server that is killed while commands wait. What is there is a beginning of what each client
    sent, and all that was accepted."""

    geometry = "4 2 4 2 2 400"
    options = ("--pipeline", "--wait", FOREVER)
    burst, ahead = 25, 75

    def test_killed_under_load(self):
        generation, _ = self.check_rounds(scaled(10 if PROVED else 4), 500 if PROVED else 250, 9)
        self.assertGreater(generation, 20)


class Measures(RoomCase):
    """How fast loads are. This is no test: it prints."""

    def measure(self, keys, connections, *options):
        self.path("store").unlink(missing_ok=True)
        self.store(self.silt("plan", keys, 2).lines[0])
        server = self.serve("--sessions", connections, *options)
        begun = time.monotonic()
        replies = self.load(server, puts(keys), connections)
        seconds = time.monotonic() - begun
        accepted = sum(it.startswith("accepted") for it in replies)
        server.ended(limit=10 * TIME_LIMIT)
        how = "no waits" if options else "waits"
        return (
            f"{keys} keys, {connections} connections, {how}: "
            f"{seconds:.2f} s, {accepted} accepted, {accepted / seconds:,.0f} a second"
        )

    def measure_all(self):
        for keys in (1000, 10_000, *((100_000,) if PROVED else ())):
            for connections in (1, 4, 16):
                for options in ((), ("--wait", 0)):
                    print(self.measure(keys, connections, *options), flush=True)


if __name__ == "__main__":
    if sys.argv[1:] == ["speed"]:
        sys.exit(not unittest.TextTestRunner().run(Measures("measure_all")).wasSuccessful())
    unittest.main()
