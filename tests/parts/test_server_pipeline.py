"""Pipelined clients, which send many lines before they read a reply: with `--pipeline`, and without
it."""
import socket
import threading
import unittest

from commands import Commands, answer, is_command, names
from expected import BAD_LINES, Expected
from served import LONGEST_LINE, ServedCase
from watch import read_record, watching

# One log takes all rows of a test, so the calls of a server are the commands and the flushes.
WIDE = "2 4096 16384 2 1 20000"
# Values of this length make a swap under a name of 8,000 bytes a line of 16,600.
LONG_VALUE = 2148
LONG_VALUES = f"{LONG_VALUE} 16 64 2 1 100"
# What an opening syncs, and how many rows go out, with their commit bytes behind them.
OPENING = ["fdatasync"]
ONE_FLUSH = ["pwrite", "fdatasync", "pwrite", "fdatasync", "send"]


class PipelineCase(ServedCase):
    options = ("--pipeline",)

    def setUp(self):
        super().setUp()
        self.store(WIDE)

    def answers(self, *lines):
        """The replies to these lines, sent in one write, and the calls that the server made."""
        server = self.serve("--sessions", 1)
        replies = self.client(server).exchange(lines)
        return replies, self.calls_of(server.ended())

    def calls_of(self, ended):
        """How many calls a server made, which ended well."""
        self.assertEqual((ended.status, ended.err), (0, ""), ended)
        return int(ended.lines[-1].removeprefix("calls "))


class Pipelined(PipelineCase):
    """One client that sends all its lines in one write. Each flush serves all commands of one read
    up to a get of a key that one of them changes, or a line that is refused."""

    many = 10_000
    # What the flushes acknowledge behind the seventh command and behind the eighth, and the number
    # of calls, in `test_three_batches`.
    acknowledged = (8, 8)
    calls = 11

    def check_calls_made(self, calls, commands, batches):
        """There were so many commands, and a flush for each of these batches."""
        self.assertEqual(calls, commands + batches)

    def check_few_flushes(self, calls, commands):
        """A flush served ten commands at least."""
        self.assertGreater(calls, commands)
        self.assertLessEqual(calls - commands, commands // 10)

    def check_acknowledged(self, reply, least, most):
        """A flush acknowledged the commands before it, and none behind its batch."""
        word, number = reply.split()
        self.assertEqual(word, "acknowledged")
        self.assertIn(int(number), range(least, most + 1))

    def check_replies(self, lines, replies):
        """Each line has its reply, and the next run finds the map behind them."""
        expected = Expected()
        self.assertEqual(len(replies), len(lines))
        most = sum(map(is_command, lines))
        for number, (line, reply) in enumerate(zip(lines, replies)):
            due = expected.reply_to(line)
            if line == "flush":
                self.check_acknowledged(reply, expected.accepted, most)
            else:
                self.assertEqual(reply, due, (number, line[:100]))
        keys = sorted({it.split()[1] for it in lines if is_command(it) and it not in BAD_LINES})
        self.assertEqual(self.found(*keys), [answer(expected.values, key) for key in keys])

    def test_a_thousand_puts(self):
        lines = [f"put =key/{number % 60} {number:04x}" for number in range(1000)]
        replies, calls = self.answers(*lines)
        self.assertEqual(replies, [f"accepted {it}" for it in range(1, 1001)])
        self.check_few_flushes(calls, 1000)
        self.check_replies(lines, replies)

    def test_many_puts_and_the_end_of_input(self):
        lines = [f"put =key/{number % 500} {number:04x}" for number in range(self.many)]
        replies, calls = self.answers(*lines)
        self.assertEqual(replies, [f"accepted {it}" for it in range(1, self.many + 1)])
        self.check_few_flushes(calls, self.many)

    def test_a_get_sees_the_puts_before_it(self):
        lines = [
            "put =a 0001",
            "get =a",
            "put =a 0002",
            "put =b 0003",
            "get =a",
            "get =b",
            "delete =a",
            "put =b 0004",
            "put =c 0005",
            "get =a",
            "get =b",
            "get =c",
        ]
        replies, calls = self.answers(*lines)
        self.check_replies(lines, replies)
        self.check_calls_made(calls, commands=6, batches=3)

    def test_gets_of_other_keys(self):
        lines = ["put =a 0001", "get =b", "put =c 0002", "get =d", "get =b", "delete =e", "get =f"]
        replies, calls = self.answers(*lines)
        self.check_replies(lines, replies)
        self.check_calls_made(calls, commands=3, batches=1)

    def test_half_puts(self):
        """A get waits only if one of the puts before it is of its key."""
        lines = []
        for number in range(250):
            key = self.random.randrange(1000)
            lines += [f"put =key/{key} {number:04x}", f"get =key/{self.random.randrange(1000)}"]
        self.random.shuffle(lines)
        replies, calls = self.answers(*lines)
        self.check_few_flushes(calls, 250)
        self.check_replies(lines, replies)

    def test_gets_alone(self):
        replies, calls = self.answers(*["get =a", "get =b"] * 200)
        self.assertEqual((replies, calls), (["absent"] * 400, 0))

    def test_a_flush_in_a_batch(self):
        lines = ["put =a 0001", "put =b 0002", "delete =a", "flush", "put =c 0003", "put =d 0004"]
        replies, calls = self.answers(*lines)
        self.check_replies(lines, replies)
        self.check_calls_made(calls, commands=5, batches=1)

    def test_three_batches(self):
        """Three puts, three other commands, and two puts: eight commands, and a flush for each
        batch."""
        lines = ["put =a 0001", "put =b 0002", "put =a 0003", "get =a",
                 "put =a 0004", "delete =b", "swap =a 0004 0005", "get =a", "get =b", "merge",
                 "put =c 0006", "flush", "put =d 0007", "flush"]
        replies, calls = self.answers(*lines)
        first, second = self.acknowledged
        self.assertEqual(replies, [
            "accepted 1", "accepted 2", "accepted 3", "value 0003",
            "accepted 4", "accepted 5", "accepted 6", "value 0005", "absent", "refused 20 BadLine",
            "accepted 7", f"acknowledged {first}", "accepted 8", f"acknowledged {second}"])
        self.assertEqual(calls, self.calls)

    def test_more_than_one_read(self):
        """The server reads 256 KiB at once, and the get sees the last put."""
        count = min(self.many, 6000)
        lines = [f"put {'01'.ljust(40, '0')} {it:04x}" for it in range(count)]
        replies, _ = self.answers(*lines, f"get {'01'.ljust(40, '0')}")
        self.assertEqual(
            replies, [f"accepted {it}" for it in range(1, count + 1)] + [f"value {count - 1:04x}"]
        )

    def test_flushes_alone(self):
        replies, calls = self.answers("flush", "flush", "get =a", "flush")
        self.assertEqual(replies, ["acknowledged 0", "acknowledged 0", "absent", "acknowledged 0"])
        self.check_calls_made(calls, commands=0, batches=1)

    def test_refusals_have_their_places(self):
        lines = []
        for number, bad in enumerate(BAD_LINES):
            lines += [f"put =a {number:04x}", bad, f"put =b {number:04x}", bad, bad]
        replies, _ = self.answers(*lines)
        self.check_replies(lines, replies)

    def test_lines_that_get_no_reply(self):
        replies, calls = self.answers("put =a 0001\r", "", "\r", "put =b 0002", "", "delete =c")
        self.assertEqual(replies, ["accepted 1", "accepted 2", "accepted 3"])
        self.check_calls_made(calls, commands=3, batches=1)

    def test_a_counter(self):
        lines = ["swap =n 0000 0001", "put =n 0000"]
        for number in range(40):
            lines += [f"swap =n {number:04x} {number + 1:04x}", f"swap =n {number:04x} ffff"]
        lines += ["get =n", "delete =n", "swap =n 0028 0029", "get =n"]
        replies, calls = self.answers(*lines)
        self.check_replies(lines, replies)
        self.assertEqual(replies[-4:], ["value 0028", "accepted 42", "differs", "absent"])
        self.check_few_flushes(calls, commands=84)

    def test_random_lines(self):
        commands = Commands(self.random, names(8), 2)
        for _ in range(3):
            self.store(WIDE)
            lines = commands.lines(300)
            for bad in BAD_LINES:
                lines.insert(self.random.randrange(len(lines)), bad)
            replies, _ = self.answers(*lines)
            self.check_replies(lines, replies)

    def test_lines_in_parts(self):
        """One client sends its lines in parts of any length, as a slow network hands them on."""
        lines = Commands(self.random, names(8), 2).lines(300)
        server = self.serve("--sessions", 1)
        client = self.client(server)
        data = "".join(line + "\n" for line in lines).encode()
        while data:
            size = self.random.randrange(1, 400)
            client.send_bytes(data[:size])
            data = data[size:]
        client.end_input()
        replies = client.rest()
        self.assertEqual(server.ended().status, 0)
        self.check_replies(lines, replies)


class Plain(Pipelined):
    """The same lines without the option have the same replies. Each command waits for a flush of
    its own."""

    options = ()
    many = 500
    # Each command and each flush has a flush of its own.
    acknowledged = (7, 8)
    calls = 18

    def check_calls_made(self, calls, commands, batches):
        # A line `flush` is done by its own flush.
        self.assertGreaterEqual(calls, 2 * commands)

    def check_few_flushes(self, calls, commands):
        self.assertEqual(calls, 2 * commands)

    def check_acknowledged(self, reply, least, most):
        self.assertEqual(reply, f"acknowledged {least}")


class Flushes(PipelineCase):
    """What the replies of a batch say of its flush."""

    lines = [
        "put =a 0001",
        "put =b 0002",
        "swap =a 0009 0003",
        "delete =b",
        "flush",
        "pot =a",
        "get =a",
    ]

    def test_replies_come_behind_their_syncs(self):
        server = self.serve("--sessions", 1, env=watching(self, log="record"))
        client = self.client(server)
        for turn in range(3):
            puts = [f"put =key/{it} {turn:02x}{it:02x}" for it in range(40)]
            self.assertEqual(
                client.ask(*puts), [f"accepted {40 * turn + it}" for it in range(1, 41)]
            )
        client.close()
        self.check_calls(server.ended(), 123)
        calls = [
            it.name
            for it in read_record(self.path("record")) if it.name in ("pwrite", "fdatasync", "send")
        ]
        self.assertEqual(calls, OPENING + ONE_FLUSH * 3)

    def check_failure(self, fault, words):
        """The flush of a batch fails with this fault, and the store takes nothing more."""
        self.store(WIDE)
        server = self.serve("--sessions", 1, "--stay", env=watching(self, fail=fault))
        client = self.client(server)
        late = ["refused 20 BadLine", "refused 9 Failed"]
        unsettled = ["unsettled 1", "unsettled 2", "differs", "unsettled 3", "refused 5 Device"]
        self.assertEqual(client.ask(*self.lines), unsettled + late)
        self.assertEqual(client.ask(*self.lines), ["refused 9 Failed"] * 5 + late)
        client.close()
        ended = server.ended()
        self.assertEqual(ended.status, 1, ended)
        self.assertIn(f"silt: {words}; the store takes nothing more", ended.err)
        self.check_whole()
        beginnings = [["absent", "absent"], ["value 0001", "absent"], ["value 0001", "value 0002"]]
        self.assertIn(self.found("=a", "=b"), beginnings)

    def test_the_sync_of_the_rows_fails(self):
        self.check_failure("fdatasync:2:EIO", "a sync: Input/output error (os error 5)")

    def test_batches_behind_a_flush_that_fails(self):
        server = self.serve("--sessions", 1, "--stay", env=watching(self, fail="fdatasync:2+:EIO"))
        lines = [
            "swap =a 0000 0001",
            "put =a 0001",
            "put =b 0002",
            "flush",
            "get =a",
            "put =c 0003",
            "flush",
        ]
        due = (
            ["differs", "unsettled 1", "unsettled 2", "refused 5 Device"] + ["refused 9 Failed"] * 3
        )
        self.assertEqual(self.client(server).exchange(lines), due)
        self.assertEqual(server.ended().status, 1)

    def test_the_sync_of_the_commit_bytes_fails(self):
        self.check_failure("fdatasync:3:ENOSPC", "a sync: No space left on device (os error 28)")

    def test_the_write_of_the_rows_fails(self):
        self.check_failure("pwrite:1:EIO", "a write at 28672: Input/output error (os error 5)")

    def test_a_record_that_is_full(self):
        puts = [f"put =key/{it} 0001" for it in range(5)]
        for most, replies, calls in (
            (6, [f"accepted {it}" for it in range(1, 6)], 6),
            (5, [f"unsettled {it}" for it in range(1, 6)], 5),
            (3, [f"unsettled {it}" for it in range(1, 4)] + ["refused 11 HistoryFull"] * 2, 3),
            (0, ["refused 11 HistoryFull"] * 5, 0),
        ):
            self.store(WIDE)
            server = self.serve("--sessions", 1, "--audit", most)
            client = self.client(server)
            self.assertEqual(client.ask(*puts), replies, most)
            client.close()
            self.check_calls(server.ended(), calls)


class Clients(PipelineCase):
    """Several pipelined clients, some that send or receive slowly, and some that break off."""

    def test_half_a_line(self):
        self.store(LONG_VALUES)
        server = self.serve()
        slow, other = self.clients(server, 2)
        name = "=" + "n" * 8000
        values = ["".join([f"{it:02x}"] * LONG_VALUE) for it in range(3)]
        line = f"swap {name} {values[0]} {values[1]}"
        self.assertEqual(len(line), LONGEST_LINE)
        slow.send_bytes(f"put {name} {values[0]}\nput =b {values[2]}\n{line[:8300]}".encode())
        self.assertEqual(slow.replies(2), ["accepted 1", "accepted 2"])
        replies = [f"value {values[2]}", "accepted 3", f"value {values[1]}"]
        self.assertEqual(other.ask("get =b", f"put =b {values[1]}", "get =b"), replies)
        slow.send_bytes(f"{line[8300:]}\nget {name}\n".encode())
        self.assertEqual(slow.replies(2), ["accepted 4", f"value {values[1]}"])

    def test_a_client_that_never_reads(self):
        self.store("4096 64 256 2 1 1000")
        server = self.serve()
        deaf, other = self.clients(server, 2)
        # Some 16 MB of replies, more than the system keeps for a connection.
        turns = [f"{it:04x}" + "5a" * 4094 for it in range(200)]
        sending = threading.Thread(target=self.send_until_it_breaks, args=(deaf, turns))
        sending.start()
        self.wait_until(lambda: other.ask("get =deaf") != ["absent"], "the first put")
        for number in range(20):
            value = f"{number:04x}" + "a5" * 4094
            accepted, found, flushed = other.ask(f"put =abc {value}", "get =abc", "flush")
            self.assertRegex(accepted, "^accepted ")
            self.assertEqual(found, f"value {value}")
            self.assertRegex(flushed, "^acknowledged ")
        self.assertNotEqual(other.ask("get =deaf"), [f"value {turns[-1]}"])
        deaf.socket.shutdown(socket.SHUT_RDWR)
        sending.join()
        self.assertEqual(self.client(server).ask("get =abc"), [f"value {value}"])

    def send_until_it_breaks(self, client, values):
        """Puts each of these values and asks for it ten times."""
        try:
            for value in values:
                client.send(f"put =deaf {value}", *["get =deaf"] * 10)
        except OSError:
            pass

    def test_clients_side_by_side(self):
        server = self.serve("--sessions", 8)
        clients = self.clients(server, 8)
        for number, client in enumerate(clients):
            client.send(
                *(f"put =client/{number}/{it % 5} {it:04x}" for it in range(250)),
                f"get =client/{number}/4",
            )
            client.end_input()
        numbers = []
        for client in clients:
            *accepted, found = client.rest()
            self.assertEqual((len(accepted), found), (250, "value 00f9"))
            self.assertEqual({it.split()[0] for it in accepted}, {"accepted"})
            own = [int(it.split()[1]) for it in accepted]
            self.assertEqual(own, sorted(own))
            numbers += own
        self.assertEqual(sorted(numbers), list(range(1, 2001)))
        flushes = self.calls_of(server.ended()) - 2000
        self.assertIn(flushes, range(1, 201))

    def test_resets(self):
        """Of a client that breaks off a beginning is done, and no other is disturbed."""
        server = self.serve()
        other = self.client(server)
        for number in range(10):
            client = self.client(server)
            keys = [f"=client/{number}/{it}" for it in range(50)]
            client.send(*(f"put {key} 0001" for key in keys))
            client.replies(self.random.randrange(3))
            client.reset()
            self.assertEqual(other.ask(f"put =n {number:04x}", "get =n")[1], f"value {number:04x}")
            found = other.ask(*(f"get {key}" for key in reversed(keys)))
            # The last key is asked for first: so puts that are done meanwhile make no gap.
            self.assertEqual(found, sorted(found))
        self.assertTrue(server.is_running())


if __name__ == "__main__":
    unittest.main()
