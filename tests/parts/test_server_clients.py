"""Many clients of a server, slow ones, broken ones: each gets its replies and disturbs no other."""
import hashlib
import os
import socket
import threading
import time
import unittest

from harness import PROVED, scaled
from served import BUSY, DESCRIPTORS, LONGEST_LINE, MOST_SESSIONS, ROOMY, SMALL, ServedCase
from watch import read_record, watching

# Values of this length make a swap under a name of 8,000 bytes a line of 16,600.
LONG_VALUE = 2148
LONG_NAMES = f"{LONG_VALUE} 16 64 4 4 400"
# How many lines each of many clients sends.
EACH = 200 if PROVED else 80
# The replies to a command for which a store has no room.
FULL = ("refused 7 StoreFull", "refused 8 NoRoom")
WORDS = (b"put", b"delete", b"swap", b"get", b"flush")
GOOD_LINES = (
    b"put =key 0304",
    b"swap =key 0304 0506",
    b"swap =key - 0304",
    b"swap =key 0304 -",
    b"get =key",
    b"delete =key",
    b"flush",
    b"get " + b"0a" * 20,
)


def long_name(number):
    """A name of 8,000 bytes, as a line's word."""
    return "=" + f"{number:03}".rjust(8000, "n")


def long_value(number):
    return f"{number:02x}" * LONG_VALUE


def longest_swap(number):
    """A swap whose line is as long as a line may be, of a value with this number for the one 100
    later."""
    line = f"swap {long_name(number)} {long_value(number)} {long_value(number + 100)}"
    assert len(line) == LONGEST_LINE
    return line


class OneOfMany:
    """A client with a key of its own, which it puts, deletes, gets and flushes in turn. It knows
    the value by its accepted commands."""

    def __init__(self, client, number):
        self.client = client
        self.key = f"={number}"
        self.value = "absent"
        self.wrong = []

    def line(self, turn):
        if turn % 4 == 0:
            return f"put {self.key} {turn % 256:04x}"
        return {2: f"delete {self.key}", 6: "flush"}.get(turn % 8, f"get {self.key}")

    def take(self, turn, reply):
        """Checks the reply to the line of this turn. A refused command changes nothing."""
        if turn % 4 == 0 or turn % 8 == 2:
            is_right = reply.startswith("accepted ") or reply in FULL
            if reply.startswith("accepted "):
                self.value = f"value {turn % 256:04x}" if turn % 4 == 0 else "absent"
        elif turn % 8 == 6:
            is_right = reply.startswith("acknowledged ")
        else:
            is_right = reply == self.value
        if not is_right:
            self.wrong.append((turn, self.line(turn), reply, self.value))


class ManyClients(ServedCase):
    """As many clients as a server has places for."""

    # How many lines each client sends in one write, where all of them send many.
    burst = 1

    def setUp(self):
        super().setUp()
        self.store(ROOMY)

    def lines_of(self, client):
        """What a client sends, and the replies to the gets among it: the client's own values."""
        lines, values = [], []
        for turn in range(4):
            key = f"=client/{client}/{turn % 2}"
            value = f"{client:02x}{turn:02x}"
            lines += [f"put {key} {value}", f"get {key}", f"get =client/{client}/9"]
            values += [f"value {value}", "absent"]
        return lines + [
            f"delete =client/{client}/0",
            f"get =client/{client}/0",
            "flush",
        ], values + ["absent"]

    def check_replies(self, replies, values):
        """The gets found what was put, and the flush acknowledged all commands. Returns the
        numbers of the commands."""
        numbers = [int(it.split()[1]) for it in replies if it.startswith("accepted ")]
        self.assertEqual([it for it in replies[:-1] if not it.startswith("accepted ")], values)
        self.assertEqual(numbers, sorted(set(numbers)))
        word, acknowledged = replies[-1].split()
        self.assertEqual(word, "acknowledged")
        self.assertGreaterEqual(int(acknowledged), numbers[-1])
        return numbers

    def test_all_at_once(self):
        server = self.serve("--sessions", MOST_SESSIONS)
        clients = self.clients(server, MOST_SESSIONS)
        for number, client in enumerate(clients):
            client.send(*self.lines_of(number)[0])
        numbers = []
        for number, client in enumerate(clients):
            lines, values = self.lines_of(number)
            numbers += self.check_replies(client.replies(len(lines)), values)
        self.assertEqual(sorted(numbers), list(range(1, 5 * MOST_SESSIONS + 1)))
        for client in clients:
            client.close()
        self.assertEqual(server.ended().status, 0)
        found = self.found(*(f"=client/{it}/1" for it in range(MOST_SESSIONS)))
        self.assertEqual(found, [f"value {it:02x}03" for it in range(MOST_SESSIONS)])

    def test_many_commands_of_each(self):
        """All clients send at once, and then all receive. The store ends with the values that they
        know."""
        server = self.serve("--sessions", MOST_SESSIONS, "--audit", 400_000)
        ones = [OneOfMany(self.client(server), it) for it in range(MOST_SESSIONS)]
        for first in range(0, EACH, self.burst):
            turns = range(first, first + self.burst)
            for one in ones:
                one.client.send(*map(one.line, turns))
            for one in ones:
                for turn in turns:
                    one.take(turn, one.client.reply())
        self.assertEqual([it.wrong for it in ones], [[]] * MOST_SESSIONS)
        for one in ones:
            one.client.close()
        self.assertEqual(server.ended().status, 0)
        self.assertGreater(sum(it.value != "absent" for it in ones), 0)
        self.assertEqual(self.found(*(it.key for it in ones)), [it.value for it in ones])
        self.assertEqual(
            len(self.silt("dump", "store").lines), sum(it.value != "absent" for it in ones)
        )

    def test_clients_that_send_nothing(self):
        server = self.serve("--sessions", MOST_SESSIONS)
        for client in self.clients(server, MOST_SESSIONS):
            client.close()
        self.check_calls(server.ended(), 0)

    def test_one_more_is_closed_and_not_counted(self):
        server = self.serve("--sessions", MOST_SESSIONS + 1)
        clients = self.clients(server, MOST_SESSIONS)
        self.assertEqual([it.ask("get =abc") for it in clients], [["absent"]] * MOST_SESSIONS)
        for _ in range(3):
            late = self.client(server)
            late.send("put =late 0102")
            self.assertEqual(late.rest(), [BUSY])
        self.assertEqual(clients[0].ask("get =late"), ["absent"])
        clients[0].close()
        last = self.served_client(server)
        self.assertEqual(last.ask("put =last 0102"), ["accepted 1"])
        for client in [*clients[1:], last]:
            self.assertTrue(server.is_running())
            client.close()
        self.check_calls(server.ended(), 2)

    def test_places_are_given_back(self):
        server = self.serve()
        for number in range(3 * MOST_SESSIONS):
            client = self.served_client(server)
            if number % 3 == 0:
                client.send_bytes(b"put =half 01")
            if number % 3 == 1:
                client.reset()
            client.close()
        for client in [self.served_client(server) for _ in range(MOST_SESSIONS)]:
            self.assertEqual(client.ask("get =half"), ["absent"])

    def test_all_replies_come_behind_their_syncs(self):
        server = self.serve(env=watching(self, log="record"))
        clients = self.clients(server, 16)
        for turn in range(3):
            for number, client in enumerate(clients):
                client.send(f"put ={turn}/{number} {turn:02x}{number:02x}")
            for client in clients:
                self.assertRegex(client.reply(), "^accepted [0-9]+$")
        server.kill()
        calls = read_record(self.path("record"))
        self.assertEqual(sum(it.name == "send" for it in calls), 48)
        for index, call in enumerate(calls):
            if call.name == "send":
                self.check_settled(calls[:index], call.file)

    def check_settled(self, calls, file):
        """The last put of this connection was written, and two syncs followed: one settles its
        row, and one its commit byte."""
        line = next(it.data for it in reversed(calls) if it.name == "recv" and it.file == file)
        key = hashlib.sha1(line.split()[1].removeprefix(b"=")).digest()
        row = max(at for at, it in enumerate(calls) if it.name == "pwrite" and key in it.data)
        self.assertGreaterEqual(sum(it.name == "fdatasync" for it in calls[row:]), 2, line)


class ManyPipelinedClients(ManyClients):
    """The same, where what each of them sent is one batch up to the next get."""

    options = ("--pipeline",)
    burst = 20


class SlowClients(ServedCase):
    """Clients that send or receive slowly, or not at all."""

    def test_half_a_line_of_all_but_one(self):
        self.store(LONG_NAMES)
        server = self.serve("--sessions", MOST_SESSIONS)
        *slow, client = self.clients(server, MOST_SESSIONS)
        for number, it in enumerate(slow, 1):
            self.assertEqual(
                it.ask(f"put {long_name(number)} {long_value(number)}"), [f"accepted {number}"]
            )
            it.send_bytes(longest_swap(number).encode())
        value = long_value(15)
        before = len(slow)
        lines = [f"put =abc {value}", "get =abc", "flush", "delete =abc", "get =abc"]
        for turn in range(5):
            first = before + 2 * turn + 1
            replies = [f"accepted {first}", f"value {value}", f"acknowledged {first}"]
            self.assertEqual(client.ask(*lines), [*replies, f"accepted {first + 1}", "absent"])
        for number, it in enumerate(slow, 1):
            self.assertEqual(it.ask(""), [f"accepted {before + 10 + number}"])
            self.assertEqual(
                it.ask(f"get {long_name(number)}"), [f"value {long_value(number + 100)}"]
            )
            it.close()
        client.close()
        self.assertEqual(server.ended().status, 0)

    def test_a_client_that_never_reads(self):
        self.store("4096 4 16 4 4 100")
        server = self.serve("--sessions", 3)
        deaf, other = self.clients(server, 2)
        value = "5a" * 4096
        self.assertEqual(other.ask(f"put =big {value}"), ["accepted 1"])
        # Some 16 MB of replies, more than the system keeps for a connection.
        deaf.send(*["get =big"] * 2000)
        for number in range(2, 12):
            lines = [f"put =abc {number:02x}" + value[2:], "get =abc", "flush"]
            replies = [
                f"accepted {number}",
                f"value {number:02x}" + value[2:],
                f"acknowledged {number}",
            ]
            self.assertEqual(other.ask(*lines), replies)
        self.assertTrue(server.is_running())
        deaf.close()
        last = self.client(server)
        self.assertEqual(last.ask("get =big"), [f"value {value}"])
        for client in (last, other):
            client.close()
        self.assertEqual(server.ended().status, 0)

    def test_replies_that_are_read_late(self):
        self.store("4096 4 16 4 4 100")
        client = self.client(self.serve())
        value = "a5" * 4096
        self.assertEqual(client.ask(f"put =big {value}"), ["accepted 1"])
        client.send(*["get =big", "get =none"] * 700)
        time.sleep(0.3)
        self.assertEqual(client.replies(1400), [f"value {value}", "absent"] * 700)

    def test_lines_in_parts(self):
        self.store(SMALL)
        client = self.client(self.serve())
        for number, text in enumerate(
            ["put =abc 0102\n", "put =abc 0304\r\n", "\n\r\nput =abc 0506\n"], 1
        ):
            for byte in text.encode():
                client.send_bytes(bytes([byte]))
                time.sleep(0.001)
            self.assertEqual(client.reply(), f"accepted {number}")
        client.send_bytes(b"get =abc\nget =a")
        self.assertEqual(client.reply(), "value 0506")
        client.send_bytes(b"bc\nget =none\n")
        self.assertEqual(client.replies(2), ["value 0506", "absent"])


class Lines(ServedCase):
    """Long lines, and many."""

    def test_the_longest_line(self):
        self.store(LONG_NAMES)
        client = self.client(self.serve())
        puts = [f"put {long_name(it)} {long_value(it)}" for it in (1, 2, 3)]
        self.assertEqual(
            client.ask(*puts, longest_swap(1)), [f"accepted {it}" for it in (1, 2, 3, 4)]
        )
        self.assertEqual(
            client.ask(longest_swap(2) + "\r", "get =abc"), ["refused 23 LineTooLong", "absent"]
        )
        self.assertEqual(client.ask("x" * LONGEST_LINE), ["refused 20 BadLine"])
        self.assertEqual(client.ask("x" * (LONGEST_LINE + 1)), ["refused 23 LineTooLong"])
        self.assertEqual(
            client.ask("x" * 1_000_000, longest_swap(3)), ["refused 23 LineTooLong", "accepted 5"]
        )
        gets = [f"get {long_name(it)}" for it in (1, 2, 3)]
        self.assertEqual(client.ask(*gets), [f"value {long_value(it)}" for it in (101, 2, 103)])

    def test_a_line_without_end(self):
        self.store(SMALL)
        server = self.serve("--sessions", 2)
        endless, client = self.clients(server, 2)
        for _ in range(100):
            endless.send_bytes(b"x" * 65536)
        self.assertEqual(client.ask("put =abc 0102"), ["accepted 1"])
        endless.end_input()
        self.assertEqual(endless.rest(), [])
        client.close()
        self.check_calls(server.ended(), 2)

    def test_thousands_of_lines_in_one_write(self):
        self.store(ROOMY)
        client = self.client(self.serve())
        lines = []
        replies = []
        accepted = 0
        values = {}
        for turn in range(4000):
            key = f"=key/{self.random.randrange(20)}"
            if turn % 20 == 0:
                accepted, values[key] = accepted + 1, f"value {turn:04x}"
                lines.append(f"put {key} {turn:04x}")
                replies.append(f"accepted {accepted}")
            else:
                lines.append(f"get {key}")
                replies.append(values.get(key, "absent"))
        sending = threading.Thread(target=client.send, args=lines)
        sending.start()
        self.assertEqual(client.replies(len(lines)), replies)
        sending.join()


class BrokenClients(ServedCase):
    """Clients that send noise, or break off."""

    def setUp(self):
        super().setUp()
        self.store(ROOMY)

    def test_noise(self):
        server = self.serve()
        for _ in range(scaled(10)):
            noise = self.random.randbytes(self.random.randrange(1, 60_000))
            due = [
                self.refusal(line) for line in noise.split(b"\n")[:-1] if line.removesuffix(b"\r")
            ]
            self.assertFalse([line for line in noise.split(b"\n") if line.split(b" ")[0] in WORDS])
            client = self.client(server)
            client.send_bytes(noise)
            client.end_input()
            self.assertEqual(client.rest(), due)

    @staticmethod
    def refusal(line):
        return "refused 23 LineTooLong" if len(line) > LONGEST_LINE else "refused 20 BadLine"

    def test_bytes_that_no_line_has(self):
        lines = [
            (b"x" * (LONGEST_LINE + 1), "refused 23 LineTooLong"),
            (b"x" * LONGEST_LINE, "refused 20 BadLine"),
            (b"\xff\xff\xff", "refused 20 BadLine"),
            (b"\x00", "refused 20 BadLine"),
            (b"get =\x00", "refused 21 BadKey"),
            (b"get =\x7f", "refused 21 BadKey"),
            (b"get =\xc3\xa4", "refused 21 BadKey"),
            (b"\nflush", "acknowledged 0"),
        ]
        client = self.client(self.serve())
        client.send_bytes(b"".join(line + b"\n" for line, _ in lines))
        client.end_input()
        self.assertEqual(client.rest(), [reply for _, reply in lines])

    def test_lines_that_are_nearly_well_formed(self):
        client = self.client(self.serve())
        self.assertEqual(client.ask("put =marker 0102"), ["accepted 1"])
        for _ in range(scaled(300)):
            line = bytearray(self.random.choice(GOOD_LINES))
            line[self.random.randrange(len(line))] = self.random.choice(
                [*range(10), *range(11, 256)]
            )
            client.send_bytes(bytes(line) + b"\nget =marker\n")
            self.assertRegex(
                client.reply(), "^(accepted|acknowledged|value|absent|differs|refused 2[0-2])", line
            )
            self.assertEqual(client.reply(), "value 0102", line)

    def test_resets(self):
        server = self.serve()
        other = self.client(server)
        for number in range(scaled(40)):
            client = self.client(server)
            client.send("get =abc", f"put ={number} 0001", "get =abc")
            if number % 2:
                client.replies(self.random.randrange(3))
            client.send_bytes(b"put =half 01")
            client.reset()
            self.assertEqual(other.ask("get =half"), ["absent"])
        self.assertTrue(server.is_running())
        self.assertRegex(other.ask("put =abc 0001")[0], "^accepted [0-9]+$")

    def test_a_half_line_and_a_silent_client(self):
        server = self.serve("--sessions", 3)
        first = self.client(server)
        self.assertEqual(first.ask("put =a 0001"), ["accepted 1"])
        first.send_bytes(b"put =b 00")
        first.close()
        silent, third = self.clients(server, 2)
        self.assertEqual(
            [third.ask(it) for it in ("get =a", "get =b")], [["value 0001"], ["absent"]]
        )
        silent.close()
        third.close()
        self.check_calls(server.ended(), 2)

    def test_a_reply_that_is_never_read(self):
        """The system resets a connection that is closed before all is received."""
        server = self.serve("--sessions", 2)
        first = self.client(server)
        first.send("put =a 0001", "get =a")
        self.assertEqual(first.socket.recv(1, socket.MSG_PEEK), b"a")
        first.close()
        second = self.client(server)
        self.assertEqual(second.ask("get =a"), ["value 0001"])
        second.close()
        self.check_calls(server.ended(), 2)

    def test_input_that_ends_with_many_replies_due(self):
        server = self.serve("--sessions", 1)
        client = self.client(server)
        client.send(*["put =abc 0102"] + ["get =abc"] * 3000)
        client.end_input()
        self.assertEqual(client.rest(), ["accepted 1"] + ["value 0102"] * 3000)
        self.check_calls(server.ended(), 2)

    def test_no_descriptor_and_no_memory_is_lost(self):
        server = self.serve()
        self.turn_over(server, 20)
        before = self.memory_held(server)
        self.turn_over(server, 200)
        after = self.memory_held(server)
        if PROVED:
            self.assertLess(after - before, 4096, "KiB of memory more, for 200 sessions")

    def turn_over(self, server, count):
        """So many sessions, one after the other."""
        for _ in range(count):
            client = self.served_client(server)
            client.ask("put =abc 0102", "get =abc")
            client.close()

    def memory_held(self, server):
        """The KiB of memory that a server holds when its clients have gone, and all descriptors
        of their connections are closed."""
        folder = f"/proc/{server.process.pid}"
        self.wait_until(
            lambda: len(os.listdir(f"{folder}/fd")) == DESCRIPTORS, "the end of all sessions"
        )
        with open(f"{folder}/status") as status:
            return next(int(line.split()[1]) for line in status if line.startswith("VmRSS:"))


class BrokenPipelinedClients(BrokenClients):
    """The same noise and breaks, where a server gathers what it has read."""

    options = ("--pipeline",)


if __name__ == "__main__":
    unittest.main()
