"""A server that speaks the protocol of Redis clients: each reply letter for letter, however the
bytes arrive."""
import pathlib
import random
import signal
import threading

from harness import PROVED, scaled
from resp import (
    NULL,
    OK,
    PONG,
    SYNTAX,
    WRONG_TYPE,
    Model,
    RespClient,
    array,
    command,
    few,
    number,
    string,
)
from served import ServedCase
from watch import read_record, watching

# Values of 16 bytes hold strings of up to 14.
SMALL = "16 16 64 4 4 400"
LONGEST = 14
# One log takes all rows of a test, so the calls of a server are the commands and the flushes.
WIDE = "16 4096 16384 2 1 20000"
# Room for what four clients set.
ROOMY = "16 64 224 8 8 8000"
LONGEST_NAME = 8_000
LONGEST_INLINE = 16_384
HELLO = (b"server", b"version", b"proto", b"id", b"mode", b"role", b"modules")
TOO_LONG = b"-ERR value is longer than 14 bytes\r\n"
NAME_TOO_LONG = b"-ERR key is longer than 8000 bytes\r\n"

# Commands and their replies, one after the other on one connection. At the end no name has a
# string.
CONVERSATION = [
    (command("PING"), PONG),
    (command("ping", "a b"), string("a b")),
    (command("ECHO", "\0\r\n"), string("\0\r\n")),
    (command("GET", "a"), NULL),
    (command("STRLEN", "a"), number(0)),
    (command("SET", "a", "1"), OK),
    (command("get", "a"), string("1")),
    (command("SET", "a", "2", "NX"), NULL),
    (command("SET", "a", "2", "ifeq", "3"), NULL),
    (command("SET", "a", "2", "IFEQ", "1"), OK),
    (command("GET", "a"), string("2")),
    (command("SET", "b", "", "nx"), OK),
    (command("GET", "b"), string("")),
    (command("STRLEN", "b"), number(0)),
    (command("SET", "c", "x" * LONGEST), OK),
    (command("STRLEN", "c"), number(LONGEST)),
    (command("SETNX", "c", "y"), number(0)),
    (command("SETNX", "d", "y\0"), number(1)),
    (command("MGET", "a", "nothing", "d", "a"), array(string("2"), NULL, string("y\0"), string("2"))),
    (command("EXISTS", "a", "nothing", "a", "b"), number(3)),
    (command("TOUCH", "nothing"), number(0)),
    (command("MSET", "a", "5", "e", "6"), OK),
    (command("MGET", "a", "e"), array(string("5"), string("6"))),
    (command("DELIFEQ", "a", "6"), number(0)),
    (command("DELIFEQ", "a", "5"), number(1)),
    (command("GET", "a"), NULL),
    (command("DEL", "a", "b", "c"), number(2)),
    (command("UNLINK", "d", "e", "a"), number(2)),
    (command("DEL", "b"), number(0)),
    # what a client asks when it connects
    (command("SELECT", "0"), OK),
    (command("SELECT", "1"), b"-ERR DB index is out of range\r\n"),
    (command("CLIENT", "SETNAME", "me"), OK),
    (command("CLIENT", "SETINFO", "lib-name", "me"), OK),
    (command("CLIENT", "GETNAME"), NULL),
    (command("COMMAND"), array()),
    (command("CONFIG", "GET", "save"), array(string("save"), string(""))),
    (command("CONFIG", "GET", "appendonly"), array(string("appendonly"), string("yes"))),
    (command("CONFIG", "GET", "maxmemory"), array()),
    (command("CLUSTER", "INFO"), b"-ERR This instance has cluster support disabled\r\n"),
    (command("HELLO", "3"), b"-NOPROTO unsupported protocol version\r\n"),
    # what is refused, and changes nothing
    (command("AUTH", "p"), b"-ERR AUTH called without any password configured\r\n"),
    (command("GET"), few(b"get")),
    (command("GET", "a", "b"), few(b"get")),
    (command("SET", "a"), few(b"set")),
    (command("MSET", "a", "1", "b"), few(b"mset")),
    (command("MSET"), few(b"mset")),
    (command("DEL"), few(b"del")),
    (command("SET", "a", "1", "EX", "10"), SYNTAX),
    (command("SET", "a", "1", "XX"), SYNTAX),
    (command("SET", "a", "1", "KEEPTTL"), SYNTAX),
    (command("SET", "a", "1", "IFEQ"), SYNTAX),
    (command("SET", "a", "1", "NX", "NX"), SYNTAX),
    (command("SET", "a", "x" * (LONGEST + 1)), TOO_LONG),
    (command("SETNX", "a", "x" * 9_000), TOO_LONG),
    (command("MSET", "a", "1", "b", "x" * (LONGEST + 1)), TOO_LONG),
    (command("SET", "n" * (LONGEST_NAME + 1), "1"), NAME_TOO_LONG),
    (command("GET", "n" * (LONGEST_NAME + 1)), NAME_TOO_LONG),
    (command("GET", "n" * LONGEST_NAME), NULL),
    (command("INCR", "a"), b"-ERR unknown command 'INCR'\r\n"),
    (command("b\xc3\xa9\r\n".encode("latin-1"), "a"), b"-ERR unknown command 'b????'\r\n"),
    (command("u" * 40), b"-ERR unknown command '" + b"u" * 32 + b"'\r\n"),
    (command("GET", "a"), NULL),
    # inline commands, and what is none
    (b"\r\n", b""),
    (b"*0\r\n", b""),
    (b"*-1\r\n", b""),
    (b"*-2\r\n", b""),
    (b"PING\r\n", PONG),
    (b"  set  a   1 \r\n", OK),
    (b"GET a\n", string("1")),
    (b"del a\r\n", number(1)),
]
# What ends a connection, with the reply before that.
FAULTS = [
    (b"*x\r\n", b"-ERR Protocol error: invalid multibulk length\r\n"),
    (b"*1048577\r\n", b"-ERR Protocol error: invalid multibulk length\r\n"),
    (b"*1\r\nPING\r\n", b"-ERR Protocol error: expected '$'\r\n"),
    (b"*1\r\n$-1\r\n", b"-ERR Protocol error: invalid bulk length\r\n"),
    (b"*1\r\n$x\r\n", b"-ERR Protocol error: invalid bulk length\r\n"),
    (b"*1\r\n$536870913\r\n", b"-ERR Protocol error: invalid bulk length\r\n"),
    (b"*1\r\n$4\r\nPINGxx", b"-ERR Protocol error: expected CRLF\r\n"),
]


class RespCase(ServedCase):
    options = ("--resp",)

    def setUp(self):
        super().setUp()
        self.store(SMALL)
        self.server = self.serve()

    def resp_client(self, server=None):
        client = RespClient((server or self.server).port)
        self.addCleanup(client.close)
        return client

    def assert_serves(self):
        """The server still takes connections."""
        self.assertEqual(self.resp_client().ask("PING"), PONG)


class Letters(RespCase):
    def exchange(self, parts):
        """Sends these parts, each in a write of its own, and ends the input. All that the server
        replies."""
        client = self.resp_client()
        sending = threading.Thread(target=self.send_all, args=(client, parts))
        sending.start()
        received = client.rest()
        sending.join()
        return received

    def send_all(self, client, parts):
        for part in parts:
            client.send(part)
        client.end_input()

    def test_each_reply(self):
        client = self.resp_client()
        for sent, reply in CONVERSATION:
            client.send(sent + command("PING", "end"))
            received = b""
            while not received.endswith(string("end")):
                self.assertTrue(client.receive(), (sent, received))
                received = received + client.received
                client.received = b""
            self.assertEqual(received, reply + string("end"), sent)

    def test_all_in_one_write(self):
        self.assertEqual(
            self.exchange([b"".join(sent for sent, _ in CONVERSATION)]),
            b"".join(reply for _, reply in CONVERSATION),
        )

    def test_byte_by_byte(self):
        short = [it for it in CONVERSATION if len(it[0]) < 200]
        parts = [bytes([it]) for sent, _ in short for it in sent]
        self.assertEqual(self.exchange(parts), b"".join(reply for _, reply in short))

    def test_cut_at_each_place(self):
        for sent, reply in [it for it in CONVERSATION if len(it[0]) < 60]:
            whole = command("SET", "a", "1") + sent + command("DEL", "a", "b", "c", "d", "e")
            expected = {self.exchange([whole])}
            self.assertTrue(next(iter(expected)).startswith(OK), sent)
            for cut in range(len(command("SET", "a", "1")), len(whole), scaled(3)):
                expected.add(self.exchange([whole[:cut], whole[cut:]]))
            self.assertEqual(len(expected), 1, sent)

    def test_hello(self):
        for words in (("HELLO",), ("hello", "2"), ("HELLO", "2", "SETNAME", "me")):
            reply = self.resp_client().ask(*words)
            self.assertTrue(reply.startswith(b"*14\r\n"), reply)
            for name in HELLO:
                self.assertIn(string(name), reply)
            self.assertIn(string("proto") + number(2), reply)
            self.assertTrue(reply.endswith(string("modules") + array()), reply)

    def test_each_connection_has_a_number_of_its_own(self):
        # A session has the number of its connection, by which the log of calls tells the sessions apart.
        clients = [self.resp_client() for _ in range(3)]
        numbers = [client.ask("CLIENT", "ID") for client in clients]
        for _ in range(3):
            client = self.resp_client()
            numbers.append(client.ask("CLIENT", "ID"))
            client.ask("QUIT")
            client.rest()
        self.assertEqual(len(set(numbers)), len(numbers), numbers)
        self.assertEqual(numbers, sorted(numbers, key=lambda it: int(it[1:-2])), numbers)

    def test_quit_ends_the_connection(self):
        client = self.resp_client()
        client.send(command("SET", "a", "1") + command("QUIT") + command("SET", "a", "2"))
        self.assertEqual(client.rest(), OK + OK)
        self.assertEqual(self.resp_client().ask("GET", "a"), string("1"))

    def test_a_fault_ends_the_connection(self):
        for sent, reply in FAULTS:
            client = self.resp_client()
            client.send(command("SET", "a", sent[:LONGEST]) + sent + command("SET", "a", "behind"))
            self.assertEqual(client.rest(), OK + reply, sent)
            self.assertEqual(self.resp_client().ask("GET", "a"), string(sent[:LONGEST]))

    def test_too_long_an_inline_command(self):
        client = self.resp_client()
        client.send(b"PING\r\n" + b"x" * (LONGEST_INLINE + 100))
        self.assertEqual(client.rest(), PONG + b"-ERR Protocol error: too big inline request\r\n")
        self.assert_serves()

    def test_a_browser(self):
        client = self.resp_client()
        client.send(b"POST / HTTP/1.1\r\nHost: 127.0.0.1\r\n\r\nSET a 1\r\n")
        self.assertEqual(client.rest(), b"")
        self.assertEqual(self.resp_client().ask("GET", "a"), NULL)


class Streams(RespCase):
    def random_words(self):
        """The words of a command over a few names, in the form that a client would give them."""
        name, other = (
            self.random.choice([b"a", b"b", b"\xff\r\n", b"long" * 100]) for _ in range(2)
        )
        text, old = (
            self.random.choice([b"", b"1", b"2", b"\0" * 3, b"x" * LONGEST]) for _ in range(2)
        )
        return self.random.choice(
            [
                [b"GET", name],
                [b"SET", name, text],
                [b"SET", name, text, b"NX"],
                [b"SET", name, text, b"IFEQ", old],
                [b"SETNX", name, text],
                [b"DELIFEQ", name, old],
                [b"DEL", name],
                [b"DEL", name, other],
                [b"MGET", name, other, name],
                [b"MSET", name, text, other, old],
                [b"EXISTS", name, other],
                [b"STRLEN", name],
                [b"ECHO", text],
            ]
        )

    def pieces(self, data):
        """These bytes in pieces of random lengths."""
        most = self.random.choice([1, 7, 100, 5_000])
        while data:
            size = self.random.randint(1, most)
            yield data[:size]
            data = data[size:]

    def test_random_pipelines(self):
        model = Model()
        client = self.resp_client()
        for _ in range(scaled(20)):
            words = [self.random_words() for _ in range(self.random.randint(1, 60))]
            expected = b"".join(map(model.reply, words))
            for piece in self.pieces(b"".join(command(*it) for it in words)):
                client.send(piece)
            self.assertEqual(client.taken(len(expected)), expected, words)
        self.assertEqual(client.ask("PING"), PONG)

    def test_a_pipeline_of_any_length(self):
        count = 100_000 if PROVED else 5_000
        client = self.resp_client()
        sending = threading.Thread(target=client.send, args=(command("GET", "a") * count,))
        sending.start()
        self.assertEqual(client.taken(len(NULL) * count), NULL * count)
        sending.join()

    def test_half_a_command_does_nothing(self):
        whole = command("SET", "a", "1")
        for end in range(1, len(whole)):
            client = self.resp_client()
            client.send(whole[:end])
            client.end_input()
            self.assertEqual(client.rest(), b"", end)
        self.assertEqual(self.resp_client().ask("GET", "a"), NULL)

    def resident(self):
        """The most memory that the server has had resident, in KiB."""
        status = pathlib.Path(f"/proc/{self.server.process.pid}/status").read_text()
        return int(next(it for it in status.splitlines() if it.startswith("VmHWM")).split()[1])

    def test_an_announced_length_costs_no_memory(self):
        self.assert_serves()
        before = self.resident()
        for head in (
            b"*1\r\n$536870912\r\n",
            b"*1048576\r\n",
            b"*2\r\n$3\r\nSET\r\n$536870912\r\n",
        ):
            client = self.resp_client()
            client.send(head + b"x" * 100)
        self.assert_serves()
        self.assertLess(self.resident() - before, 4_096)

    def test_a_long_string_is_passed_over(self):
        client = self.resp_client()
        size = 40_000_000 if PROVED else 1_000_000
        # the session, and the program's own bytes that the commands take
        self.assertEqual([client.ask("DEL", "a"), client.ask("SET", "b", "1")], [number(0), OK])
        before = self.resident()
        client.send(
            b"*3\r\n$3\r\nSET\r\n$1\r\na\r\n$%d\r\n" % size
            + b"x" * size
            + b"\r\n"
            + command("GET", "a")
        )
        self.assertEqual(client.replies(2), [TOO_LONG, NULL])
        self.assertLess(self.resident() - before, 4_096)

    def test_too_many_names(self):
        client = self.resp_client()
        names = [b"a"] * 1_023
        self.assertEqual(client.ask("MGET", *names), array(*[NULL] * 1_023))
        self.assertEqual(client.ask("MGET", *names, b"a"), b"-ERR too many words\r\n")
        self.assertEqual(client.ask("PING"), PONG)


class Gets(RespCase):
    """What a get waits for."""

    def setUp(self):
        super().setUp()
        self.server.kill()
        self.store(WIDE)

    def exchange(self, words, env=None, status=0):
        """The replies to these commands, sent in one write, and the calls that the server made."""
        server = self.serve("--sessions", 1, "--stay", env=env)
        client = self.resp_client(server)
        client.send(b"".join(command(*it) for it in words))
        replies = client.replies(len(words))
        client.close()
        ended = server.ended()
        self.assertEqual(ended.status, status, ended)
        return replies, int(ended.lines[-1].removeprefix("calls "))

    def check_flushes(self, words, least, most):
        """The replies are right, and there were so many flushes."""
        model = Model()
        due = [model.reply(it) for it in words]
        replies, calls = self.exchange(words)
        self.assertEqual(replies, due)
        sets = sum(it[0] == b"SET" for it in words)
        self.assertIn(calls - sets, range(least, most + 1))

    def test_half_sets(self):
        words = []
        for number in range(250):
            words.append([b"SET", b"%d" % self.random.randrange(1_000), b"%d" % number])
            words.append([b"GET", b"%d" % self.random.randrange(1_000)])
        self.random.shuffle(words)
        self.check_flushes(words, 1, 25)

    def test_other_names(self):
        words = [[b"SET", b"a", b"1"], [b"GET", b"b"], [b"SET", b"c", b"2"], [b"GET", b"d"]]
        self.check_flushes(words, 1, 1)

    def test_the_same_name(self):
        words = [[b"SET", b"a", b"1"], [b"GET", b"a"], [b"SET", b"a", b"2"], [b"GET", b"a"], [b"GET", b"a"]]
        self.check_flushes(words, 2, 2)

    def test_gets_alone(self):
        self.check_flushes([[b"GET", b"a"], [b"GET", b"b"]] * 50, 0, 0)

    def test_a_refused_flush(self):
        words = [[b"SET", b"a", b"1"], [b"GET", b"b"], [b"GET", b"a"]]
        replies, _ = self.exchange(
            words, env=watching(self, fail="fdatasync:2:EIO"), status=1
        )
        unsettled = b"-UNSETTLED the flush was refused, a crash may lose this\r\n"
        self.assertEqual(replies, [unsettled, NULL, b"-MISCONF 9 Failed\r\n"])


class Stores(RespCase):
    def test_lines_read_what_clients_wrote(self):
        client = self.resp_client()
        self.assertEqual(client.ask("SET", "apple", "abc"), OK)
        client.close()
        self.end_server()
        self.assertEqual(self.found("=apple"), ["value 0003616263" + "00" * 11])

    def end_server(self):
        self.server.send_signal(signal.SIGTERM)
        self.server.ended()

    def test_values_that_are_no_strings(self):
        self.end_server()
        ran = self.silt(
            "run",
            "store",
            text="put =long %s\nput =tail %s\nput =good %s\nflush\n" % (
                "ff" * 16,
                "0001" + "aa" * 14,
                "0001" + "aa" + "00" * 13,
            ),
        )
        self.assertEqual(ran.status, 0, ran)
        self.server = self.serve()
        client = self.resp_client()
        for name in ("long", "tail"):
            self.assertEqual(client.ask("GET", name), WRONG_TYPE)
            self.assertEqual(client.ask("STRLEN", name), WRONG_TYPE)
        self.assertEqual(client.ask("GET", "good"), string(b"\xaa"))
        self.assertEqual(client.ask("MGET", "long", "good"), array(NULL, string(b"\xaa")))
        self.assertEqual(client.ask("EXISTS", "long", "tail"), number(2))
        self.assertEqual(client.ask("SET", "long", "1"), OK)
        self.assertEqual(client.ask("GET", "long"), string("1"))

    def test_values_too_short_for_a_string(self):
        self.store("1 16 64 4 4 400", name="tiny")
        ended = self.begin("tiny", 0, *self.options).ended()
        self.assertEqual((ended.status, ended.lines[-1:]), (1, ["refused 2 BadGeometry"]), ended)
        self.assertIn("--resp", ended.err)

    def test_a_full_store(self):
        self.store("16 16 64 4 4 3", name="full")
        server = self.serve(name="full")
        client = self.resp_client(server)
        self.assertEqual([client.ask("SET", f"k{it}", "1") for it in range(3)], [OK] * 3)
        self.assertEqual(client.ask("SET", "k3", "1"), b"-ERR 7 StoreFull\r\n")
        self.assertEqual(client.ask("MSET", "k3", "1", "k4", "1"), b"-ERR 7 StoreFull\r\n")
        self.assertEqual(client.ask("GET", "k0"), string("1"))

    def test_what_was_ok_survives_kills(self):
        self.server.kill()
        self.store(ROOMY, name="roomy")
        self.server = self.serve(name="roomy")
        model = {}
        for turn in range(scaled(6)):
            clients = [self.resp_client() for _ in range(4)]
            done = [dict() for _ in clients]
            threads = [
                threading.Thread(target=self.load, args=(client, kept, number, turn * 1_000_000))
                for number, (client, kept) in enumerate(zip(clients, done))
            ]
            for thread in threads:
                thread.start()
            self.wait_until(lambda: sum(map(len, done)) > 400, "four hundred replies")
            self.server.kill()
            for thread, kept in zip(threads, done):
                thread.join()
                model.update(kept)
            self.server = self.serve(name="roomy")
            client = self.resp_client()
            for name, text in model.items():
                found = int(client.ask("GET", name).split(b"\r\n")[1])
                self.assertGreaterEqual(found, text, name)

    def load(self, client, kept, number, n):
        """Sets numbers that rise from this one, some at once, until the connection breaks. Keeps
        the last one that was +OK by its name."""
        draw = random.Random(n + number)
        while True:
            names = [f"c{number}:{draw.randrange(1_000)}" for _ in range(draw.randint(1, 30))]
            texts = range(n, n + len(names))
            n += len(names)
            try:
                client.send(
                    b"".join(command("SET", name, text) for name, text in zip(names, texts))
                )
                replies = client.replies(len(names))
            except OSError:
                return
            for name, text, reply in zip(names, texts, replies):
                if reply == OK:
                    kept[name] = text
            if None in replies:
                return

    def test_a_reply_comes_behind_its_sync(self):
        self.end_server()
        server = self.serve(env=watching(self, log="record"))
        client = self.resp_client(server)
        client.send(command("SET", "a", "1") * 20)
        self.assertEqual(client.replies(20), [OK] * 20)
        server.kill()
        calls = [
            it
            for it in read_record(self.path("record")) if it.name in ("send", "write", "fdatasync")
        ]
        first = next(
            at for at, it in enumerate(calls) if it.file.startswith("socket") and b"+OK" in it.data
        )
        syncs = [at for at, it in enumerate(calls) if it.name == "fdatasync"]
        self.assertGreaterEqual(len([at for at in syncs if at < first]), 2, calls)
        self.assertLess(len(syncs), 20)
