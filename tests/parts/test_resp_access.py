"""Who reaches a server of Redis clients: its address, its password, and how many clients it has.
"""
import socket
import unittest

from harness import PROVED
from resp import NULL, OK, RespClient, command, string
from served import Client, ServedCase, free_port, listening_sockets

PASSWORD = "correct horse battery staple"
NO_AUTH = b"-NOAUTH Authentication required.\r\n"
WRONG = b"-WRONGPASS invalid username-password pair or user is disabled.\r\n"
FULL = b"-ERR max number of clients reached\r\n"
# The longest word of a command.
LONGEST = 8192
# How many clients a test with many has.
MANY = 300 if PROVED else 100


def has_address(address):
    """Whether a program of this machine may listen at this address."""
    family = socket.AF_INET6 if ":" in address else socket.AF_INET
    with socket.socket(family) as listener:
        try:
            listener.bind((address, 0))
        except OSError:
            return False
    return True


class AccessCase(ServedCase):
    """A server of Redis clients, and how it is reached."""

    options = ("--resp",)

    def setUp(self):
        super().setUp()
        self.store("32 16 64 8 16 4000")

    def password_file(self, content, name="password"):
        path = self.path(name)
        path.write_bytes(content if isinstance(content, bytes) else content.encode())
        return path

    def resp_client(self, server, address="127.0.0.1"):
        client = RespClient(server.port, address)
        self.addCleanup(client.close)
        return client

    def assert_not_served(self, note, *options, port=None):
        """The server does not listen. A note says why, and the store stays as it was."""
        port = free_port() if port is None else port
        before = self.path("store").read_bytes()
        ended = self.begin("store", port, *self.options, *options).ended()
        self.assertEqual((ended.status, ended.lines), (1, ["opened", "network fault"]), ended)
        self.assertEqual(ended.err, note.format(port=port), ended)
        self.assertEqual(self.path("store").read_bytes(), before)


class Passwords(AccessCase):
    def serve_guarded(self, content=PASSWORD + "\n", *options):
        return self.serve("--password-file", self.password_file(content), *options)

    def test_only_the_password_lets_in(self):
        server = self.serve_guarded()
        client = self.resp_client(server)
        for words in (["GET", "a"], ["SET", "a", "1"], ["PING"], ["DEL", "a"], ["COMMAND"]):
            self.assertEqual(client.ask(*words), NO_AUTH, words)
        for wrong in ("", PASSWORD + "\n", PASSWORD[:-1], PASSWORD.upper()):
            self.assertEqual(client.ask("AUTH", wrong), WRONG, wrong)
            self.assertEqual(client.ask("GET", "a"), NO_AUTH, wrong)
        self.assertEqual(client.ask("AUTH", "root", PASSWORD), WRONG)
        self.assertEqual(client.ask("AUTH", PASSWORD), OK)
        self.assertEqual(client.ask("SET", "a", "1"), OK)
        self.assertEqual(client.ask("GET", "a"), string("1"))
        other = self.resp_client(server)
        self.assertEqual(other.ask("GET", "a"), NO_AUTH)
        self.assertEqual(other.ask("AUTH", "default", PASSWORD), OK)
        self.assertEqual(other.ask("GET", "a"), string("1"))

    def test_a_greeting_with_the_password(self):
        client = self.resp_client(self.serve_guarded())
        self.assertTrue(client.ask("HELLO", "2").startswith(b"-NOAUTH "))
        self.assertTrue(client.ask("HELLO", "2", "AUTH", "default", "x").startswith(b"-WRONGPASS "))
        greeted = client.ask("HELLO", "2", "AUTH", "default", PASSWORD)
        self.assertTrue(greeted.startswith(b"*"), greeted)
        self.assertEqual(client.ask("GET", "a"), NULL)

    def test_commands_behind_a_wrong_password_do_nothing(self):
        client = self.resp_client(self.serve_guarded())
        client.send(command("AUTH", "x") + command("SET", "a", "1") + command("AUTH", PASSWORD) + command("GET", "a"))
        self.assertEqual(client.replies(4), [WRONG, NO_AUTH, OK, NULL])

    def test_the_first_line_is_the_password(self):
        for content, password in (
            (PASSWORD, PASSWORD),
            (f"{PASSWORD}\nanother\n", PASSWORD),
            (" x \n", " x "),
            (bytes(range(128, 256)), bytes(range(128, 256))),
            (b"p" * LONGEST + b"\n", b"p" * LONGEST),
        ):
            server = self.serve_guarded(content)
            self.assertEqual(self.resp_client(server).ask("AUTH", password), OK, content)
            server.kill()

    def test_the_file_is_read_once(self):
        server = self.serve_guarded()
        self.password_file("another\n")
        self.assertEqual(self.resp_client(server).ask("AUTH", "another"), WRONG)
        self.path("password").unlink()
        self.assertEqual(self.resp_client(server).ask("AUTH", PASSWORD), OK)

    def test_a_file_without_a_password(self):
        empty = "silt: {path}: the first line, which is the password, is empty\n"
        for content in ("", "\n", "\nsecond\n"):
            path = self.password_file(content)
            self.assert_not_served(empty.format(path=path), "--password-file", path)
        long = "silt: {path}: the first line, which is the password, is longer than 8192 bytes\n"
        for content in ("p" * (LONGEST + 1), "p" * (LONGEST + 1) + "\n", "p" * 100_000):
            path = self.password_file(content)
            self.assert_not_served(long.format(path=path), "--password-file", path)
        self.assert_not_served(long.format(path="/dev/zero"), "--password-file", "/dev/zero")

    def test_a_file_that_cannot_be_read(self):
        missing = "silt: {path}: No such file or directory (os error 2)\n"
        path = self.path("nothing")
        self.assert_not_served(missing.format(path=path), "--password-file", path)
        self.assert_not_served(missing.format(path=""), "--password-file=")
        folder = f"silt: {self.folder}: Is a directory (os error 21)\n"
        self.assert_not_served(folder, "--password-file", self.folder)


class Addresses(AccessCase):
    def addresses(self, server):
        return listening_sockets(server.process.pid)

    def test_this_machine_alone_is_the_default(self):
        server = self.serve()
        self.assertEqual(self.addresses(server), [("tcp", f"0100007F:{server.port:04X}")])

    def test_another_address_of_this_machine(self):
        server = self.serve("--bind", "127.0.0.2")
        self.assertEqual(self.addresses(server), [("tcp", f"0200007F:{server.port:04X}")])
        self.assertEqual(self.resp_client(server, "127.0.0.2").ask("SET", "a", "1"), OK)
        with self.assertRaises(ConnectionRefusedError):
            RespClient(server.port)

    @unittest.skipUnless(has_address("::1"), "this machine has no address ::1")
    def test_an_address_of_the_newer_kind(self):
        server = self.serve("--bind=::1")
        self.assertEqual([it[0] for it in self.addresses(server)], ["tcp6"])
        self.assertEqual(self.resp_client(server, "::1").ask("SET", "a", "1"), OK)

    def test_all_addresses_with_a_password(self):
        words = ["--bind", "0.0.0.0", "--password-file", self.password_file(PASSWORD)]
        server = self.serve(*words)
        self.assertEqual(self.addresses(server), [("tcp", f"00000000:{server.port:04X}")])
        for address in ("127.0.0.1", "127.0.0.3"):
            client = self.resp_client(server, address)
            self.assertEqual(client.ask("GET", "a"), NO_AUTH, address)
            self.assertEqual(client.ask("AUTH", PASSWORD), OK, address)
            self.assertEqual(client.ask("GET", "a"), NULL, address)

    def test_an_address_of_another_machine(self):
        words = ["--bind", "192.0.2.1", "--password-file", self.password_file(PASSWORD)]
        self.assert_not_served(
            "silt: 192.0.2.1:{port}: Cannot assign requested address (os error 99)\n", *words
        )

    def test_texts_that_are_no_address(self):
        words = ["--password-file", self.password_file(PASSWORD)]
        for text in ("1.2.3", "127.0.0.1.1", "10.0.0.256", "fade", ":::", "127.0.0.01"):
            self.assert_not_served(
                f"silt: {text}: it is no IP address\n", *words, "--bind", text
            )

    def test_a_port_that_is_in_use(self):
        with socket.create_server(("127.0.0.2", 0)) as listener:
            port = listener.getsockname()[1]
            said = "silt: 127.0.0.2:{port}: Address already in use (os error 98)\n"
            self.assert_not_served(said, "--bind", "127.0.0.2", port=port)


class Clients(AccessCase):
    def test_few_clients(self):
        server = self.serve("--clients", 2)
        first, second, third = (self.resp_client(server) for _ in range(3))
        self.assertEqual([it.ask("PING") for it in (first, second)], [b"+PONG\r\n"] * 2)
        self.assertEqual(third.rest(), FULL)
        first.close()
        self.wait_until(lambda: self.resp_client(server).ask("PING") == b"+PONG\r\n", "a place")
        self.assertEqual(second.ask("SET", "a", "1"), OK)

    def test_many_clients(self):
        server = self.serve("--clients", MANY)
        clients = [self.resp_client(server) for _ in range(MANY)]
        for client in clients:
            client.send(command("PING"))
        self.assertEqual([it.reply() for it in clients], [b"+PONG\r\n"] * MANY)
        self.assertEqual(self.resp_client(server).rest(), FULL)
        for client in clients:
            client.send(command("GET", "a"))
        self.assertEqual([it.reply() for it in clients], [NULL] * MANY)

    def test_lines_name_the_number(self):
        self.options = ()
        server = self.serve("--clients", 1)
        first = self.served_client(server)
        second = Client(server.port)
        self.addCleanup(second.close)
        self.assertEqual(second.rest(), ["busy: 1 connections are served already"])
        self.assertEqual(first.ask("get =a"), ["absent"])
