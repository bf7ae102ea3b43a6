"""Clients that a server does not serve: browsers, one too many, and silent ones."""
import select
import time
import unittest

from served import BUSY, MOST_SESSIONS, ROOMY, ServedCase


def request(first, *body):
    """An HTTP request with this first line and these lines as its body."""
    text = "".join(f"{line}\n" for line in body)
    head = [
        first,
        "Host: 127.0.0.1",
        "Content-Type: text/plain",
        f"Content-Length: {len(text)}",
        "",
    ]
    return ("".join(f"{line}\r\n" for line in head) + text).encode()


class Browsers(ServedCase):
    """A web page can make a browser send an HTTP request to a port of this machine."""

    def setUp(self):
        super().setUp()
        self.store(ROOMY)
        self.server = self.serve()
        self.owner = self.client(self.server)
        self.assertEqual(self.owner.ask("put =abc 0102"), ["accepted 1"])

    def check_refused(self, data, pieces=1):
        """The server closes such a connection without a byte, and the key is still there."""
        guest = self.client(self.server)
        size = -(-len(data) // pieces)
        for at in range(0, len(data), size):
            try:
                guest.send_bytes(data[at : at + size])
            except (BrokenPipeError, ConnectionResetError):
                break  # it is closed already
        self.assertEqual(guest.rest(), [], data)
        self.assertEqual(self.owner.ask("get =abc"), ["value 0102"], data)

    def test_a_body_that_deletes_a_key(self):
        for first in (
            "POST / HTTP/1.1",
            "PUT /put HTTP/1.1",
            "GET =abc HTTP/1.0",
            "OPTIONS * HTTP/1.1",
        ):
            self.check_refused(request(first, "delete =abc", "flush"))
        self.assertEqual(self.owner.ask("flush"), ["acknowledged 1"])

    def test_methods_and_targets_like_ours(self):
        for first in (
            "flush / HTTP/1.1",
            "delete =abc HTTP/1.1",
            "get  HTTP/1.1",
            "put =abc 0506 HTTP/2.0",
            "swap =abc 0102 HTTP/1.1",
        ):
            self.check_refused(request(first, "delete =abc"))

    def test_a_long_target(self):
        self.check_refused(request(f"POST /{'x' * 100_000} HTTP/1.1", "delete =abc"))

    def test_in_parts(self):
        data = request("POST / HTTP/1.1", "delete =abc")
        for pieces in (2, 3, 7, len(data)):
            self.check_refused(data, pieces)

    def test_a_request_without_an_end(self):
        guest = self.client(self.server)
        guest.send_bytes(b"GET / HTTP/1.1")
        self.assertEqual(guest.rest(), [])

    def test_bad_lines_that_are_no_request(self):
        lines = [
            "FLUSH",
            "PUT =abc 0102",
            "GET /",
            "GET / HTTP",
            "POST /HTTP/1.1",
            "HTTP/1.1 200 OK",
            " HTTP",
        ]
        for line in lines:
            self.assertEqual(
                self.client(self.server).ask(line, "get =abc"),
                ["refused 20 BadLine", "value 0102"],
                line,
            )

    def test_a_mark_behind_the_first_line(self):
        for first, reply in (("get =abc", ["value 0102"]), ("", [])):
            client = self.client(self.server)
            client.send(first, "POST / HTTP/1.1", "get =abc")
            self.assertEqual(
                client.replies(len(reply) + 2), [*reply, "refused 20 BadLine", "value 0102"]
            )

    def test_such_sessions_count(self):
        self.owner.close()
        self.server.kill()
        server = self.serve("--sessions", 2)
        guest = self.client(server)
        guest.send_bytes(request("POST / HTTP/1.1", "put =abc 0506"))
        self.assertEqual(guest.rest(), [])
        client = self.client(server)
        self.assertEqual(client.ask("get =abc"), ["value 0102"])
        client.close()
        self.check_calls(server.ended(), 0)


class PipelinedBrowsers(Browsers):
    """The lines behind a request come with it, and none is done as a batch."""

    options = ("--pipeline",)


class OneTooMany(ServedCase):
    """A connection for which there is no place."""

    def test_it_reads_why_it_is_closed(self):
        self.store(ROOMY)
        server = self.serve("--sessions", MOST_SESSIONS + 1)
        silent = self.clients(server, MOST_SESSIONS)
        self.assertEqual([it.ask("get =abc") for it in silent], [["absent"]] * MOST_SESSIONS)
        for _ in range(3):
            late = self.client(server)
            self.assertEqual(late.rest(), [BUSY])
        for it in silent:
            it.close()
        last = self.served_client(server)
        self.assertEqual(last.ask("put =abc 0102"), ["accepted 1"])


class Silent(ServedCase):
    """Clients that send or receive nothing for longer than a server waits."""

    def setUp(self):
        super().setUp()
        self.store("4096 4 16 4 4 100", [f"put =big {'5a' * 4096}", "flush"])

    def silence(self, limit):
        """Serves a busy client, a silent one and one that sends half a line, with this limit in
        seconds, until the two are closed. Whether the busy one has its replies, and the longest
        time between two of its lines."""
        server = self.serve("--idle", limit, "--sessions", 3)
        begun = time.monotonic()
        busy, silent, half = self.clients(server, 3)
        half.send_bytes(b"get =a")
        sent = begun
        longest = 0
        is_served = True
        closing = {silent.socket, half.socket}
        for _ in self.turns("the end of the silent connections"):
            longest = max(longest, time.monotonic() - sent)
            sent = time.monotonic()
            is_served = is_served and self.is_absent(busy)
            closing -= set(select.select(closing, [], [], 0)[0])
            if not closing:
                break
        self.assertGreater(time.monotonic() - begun, 0.9 * limit)
        self.assertEqual([it.rest() for it in (silent, half)], [[], []])
        busy.close()
        self.check_calls(server.ended(), 0)
        return is_served, longest

    def is_absent(self, client):
        try:
            return client.ask("get =abc") == ["absent"]
        except OSError:
            return False

    def test_a_silent_client_is_closed_beside_a_busy_one(self):
        """The busy client may be closed only if it was silent too long itself. Then it is tried
        with a longer limit."""
        for limit in (1, 4, 16):
            is_served, longest = self.silence(limit)
            if is_served:
                return
            self.assertGreater(longest, limit / 2, "a client that was not silent is closed")
        self.fail("this machine is too busy for any client")

    def test_a_client_that_never_reads(self):
        server = self.serve("--idle", 1, "--sessions", 1)
        deaf = self.client(server)
        # Some 16 MB of replies, more than the system keeps for a connection.
        try:
            deaf.send(*["get =big"] * 2000)
        except OSError:
            pass  # it was silent too long before
        self.check_calls(server.ended(), 0)

    def test_without_end(self):
        for options in ((), ("--idle", 0)):
            server = self.serve(*options)
            client = self.client(server)
            time.sleep(1.5)
            self.assertEqual(client.ask("get =abc"), ["absent"], options)
            server.kill()


if __name__ == "__main__":
    unittest.main()
