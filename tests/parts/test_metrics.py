"""`serve --metrics PORT`: a page of numbers for a monitoring system."""
import http.client
import re
import shutil
import socket
import subprocess
import time
import unittest

from harness import TIME_LIMIT
from served import SMALL, ServedCase, free_port, listening_sockets
from test_info import NAMES

# What Prometheus takes for a page of this format.
CONTENT_TYPE = "text/plain; version=0.0.4; charset=utf-8"
# How long a client may take with its request before it is cut off, with time for a loaded machine.
CUT_OFF = 5
# A client that breaks off may also be cut off without a word.
BAD_REQUEST = r"(?s)\A(HTTP/1\.1 400 Bad Request\r\n.*)?\Z"


class MetricsCase(ServedCase):
    def setUp(self):
        super().setUp()
        self.port = free_port()

    def serve_page(self, *options, **how):
        return self.serve("--metrics", self.port, *options, **how)

    def get(self, path="/metrics", method="GET", headers=()):
        """The status and the text of a page, and its headers."""
        connection = http.client.HTTPConnection("127.0.0.1", self.port, timeout=TIME_LIMIT)
        self.addCleanup(connection.close)
        connection.request(method, path, headers=dict(headers))
        response = connection.getresponse()
        return response.status, response.read().decode(), dict(response.getheaders())

    def numbers(self):
        """The numbers of the page by their names, each behind a line with its type."""
        status, text, headers = self.get()
        self.assertEqual((status, headers["Content-Type"]), (200, CONTENT_TYPE), text)
        found, lines = {}, text.splitlines()
        for kind, number in zip(lines[::2], lines[1::2], strict=True):
            name, value = number.split(" ")
            self.assertRegex(kind, rf"\A# TYPE {name} (gauge|counter)\Z")
            self.assertNotIn(name, found)
            found[name] = int(value)
        return found

    def raw(self, request):
        """What comes for these bytes, until the server closes."""
        with socket.create_connection(("127.0.0.1", self.port), timeout=TIME_LIMIT) as client:
            client.sendall(request)
            client.shutdown(socket.SHUT_WR)
            found = b""
            try:
                while data := client.recv(1 << 16):
                    found += data
            except ConnectionResetError:
                pass  # it was closed with bytes unread
            return found.decode()


class Pages(MetricsCase):
    def test_the_facts_are_those_of_info(self):
        self.store(SMALL)
        server = self.serve_page()
        client = self.client(server)
        self.assertEqual(client.ask("put =a 0001", "delete =b"), ["accepted 1", "accepted 2"])
        client.send("info")
        lines = [client.reply() for _ in NAMES]
        page = self.numbers()
        self.assertEqual([f"{it} {page[f'silt_{it}']}" for it in NAMES], lines)

    def test_counts_grow(self):
        self.store(SMALL)
        server = self.serve_page()
        before = self.numbers()
        client = self.client(server)
        client.ask("put =a 0001", "get =a", "get =b", "delete =a", "swap =a - 0002", "flush", "put =a 1")
        page = self.numbers()
        grown = {it: page[it] - before[it] for it in page if page[it] != before[it]}
        for name, more in {
            "silt_connections": 1,
            "silt_open_connections": 1,
            "silt_puts": 1,
            "silt_gets": 2,
            "silt_deletes": 1,
            "silt_swaps": 1,
            "silt_flushes": 1,
        }.items():
            self.assertEqual(grown.get(name), more, (name, grown))
        self.assertEqual(
            sum(more for it, more in grown.items() if it.startswith("silt_batches_")),
            grown["silt_batches"],
        )
        client.close()
        self.wait_until(lambda: self.numbers()["silt_open_connections"] == 0, "the session's end")

    def test_a_full_store(self):
        self.store(SMALL)
        server = self.serve_page("--wait", 0)
        client = self.client(server)
        replies = client.ask(*[f"put =key/{it} 0001" for it in range(40)])
        refused = sum(it.startswith("refused") for it in replies)
        self.assertGreater(refused, 0, replies)
        page = self.numbers()
        self.assertEqual(sum(page[f"silt_refused_{it}"] for it in range(1, 12)), refused)

    def test_a_set_has_the_sums(self):
        self.silt("format", "set", *SMALL.split(), "--shards", 3)
        server = self.serve_page("--shards", 3, name="set")
        self.client(server).ask(*[f"put ={it} 0001" for it in range(3)])
        page = self.numbers()
        self.assertEqual(
            [page[f"silt_{it}"] for it in ("stores", "commands", "capacity", "puts")],
            [3, 3, 24, 3],
        )

    def test_with_a_password(self):
        """The page needs none: it shows no key and no value, and this machine alone reaches it."""
        self.store("64 16 56 3 4 1000")
        self.path("password").write_text("secret\n")
        self.serve_page("--resp", "--password-file", self.path("password"))
        self.assertEqual(self.numbers()["silt_stores"], 1)

    def test_people_are_told_where_it_is(self):
        """With 0 the system chooses a port."""
        self.store(SMALL)
        for port in (self.port, 0):
            with self.subTest(port):
                server = self.serve("--metrics", port)
                line = re.compile(
                    r"silt: store: the page of metrics is at http://127\.0\.0\.1:(\d+)/metrics\n"
                )
                self.wait_until(lambda: server.errors().endswith("\n"), "a line of the page")
                found = line.fullmatch(server.errors())
                self.assertTrue(found, server.errors())
                self.port = int(found[1])
                self.assertEqual(self.numbers()["silt_stores"], 1)
                server.kill()

    def test_only_this_machine_reaches_it(self):
        self.store("64 16 56 3 4 1000")
        self.path("password").write_text("secret\n")
        server = self.serve_page(
            "--resp", "--password-file", self.path("password"), "--bind", "0.0.0.0"
        )
        at = f"{self.port:04X}"
        found = [it for _, it in listening_sockets(server.process.pid) if it.endswith(f":{at}")]
        self.assertEqual(found, [f"0100007F:{at}"])

    @unittest.skipUnless(shutil.which("curl"), "there is no curl")
    def test_curl(self):
        self.store(SMALL)
        self.serve_page()
        found = subprocess.run(
            ["curl", "-sS", "-i", f"http://127.0.0.1:{self.port}/metrics"],
            capture_output=True,
            text=True,
            timeout=TIME_LIMIT,
        )
        self.assertEqual((found.returncode, found.stderr), (0, ""))
        self.assertTrue(found.stdout.startswith("HTTP/1.1 200 OK\n"), found.stdout)
        self.assertRegex(found.stdout, r"(?m)^silt_capacity 8$")


class Refusals(MetricsCase):
    def test_other_pages_and_methods(self):
        self.store(SMALL)
        self.serve_page()
        self.assertEqual(self.get("/")[:2], (404, "the page is /metrics\n"))
        self.assertEqual(self.get("/metrics/more")[:2], (404, "the page is /metrics\n"))
        status, text, headers = self.get(method="POST")
        self.assertEqual((status, text, headers["Allow"]), (405, "the page is read with GET\n", "GET"))
        self.assertEqual(self.get(method="HEAD")[0], 405)
        self.assertEqual(self.get()[0], 200)

    def test_garbage(self):
        self.store(SMALL)
        self.serve_page()
        for request in (
            b"\x00\x01\x02\r\n\r\n",
            b"put =a 0001\n",
            b"GET /metrics\r\n\r\n",
            b"GET /metrics HTTP/1.1\r\nHost",
            b"GET /metrics HTTP/1.1\r\n" + b"x" * 9000,
            b"GET /metrics HTTP/1.1\r\n" + b"A: b\r\n" * 65 + b"\r\n",
            b"",
        ):
            with self.subTest(request[:40]):
                self.assertRegex(self.raw(request), BAD_REQUEST)
        self.assertEqual(self.get()[0], 200)

    def test_a_client_that_sends_nothing(self):
        self.store(SMALL)
        self.serve_page()
        with socket.create_connection(("127.0.0.1", self.port), timeout=CUT_OFF) as slow:
            slow.sendall(b"GET /met")
            began = time.monotonic()
            self.assertEqual(self.get()[0], 200)
            self.assertLess(time.monotonic() - began, CUT_OFF)

    def test_a_port_in_use(self):
        self.store(SMALL)
        with socket.create_server(("127.0.0.1", self.port)):
            ran = self.silt("serve", "store", 0, "--metrics", self.port)
        self.assertEqual(ran.status, 1, ran)
        self.assertRegex(ran.err, rf"silt: 127\.0\.0\.1:{self.port}: .*in use")

    def test_no_page_without_the_option(self):
        self.store(SMALL)
        server = self.serve()
        found = [it for _, it in listening_sockets(server.process.pid)]
        self.assertEqual(found, [f"0100007F:{server.port:04X}"])


if __name__ == "__main__":
    unittest.main()
