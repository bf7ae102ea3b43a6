"""Four servers behind nutcracker, a proxy that spreads names over servers of the Redis protocol.

Its configuration is that of the page on many machines. It comes with Debian's package nutcracker.
Without it the tests are left out.
"""
import random
import re
import shutil
import signal
import subprocess
import threading
import unittest

from harness import PROVED, TOP
from resp import NULL, OK, RespClient, array, number, string
from served import ServedCase, free_port

SERVERS = ("north", "east", "south", "west")
# Room for all names on each server.
GEOMETRY = "34 64 224 8 8 16000"
NAMES = 1_000
KILLS = 10 if PROVED else 3
CLIENTS = 4
# What the proxy replies for a server that is away begins so.
AWAY = b"-ERR "


@unittest.skipUnless(shutil.which("nutcracker"), "nutcracker is not here")
class Proxy(ServedCase):
    # The password of the servers, if they have one.
    password = None

    def setUp(self):
        super().setUp()
        self.options = ("--resp",)
        if self.password:
            self.path("password").write_text(self.password + "\n")
            self.options += ("--password-file", "password")
        self.ports, self.servers = {}, {}
        for name in SERVERS:
            self.add_server(name)
        self.begin_proxy()

    def add_server(self, name, geometry=GEOMETRY, lines=()):
        """Serves a new store, into which these lines were put."""
        self.ports[name] = free_port()
        self.store(geometry, lines, name=name)
        self.start_server(name)

    def start_server(self, name):
        """Serves a store at the port that the proxy knows."""
        self.servers[name] = self.serve(name=name, port=self.ports[name])

    def configuration(self):
        """The configuration of the page on many machines, with servers on this one."""
        text = re.search("```yaml\n(.*?)```", (TOP / "docs/many-machines.md").read_text(), re.S).group(1)
        text = re.sub(r"(listen: 127\.0\.0\.1):\d+", rf"\1:{self.port}", text)
        password = f"  redis_auth: {self.password}\n" if self.password else ""
        text = re.sub(r"  redis_auth: .*\n", password, text)
        text = re.sub(r"    - .*\n", "", text)
        return text + "".join(f"    - 127.0.0.1:{port}:1 {it}\n" for it, port in self.ports.items())

    def begin_proxy(self):
        self.port = free_port()
        self.path("proxy.yml").write_text(self.configuration())
        words = ["nutcracker", "-c", "proxy.yml", "-o", "proxy.log", "-s", str(free_port())]
        self.proxy = subprocess.Popen(words, cwd=self.folder)
        self.addCleanup(self.proxy.wait)
        self.addCleanup(self.proxy.kill)
        self.wait_until(self.is_listening, "the proxy to listen")

    def is_listening(self):
        try:
            RespClient(self.port).close()
        except OSError:
            return False
        return True

    def client_of(self, port):
        """A client that is let in."""
        client = RespClient(port)
        self.addCleanup(client.close)
        if self.password:
            self.assertEqual(client.ask("AUTH", self.password), OK)
        return client

    def proxy_client(self):
        return self.client_of(self.port)

    def dumps(self):
        """The lines of a dump of each store, once its server has ended."""
        lines = {}
        for name, server in self.servers.items():
            server.send_signal(signal.SIGTERM)
            server.ended()
            lines[name] = self.silt("dump", name).lines
        return lines

    def test_names_are_spread_and_found(self):
        client = self.proxy_client()
        names = [f"user:{it}" for it in range(NAMES)]
        for name in names:
            self.assertEqual(client.ask("SET", name, name), OK, name)
        for name in names:
            self.assertEqual(client.ask("GET", name), string(name), name)
        counts = {name: len(lines) for name, lines in self.dumps().items()}
        self.assertEqual(sum(counts.values()), NAMES, counts)
        self.assertGreater(min(counts.values()), NAMES // 8, counts)

    def test_a_server_is_added(self):
        """The new one gets all dumps, as the page says. Each name is then found through the new list."""
        client = self.proxy_client()
        names = [f"user:{it}" for it in range(NAMES)]
        for name in names:
            self.assertEqual(client.ask("SET", name, name), OK, name)
        lines = [line for dump in self.dumps().values() for line in dump]
        self.assertEqual(len(lines), NAMES)
        self.proxy.kill()
        self.add_server("fifth", lines=[*lines, "flush"])
        for name in SERVERS:
            self.start_server(name)
        self.begin_proxy()
        client = self.proxy_client()
        for name in names:
            self.assertEqual(client.ask("GET", name), string(name), name)
        fifth = self.client_of(self.ports["fifth"])
        moved = 0
        for name in names:
            self.assertEqual(client.ask("SET", name, "new"), OK)
            moved += fifth.ask("GET", name) == string("new")
        self.assertGreater(moved, NAMES // 10)
        self.assertLess(moved, NAMES // 2)

    def test_commands_over_several_servers(self):
        client = self.proxy_client()
        names = [f"k{it}" for it in range(40)]
        pairs = [it for name in names for it in (name, name.upper())]
        self.assertEqual(client.ask("MSET", *pairs), OK)
        found = client.ask("MGET", *names, "nothing")
        self.assertEqual(found, array(*(string(it.upper()) for it in names), NULL))
        self.assertEqual(client.ask("SET", "k1", "2", "IFEQ", "K1"), OK)
        self.assertEqual(client.ask("SET", "k1", "3", "IFEQ", "K1"), NULL)
        self.assertEqual(client.ask("SETNX", "k1", "3"), number(0))
        self.assertEqual(client.ask("DEL", *names, "nothing"), number(40))
        self.assertEqual(client.ask("GET", "k1"), NULL)

    def test_a_refusal_leaves_the_connection_open(self):
        client = self.proxy_client()
        too_long = client.ask("SET", "name", "x" * 40)
        self.assertTrue(too_long.startswith(b"-ERR value is longer than 32 bytes"), too_long)
        self.assertEqual(client.ask("SET", "name", "x"), OK)

    def test_a_server_that_is_away(self):
        client = self.proxy_client()
        names = [f"n{it}" for it in range(60)]
        for name in names:
            self.assertEqual(client.ask("SET", name, "1"), OK)
        self.servers["east"].kill()
        replies = [client.ask("GET", name) for name in names]
        away = [name for name, reply in zip(names, replies) if reply.startswith(AWAY)]
        self.assertEqual([it for it in replies if not it.startswith(AWAY)], [string("1")] * (60 - len(away)))
        self.assertTrue(away)
        self.start_server("east")
        self.wait_until(lambda: client.ask("GET", away[0]) == string("1"), "the server to be back")
        self.assertEqual([client.ask("GET", name) for name in away], [string("1")] * len(away))

    def test_what_was_ok_survives_kills(self):
        kept = [{} for _ in range(CLIENTS)]
        for turn in range(KILLS):
            threads = [
                threading.Thread(target=self.load, args=(number, kept[number], turn * 1_000_000))
                for number in range(CLIENTS)
            ]
            self.is_over = False
            before = self.replies(kept)
            for thread in threads:
                thread.start()
            self.wait_until(lambda: self.replies(kept) > before + 300, "three hundred replies")
            name = self.random.choice(SERVERS)
            self.servers[name].kill()
            self.start_server(name)
            self.is_over = True
            for thread in threads:
                thread.join()
            self.check_kept(kept)

    def replies(self, kept):
        return sum(it.get("", 0) for it in kept)

    def load(self, number, kept, n):
        """Sets numbers that rise from this one, until the test says that it is over. Keeps the last
        one that was +OK by its name, and under the empty name how many there were."""
        draw = random.Random(n + number)
        client = self.proxy_client()
        while not self.is_over:
            n += 1
            name = f"c{number}:{draw.randrange(100)}"
            if client.ask("SET", name, n) == OK:
                kept[name] = n
                kept[""] = kept.get("", 0) + 1
        client.close()

    def check_kept(self, kept):
        client = self.proxy_client()
        for names in kept:
            for name, n in names.items():
                if name:
                    self.check_found(client, name, n)

    def check_found(self, client, name, n):
        """A name has this number or a later one, as soon as its server is back."""
        found = client.ask("GET", name)
        for _ in self.turns("a server to be back"):
            if not found.startswith(AWAY):
                break
            found = client.ask("GET", name)
        self.assertGreaterEqual(int(found.split(b"\r\n")[1]), n, name)


class GuardedProxy(Proxy):
    """The same with servers that ask for a password."""

    password = "a secret of four servers"
