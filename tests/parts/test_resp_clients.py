"""Real clients of the Redis protocol at a server: redis-cli, redis-benchmark and redis-py.

They come with Debian's packages redis-tools and python3-redis. Without them the tests are left out.
"""
import shutil
import subprocess
import unittest

from harness import PROVED, TIME_LIMIT
from served import ServedCase

# Room for what a benchmark and a bulk load write.
GEOMETRY = "64 64 224 8 8 40000"
# The Python that has Debian's modules.
PYTHON = "/usr/bin/python3"
REQUESTS = 20_000 if PROVED else 2_000
# How long redis-benchmark may take, in seconds: a MSET has ten keys, and the machine may be busy.
LONG_LIMIT = 8 * TIME_LIMIT


def has_redis_py():
    if not shutil.which(PYTHON):
        return False
    return subprocess.run([PYTHON, "-c", "import redis"], capture_output=True).returncode == 0


class ClientCase(ServedCase):
    options = ("--resp",)

    def setUp(self):
        super().setUp()
        self.store(GEOMETRY)
        self.server = self.serve()

    def ran(self, *words, text="", limit=TIME_LIMIT):
        """What a program prints that ends well."""
        ran = subprocess.run(words, input=text, capture_output=True, text=True, timeout=limit)
        self.assertEqual((ran.returncode, ran.stderr), (0, ""), ran)
        return ran.stdout


@unittest.skipUnless(shutil.which("redis-cli"), "redis-cli is not here")
class Cli(ClientCase):
    def cli(self, *words, text=""):
        return self.ran("redis-cli", "-p", str(self.server.port), *words, text=text)

    def test_single_commands(self):
        for words, reply in [
            (["PING"], "PONG"),
            (["SET", "name", "Ada Lovelace"], "OK"),
            (["GET", "name"], "Ada Lovelace"),
            (["SET", "name", "x", "NX"], ""),
            (["SETNX", "name", "x"], "0"),
            (["STRLEN", "name"], "12"),
            (["EXISTS", "name", "none"], "1"),
            (["SET", "name", "y", "IFEQ", "Ada Lovelace"], "OK"),
            (["DELIFEQ", "name", "x"], "0"),
            (["MSET", "a", "1", "b", "2"], "OK"),
            (["MGET", "a", "b", "c"], "1\n2\n"),
            (["DEL", "a", "b", "c"], "2"),
            (["GET", "a"], ""),
            (["ECHO", "hello"], "hello"),
        ]:
            self.assertEqual(self.cli(*words), reply + "\n", words)

    def test_a_refusal(self):
        for words, begin in [
            (["INCR", "a"], "ERR unknown command"),
            (["SET", "a", "1", "EX", "10"], "ERR syntax error"),
        ]:
            self.assertTrue(self.cli(*words).startswith(begin), words)
        self.assertEqual(self.cli("GET", "a"), "\n")

    def test_a_script(self):
        said = self.cli(text="set one 1\nset two 2\nmget one two three\ndel one two\n")
        self.assertEqual(said, "OK\nOK\n1\n2\n\n2\n")

    def test_a_session_that_greets_with_the_newer_protocol(self):
        ran = subprocess.run(
            ["redis-cli", "-3", "-p", str(self.server.port), "PING"],
            capture_output=True,
            text=True,
            timeout=TIME_LIMIT,
        )
        self.assertEqual((ran.returncode, ran.stdout), (0, "PONG\n"), ran)
        self.assertIn("NOPROTO unsupported protocol version", ran.stderr)

    def test_a_bulk_load(self):
        commands = "".join(
            f"*3\r\n$3\r\nSET\r\n${len(name)}\r\n{name}\r\n$1\r\n7\r\n"
            for name in (f"n{it}" for it in range(REQUESTS))
        )
        said = self.cli("--pipe", text=commands)
        self.assertIn(f"errors: 0, replies: {REQUESTS}", said)
        self.assertEqual(self.cli("GET", f"n{REQUESTS - 1}"), "7\n")


@unittest.skipUnless(shutil.which("redis-benchmark"), "redis-benchmark is not here")
class Benchmark(ClientCase):
    def check_benchmark(self, *words):
        said = self.ran(
            "redis-benchmark",
            "-p",
            str(self.server.port),
            "-n",
            str(REQUESTS),
            "-r",
            "1000",
            "--csv",
            *words,
            limit=LONG_LIMIT,
        )
        names = [it.split(",")[0].strip('"') for it in said.splitlines()[1:]]
        self.assertEqual(names, ["PING_INLINE", "PING_MBULK", "SET", "GET", "MSET (10 keys)"], said)

    def test_plain(self):
        self.check_benchmark("-t", "ping,set,get,mset", "-c", "8")

    def test_pipelines(self):
        self.check_benchmark("-t", "ping,set,get,mset", "-c", "8", "-P", "50")


SESSION = r"""
import sys, redis
r = redis.Redis(port=int(sys.argv[1]), client_name="tests")
name, text = b"\x00\xff name\r\n", bytes(range(62))
assert r.ping() is True
assert r.get(name) is None
assert r.set(name, text) is True
assert r.get(name) == text
assert r.set(name, b"other", nx=True) is None
assert r.setnx(b"fresh", 1) is True
assert r.setnx(b"fresh", 2) is False
assert r.execute_command("SET", "fresh", "3", "IFEQ", "1") is True
assert r.execute_command("SET", "fresh", "4", "IFEQ", "1") is None
assert r.mset({"a": 1, "b": 2}) is True
assert r.mget("a", "b", "c") == [b"1", b"2", None]
assert r.exists("a", "a", "c") == 2
assert r.strlen("a") == 1
pipe = r.pipeline(transaction=False)
for n in range(1000):
    pipe.set(f"p{n}", n)
pipe.get("p999")
assert pipe.execute() == [True] * 1000 + [b"999"]
assert r.delete("a", "b", "c") == 2
info = r.info()
assert (info["redis_version"], info["loading"], info["stores"], info["failed"]) == ("7.0.0", 0, 1, 0), info
assert r.mset({"d": 1, "e": 2}) is True and r.set("d", 3, nx=True) is None
assert r.info()["commands"] == info["commands"] + 2
assert r.info("store").keys() | r.info("stats").keys() == info.keys() - {"redis_version", "silt_version", "loading"}
assert r.info("server") == {"redis_version": "7.0.0", "silt_version": "0.1.0", "loading": 0}
assert r.info("clients") == {}
for call, begin in [(lambda: r.expire("p1", 10), "unknown command"), (lambda: r.set("p1", 1, ex=10), "syntax error"),
                    (lambda: r.incr("p1"), "unknown command")]:
    try:
        call()
    except redis.ResponseError as error:
        assert str(error).startswith(begin), error
    else:
        raise AssertionError(begin)
print("done")
"""


@unittest.skipUnless(has_redis_py(), "redis-py is not here")
class Python(ClientCase):
    def test_a_session(self):
        self.assertEqual(self.ran(PYTHON, "-c", SESSION, str(self.server.port)), "done\n")
