"""How a server ends: in order if a client says so, and loudly if a write or a sync of its store
failed. And the jobs that ask a server, `silt stop` and `silt info`."""
import signal
import socket
import threading
import time
import unittest

from harness import Ended
from resp import NULL, OK, RespClient, command
from served import CONVERTER, MERGER, SMALL, Client, ServedCase, free_port
from watch import watching

# A server that is told so ends within so many seconds.
SOON = 5
# Logs of four rows, of which a merge makes many steps, and long values.
MERGED = "400 64 200 3 4 20000"
# What a server of lines replies to `shutdown`, and what one of a set replies.
BEGUN = "begun"
IO = "Input/output error (os error 5)"
SECRET = b"a pass word\xff"


class EndsCase(ServedCase):
    def resp_client(self, server):
        client = RespClient(server.port)
        self.addCleanup(client.close)
        return client

    def ends_soon(self, server, status=0):
        """The server ends in time with this status."""
        ended = server.ended(limit=SOON)
        self.assertEqual(ended.status, status, ended)
        return ended

    def told(self, server):
        """Tells a server of lines to end, by a client of its own."""
        self.assertEqual(self.client(server).exchange(["shutdown"]), [BEGUN])

    def stopped(self, server, *options):
        """What `silt stop` says, with the server's port."""
        return self.silt("stop", server.port, *options)


class Orders(EndsCase):
    """A client tells the server to end."""

    def setUp(self):
        super().setUp()
        self.store("2 16 64 8 16 4000")

    def test_a_line(self):
        for options in ((), ("--pipeline",)):
            with self.subTest(options):
                server = self.serve(*options)
                self.told(server)
                ended = self.ends_soon(server)
                self.assertEqual((ended.lines[-1], ended.err), ("calls 0", ""))

    def test_a_command(self):
        """SHUTDOWN has no reply, as in Redis: the connection closes."""
        for words in (["SHUTDOWN"], ["shutdown", "NOSAVE"], ["Shutdown", "save"]):
            with self.subTest(words):
                server = self.serve("--resp")
                client = self.resp_client(server)
                client.send(command(*words))
                self.assertEqual(client.rest(), b"")
                self.ends_soon(server)

    def test_words_that_are_none(self):
        server = self.serve("--resp")
        client = self.resp_client(server)
        self.assertTrue(client.ask("SHUTDOWN", "abort").startswith(b"-ERR "))
        self.assertEqual(client.ask("PING"), b"+PONG\r\n")
        server.kill()
        server = self.serve()
        client = self.client(server)
        self.assertEqual(client.ask("shutdown now", "SHUTDOWN"), ["refused 20 BadLine"] * 2)
        self.assertEqual(client.ask("get =a"), ["absent"])

    def test_idle_clients_are_closed(self):
        server = self.serve()
        idle = [self.served_client(server) for _ in range(20)]
        self.told(server)
        begun = time.monotonic()
        for client in idle:
            self.assertEqual(client.rest(), [])
        self.assertLess(time.monotonic() - begun, SOON)
        self.ends_soon(server)

    def test_what_was_read_is_done(self):
        """A client in the middle of its lines has a reply to each line that was read, in order, and
        what was accepted is there."""
        for options in (("--pipeline",), ()):
            with self.subTest(options):
                # The logs have room for all puts. Else one might need a worker, which does no step once
                # the server ends, and be refused for want of room.
                self.silt("format", "store", *"2 256 1024 8 16 4000".split(), "--force")
                server = self.serve(*options)
                clients = self.clients(server, 4)
                replies = [[] for _ in clients]
                threads = [
                    threading.Thread(target=self.puts, args=(it, client, replies[it]))
                    for it, client in enumerate(clients)
                ]
                for thread in threads:
                    thread.start()
                time.sleep(0.5)
                self.told(server)
                self.ends_soon(server)
                for thread in threads:
                    thread.join()
                for number, found in enumerate(replies):
                    self.assertTrue(found)
                    self.assertEqual({it.split()[0] for it in found}, {"accepted"})
                    keys = [f"=client/{number}/{it}" for it in range(len(found))]
                    there = self.found(*keys)
                    self.assertEqual(there, [f"value {it:04x}" for it in range(len(found))])

    def puts(self, number, client, replies):
        """Sends puts of keys of its own in batches, until the server ends. Keeps the replies."""
        try:
            for first in range(0, 1000, 10):
                lines = [f"put =client/{number}/{it} {it:04x}" for it in range(first, first + 10)]
                client.send(*lines)
                for _ in lines:
                    reply = client.reply()
                    if reply is None:
                        return
                    replies.append(reply)
        except OSError:
            pass

    def test_lines_behind_it_in_one_write(self):
        """The lines that were read with it have their replies."""
        server = self.serve("--pipeline")
        client = self.client(server)
        lines = ["put =a 0001", "shutdown", "put =b 0002", "get =a"]
        client.send(*lines)
        self.assertEqual(client.rest(), ["accepted 1", BEGUN, "accepted 2", "value 0001"])
        self.ends_soon(server)
        self.assertEqual(self.found("=a", "=b"), ["value 0001", "value 0002"])

    def test_a_client_that_reads_nothing(self):
        """A server does not wait for a client that takes no replies."""
        server = self.serve("--pipeline")
        client = self.client(server)
        client.send("put =a 0001")
        sending = threading.Thread(target=self.floods, args=(client,), daemon=True)
        sending.start()
        time.sleep(0.5)
        self.told(server)
        self.ends_soon(server)

    def floods(self, client):
        """Sends gets and reads nothing, until the connection breaks."""
        try:
            for _ in range(100_000):
                client.send(*["get =a"] * 100)
        except OSError:
            pass

    def test_with_a_number_of_sessions(self):
        server = self.serve("--sessions", 50)
        self.told(server)
        self.ends_soon(server)

    def test_two_at_once(self):
        server = self.serve()
        clients = self.clients(server, 8)
        for client in clients:
            client.send("shutdown")
        for client in clients:
            self.assertIn(client.rest(), ([BEGUN], []))
        self.ends_soon(server)


class Merges(EndsCase):
    def test_a_merge_in_progress_is_given_up(self):
        """The next opening begins it anew, and all is there."""
        self.store(MERGED)
        server = self.serve("--merge-at", 1, "--pipeline", *self.patient)
        client = self.client(server)
        accepted = 0
        for first in range(0, 4000, 200):
            lines = [f"put =k{it} {it:0800x}" for it in range(first, first + 200)]
            self.assertEqual({it.split()[0] for it in client.ask(*lines)}, {"accepted"})
            accepted += 200
        self.told(server)
        self.ends_soon(server)
        keys = [f"=k{it}" for it in range(accepted)]
        self.assertEqual(self.found(*keys), [f"value {it:0800x}" for it in range(accepted)])
        self.assertEqual(self.silt("tend", "store").status, 0)
        self.assertEqual(self.found(*keys), [f"value {it:0800x}" for it in range(accepted)])


class Sets(EndsCase):
    def setUp(self):
        super().setUp()
        self.silt("format", "store", *"4 256 1024 8 8 20000".split(), "--shards", 4)

    def test_a_set(self):
        server = self.serve("--shards", 4, "--pipeline")
        idle = [self.served_client(server) for _ in range(3)]
        client = self.client(server)
        lines = [f"put =k{it} {it:08x}" for it in range(200)]
        self.assertEqual({it.split()[0] for it in client.ask(*lines)}, {"accepted"})
        self.told(server)
        self.ends_soon(server)
        self.assertEqual([it.rest() for it in idle], [[]] * 3)
        text = "".join(f"get =k{it}\n" for it in range(200))
        ran = self.silt("run", "store", "--shards", 4, text=text)
        self.assertEqual(ran.lines[1:], [f"value {it:08x}" for it in range(200)])

    def test_a_set_for_redis_clients(self):
        server = self.serve("--shards", 4, "--resp")
        client = self.resp_client(server)
        self.assertEqual(client.ask("SET", "a", "1"), OK)
        client.send(command("SHUTDOWN"))
        self.assertEqual(client.rest(), b"")
        self.ends_soon(server)

    def test_a_shard_that_fails_ends_the_server(self):
        # Each opening makes one sync, and the first put the next.
        server = self.serve("--shards", 4, env=watching(self, fail="fdatasync:5:EIO"))
        self.assertEqual(self.client(server).ask("put =a 00000001"), ["unsettled 1"])
        ended = self.ends_soon(server, status=1)
        self.assertRegex(
            ended.err,
            rf"^silt: shard (\d): a sync: {IO[:18]}.*; it takes nothing more until it is opened again\n"
            r"silt: store\.\1: the store has failed; the server ends\nsilt: store\.\1: a sync: .*\n$",
        )


class Failures(EndsCase):
    """A server whose store has failed says so and ends, so that what watches it starts another."""

    note = f"silt: a sync: {IO}; the store takes nothing more until it is opened again\n"
    ends = "silt: store: the store has failed; the server ends\n"

    def setUp(self):
        super().setUp()
        self.store(SMALL)

    def test_it_ends_with_status_1(self):
        server = self.serve(env=watching(self, fail="fdatasync:2:EIO"))
        idle = [self.served_client(server) for _ in range(3)]
        client = self.client(server)
        self.assertEqual(client.ask("put =a 0001"), ["unsettled 1"])
        self.assertEqual(client.rest(), [])
        self.assertEqual([it.rest() for it in idle], [[]] * 3)
        ended = self.ends_soon(server, status=1)
        self.assertEqual(ended.err, self.note + self.ends + f"silt: store: a sync: {IO}\n")
        self.check_whole()

    def test_without_a_client(self):
        """A worker finds it: no client needs to come."""
        for worker in (CONVERTER, MERGER):
            with self.subTest(worker):
                self.silt("format", "store", *SMALL.split(), "--force")
                fails = watching(self, fail=f"fdatasync@{worker}:1+:EIO")
                server = self.serve("--merge-at", 1, env=fails)
                client = self.client(server)
                client.send(*(f"put =k{it} 0001" for it in range(5)))
                client.end_input()
                client.rest()
                client.close()
                ended = self.ends_soon(server, status=1)
                self.assertIn(self.ends, ended.err)

    def test_the_replies_to_what_was_read(self):
        server = self.serve("--pipeline", env=watching(self, fail="fdatasync:2:EIO"))
        client = self.client(server)
        client.send("put =a 0001", "put =b 0002", "get =a", "put =c 0003")
        replies = client.rest()
        self.assertEqual(replies, ["unsettled 1", "unsettled 2", "refused 9 Failed", "refused 9 Failed"])
        self.ends_soon(server, status=1)

    def test_it_stays_if_it_is_asked_to(self):
        server = self.serve("--stay", env=watching(self, fail="fdatasync:2:EIO"))
        self.assertEqual(self.client(server).ask("put =a 0001"), ["unsettled 1"])
        time.sleep(1)
        self.assertEqual((server.is_running(), server.errors()), (True, self.note))
        self.assertEqual(self.client(server).ask("put =b 0002"), ["refused 9 Failed"])
        self.told(server)
        ended = self.ends_soon(server, status=1)
        self.assertEqual(ended.err, self.note + f"silt: store: a sync: {IO}\n")

    def test_what_watches_it_starts_it_again(self):
        """As systemd does: again after status 1, and not after status 0."""
        port = free_port()
        statuses = []

        def watch():
            for turn in range(5):
                fault = watching(self, fail="fdatasync:2:EIO") if turn == 0 else None
                with self.start("serve", "store", port, env=fault) as running:
                    statuses.append(self.finish(running).status)
                if statuses[-1] == 0:
                    return

        watcher = threading.Thread(target=watch)
        watcher.start()
        self.assertEqual(self.ask_until(port, "put =a 0001"), "unsettled 1")
        self.assertIn(self.ask_until(port, "put =b 0002"), ("accepted 1", "accepted 2"))
        self.assertEqual(self.silt("stop", port), Ended(0, "", ""))
        watcher.join()
        self.assertEqual(statuses, [1, 0])
        self.assertEqual(self.found("=b"), ["value 0002"])

    def ask_until(self, port, line):
        """The reply to a line, of a server that may not listen yet or no more."""
        for _ in self.turns("a reply"):
            try:
                client = Client(port)
            except OSError:
                continue
            try:
                client.send(line)
                if (reply := client.reply()) is not None:
                    return reply
            except OSError:
                pass
            finally:
                client.close()
        return None


class Stop(EndsCase):
    """`silt stop`: it returns once nothing listens."""

    def setUp(self):
        super().setUp()
        self.store(SMALL)

    def password(self, text=SECRET):
        self.path("password").write_bytes(text + b"\n")
        return "--password-file", "password"

    def test_servers(self):
        for options in ((), ("--pipeline",), ("--resp",)):
            with self.subTest(options):
                server = self.serve(*options)
                idle = socket.create_connection(("127.0.0.1", server.port))
                self.addCleanup(idle.close)
                self.assertEqual(self.stopped(server), Ended(0, "", ""))
                with self.assertRaises(ConnectionRefusedError):
                    socket.create_connection(("127.0.0.1", server.port))
                self.ends_soon(server)

    def test_an_address(self):
        for bind, address in (("127.0.0.1", "127.0.0.1"), ("::1", "[::1]"), ("127.0.0.2", "127.0.0.2")):
            with self.subTest(bind):
                server = self.serve("--resp", "--bind", bind)
                self.assertEqual(self.silt("stop", f"{address}:{server.port}"), Ended(0, "", ""))
                self.ends_soon(server)

    def test_all_addresses(self):
        """A server of all addresses of the machine wakes up by itself."""
        for bind in ("0.0.0.0", "::"):
            with self.subTest(bind):
                server = self.serve("--resp", "--bind", bind, *self.password())
                address = "127.0.0.1" if bind == "0.0.0.0" else "[::1]"
                stopped = self.silt("stop", f"{address}:{server.port}", *self.password())
                self.assertEqual(stopped, Ended(0, "", ""))
                self.ends_soon(server)

    def test_a_password(self):
        server = self.serve("--resp", *self.password())
        refused = self.silt("stop", server.port)
        self.assertEqual((refused.status, refused.err), (1, ""))
        self.assertTrue(refused.out.startswith("-NOAUTH "), refused)
        self.password(b"another")
        wrong = self.silt("stop", server.port, "--password-file", "password")
        self.assertEqual((wrong.status, wrong.err), (1, ""))
        self.assertTrue(wrong.out.startswith("-WRONGPASS "), wrong)
        client = self.resp_client(server)
        self.assertEqual(client.ask("AUTH", SECRET), OK)
        self.assertEqual(client.ask("GET", "a"), NULL)
        self.assertEqual(self.stopped(server, *self.password()), Ended(0, "", ""))
        self.ends_soon(server)

    def test_no_password_in_the_file(self):
        self.path("password").write_bytes(b"\n")
        for name, why in (
            ("password", "the first line, which is the password, is empty"),
            ("missing", "No such file or directory (os error 2)"),
        ):
            ended = self.silt("stop", 1, "--password-file", name)
            self.assertEqual(ended, Ended(1, "network fault\n", f"silt: {name}: {why}\n"))

    def test_nothing_listens(self):
        with socket.socket() as one:
            one.bind(("127.0.0.1", 0))
            port = one.getsockname()[1]
            said = f"silt: nothing listens at 127.0.0.1:{port}\n"
            self.assertEqual(self.silt("stop", port), Ended(1, "network fault\n", said))
            self.assertEqual(self.silt("info", port), Ended(1, "network fault\n", said))
            said = f"silt: nothing listens at [::1]:{port}\n"
            self.assertEqual(self.silt("stop", f"[::1]:{port}"), Ended(1, "network fault\n", said))

    def test_texts_that_are_no_addresses(self):
        for text in ("127.0.0:80", "1.2.3.4:65536", "::1:80", "[::1]", "[1.2.3.4]:80", ":80"):
            ended = self.silt("info", text)
            said = f"silt: {text}: it is no IP address\n"
            self.assertEqual(ended, Ended(1, "network fault\n", said), text)

    def test_a_server_that_knows_no_such_line(self):
        """Another program that replies with a refusal goes on."""
        for reply, printed in ((b"refused 20 BadLine\n", "refused 20 BadLine\n"), (b"-ERR no\r\n", "-ERR no\n")):
            with self.subTest(reply), socket.create_server(("127.0.0.1", 0)) as other:
                answering = threading.Thread(target=self.answer_once, args=(other, reply))
                answering.start()
                ended = self.silt("stop", other.getsockname()[1])
                answering.join()
                self.assertEqual(ended, Ended(1, printed, ""))

    def answer_once(self, server, reply):
        """Gives this reply to all that one connection sends."""
        connection, _ = server.accept()
        with connection:
            self.asked = b""
            while data := connection.recv(1 << 16):
                self.asked += data
            connection.sendall(reply)

    def test_what_is_sent(self):
        for job, line in (("stop", b"shutdown\n"), ("info", b"info\n")):
            for options, before in (
                ((), b""),
                (self.password(), command(b"AUTH", SECRET)),
            ):
                with socket.create_server(("127.0.0.1", 0)) as other:
                    answering = threading.Thread(target=self.answer_once, args=(other, b"-ERR\r\n"))
                    answering.start()
                    self.silt(job, other.getsockname()[1], *options)
                    answering.join()
                    self.assertEqual(self.asked, before + line)

    def check_reply(self, reply, said):
        """`info` asks a server that sends these bytes: it says so, and its status is 1."""
        with socket.create_server(("127.0.0.1", 0)) as other:
            answering = threading.Thread(target=self.answer_once, args=(other, reply))
            answering.start()
            port = other.getsockname()[1]
            ended = self.silt("info", port)
            answering.join()
        self.assertEqual(ended, Ended(1, "network fault\n", f"silt: 127.0.0.1:{port}: {said}\n"))

    def test_a_reply_that_is_too_long(self):
        self.check_reply(b"x" * 65_537, "the reply is longer than 65536 bytes")

    def test_no_reply(self):
        self.check_reply(b"", "the server closed the connection without a reply")


class Info(EndsCase):
    """`silt info`: what `info` or INFO say, a line each."""

    def setUp(self):
        super().setUp()
        self.store(SMALL)

    def test_lines(self):
        server = self.serve()
        self.assertEqual(self.client(server).ask("put =a 0001"), ["accepted 1"])
        ended = self.silt("info", server.port)
        self.assertEqual((ended.status, ended.err, ended.lines[0]), (0, "", "stores 1"))
        self.assertIn("commands 1", ended.lines)
        self.assertEqual(ended.lines[-1], "end")
        self.assertNotIn("\r", ended.out)

    def test_commands(self):
        server = self.serve("--resp")
        client = self.resp_client(server)
        whole = client.ask("INFO")
        text = whole.split(b"\r\n", 1)[1].removesuffix(b"\r\n").replace(b"\r\n", b"\n").decode()
        ended = self.silt("info", server.port)
        self.assertEqual((ended.status, ended.err), (0, ""))
        names = [it.split(":")[0] for it in ended.lines]
        self.assertEqual(names, [it.split(":")[0] for it in text.splitlines()])
        self.assertEqual(ended.lines[0], "# Server")
        self.assertFalse(ended.out.endswith("\n\n"))

    def test_a_password(self):
        self.path("password").write_bytes(SECRET + b"\n")
        options = ("--password-file", "password")
        server = self.serve("--resp", *options)
        ended = self.silt("info", server.port, *options)
        self.assertEqual((ended.status, ended.err, ended.lines[0]), (0, "", "# Server"))
        refused = self.silt("info", server.port)
        self.assertEqual((refused.status, refused.err), (1, ""))
        self.assertTrue(refused.out.startswith("-NOAUTH "), refused)

    def test_what_it_counts(self):
        server = self.serve("--pipeline")
        client = self.client(server)
        client.ask("put =a 0001", "get =a", "get =b", "delete =b", "convert")
        counts = dict(it.split() for it in self.silt("info", server.port).lines[:-1])
        self.assertEqual((counts["gets"], counts["puts"], counts["deletes"]), ("2", "1", "1"))


class Signals(EndsCase):
    def test_a_signal_still_ends_it_at_once(self):
        self.store(SMALL)
        server = self.serve()
        self.assertEqual(self.client(server).ask("put =a 0001"), ["accepted 1"])
        server.send_signal(signal.SIGTERM)
        self.assertEqual(server.ended().status, -signal.SIGTERM)
        self.assertEqual(self.found("=a"), ["value 0001"])


if __name__ == "__main__":
    unittest.main()
