"""The server when calls of the system fail: syncs, accepts, threads, requests for memory."""
import os
import resource
import signal
import subprocess
import unittest

from harness import TIME_LIMIT, without_note
from served import (
    CARE,
    CONVERTER,
    DESCRIPTORS,
    FIRST_SESSION,
    MERGER,
    MOST_SESSIONS,
    REPLIER,
    ROOMY,
    SMALL,
    UNHEARD,
    WRITER,
    ServedCase,
    digits,
)
from watch import read_record, watching

FIVE_PUTS = [f"put {digits(it)} {it:04}" for it in range(1, 6)]


class Flushes(ServedCase):
    """The reply to a put comes after the flush that settles it, and says whether that failed."""

    def setUp(self):
        super().setUp()
        self.store(SMALL)

    def test_a_reply_comes_behind_its_syncs(self):
        server = self.serve("--sessions", 1, env=watching(self, log="record"))
        client = self.client(server)
        lines = ["put =abc 0102", "delete =abc", "put =pear 0102"]
        self.assertEqual(
            [client.ask(line)[0] for line in lines], ["accepted 1", "accepted 2", "accepted 3"]
        )
        self.assertEqual(client.ask("flush"), ["acknowledged 3"])
        client.close()
        self.check_calls(server.ended(), 7)
        calls = [
            it.name
            for it in read_record(self.path("record")) if it.name in ("pwrite", "fdatasync", "send")
        ]
        # The opening makes one sync. A put writes its row and then its commit byte, each settled.
        self.assertEqual(
            calls,
            ["fdatasync"] + ["pwrite", "fdatasync", "pwrite", "fdatasync", "send"] * 3 + ["send"],
        )

    def check_failure(self, fault, words, found):
        """The flush of a put fails with this fault, and the store takes nothing more."""
        server = self.serve("--sessions", 1, "--stay", env=watching(self, fail=fault))
        client = self.client(server)
        self.assertEqual(client.ask("put =abc 0102"), ["unsettled 1"])
        note = f"silt: {words}; the store takes nothing more until it is opened again\n"
        self.wait_until(lambda: server.errors(), "a note of the failure")
        self.assertEqual((server.errors(), server.is_running()), (note, True))
        self.assertEqual(
            client.ask("put =pear 0304", "flush", "get =abc", "delete =abc"),
            ["refused 9 Failed"] * 4,
        )
        client.close()
        ended = server.ended()
        self.assertEqual((ended.status, ended.err), (1, note + f"silt: store: {words}\n"), ended)
        self.check_whole()
        self.assertIn(self.found("=abc")[0], found)
        self.assertEqual(self.found("=pear"), ["absent"])

    def test_the_flush_of_a_swap_fails(self):
        """Sync 1 is the opening's, and the put has two. The reply to a swap that differs waits for
        no sync of its own."""
        server = self.serve("--sessions", 1, "--stay", env=watching(self, fail="fdatasync:4:EIO"))
        client = self.client(server)
        lines = ["put =abc 0102", "swap =abc 0000 0304", "swap =abc 0102 0304"]
        self.assertEqual(
            [client.ask(it) for it in lines], [["accepted 1"], ["differs"], ["unsettled 2"]]
        )
        self.assertEqual(client.ask(*lines[1:], "flush"), ["refused 9 Failed"] * 3)
        client.close()
        self.assertEqual(server.ended().status, 1)
        self.check_whole()
        self.assertIn(self.found("=abc")[0], {"value 0102", "value 0304"})

    def test_the_sync_of_a_row_fails(self):
        self.check_failure(
            "fdatasync:2:EIO", "a sync: Input/output error (os error 5)", {"absent", "value 0102"}
        )

    def test_the_sync_of_a_commit_byte_fails(self):
        words = "a sync: No space left on device (os error 28)"
        self.check_failure("fdatasync:3:ENOSPC", words, {"absent", "value 0102"})

    def test_the_write_of_a_row_fails(self):
        # A write is made at the sync that settles it, and is reported with its own offset.
        self.check_failure(
            "pwrite:1:ENOSPC", "a write at 16384: No space left on device (os error 28)", {"absent"}
        )

    def test_many_clients_of_a_flush_that_fails(self):
        self.store(ROOMY, name="roomy")
        server = self.serve("--stay", name="roomy", env=watching(self, fail="fdatasync:2+:EIO"))
        clients = self.clients(server, 8)
        for number, client in enumerate(clients):
            client.send(f"put =client/{number} 0001", "flush")
        replies = [client.replies(2) for client in clients]
        puts = sorted(put for put, _ in replies)
        unsettled = [
            f"unsettled {it}" for it in range(1, 1 + sum(it.startswith("unsettled") for it in puts))
        ]
        self.assertEqual(puts, ["refused 9 Failed"] * (8 - len(unsettled)) + unsettled)
        self.assertGreaterEqual(len(unsettled), 1)
        self.assertEqual({flush for _, flush in replies}, {"refused 9 Failed"})

    def test_a_read_that_fails(self):
        # The opening makes five reads, one of the mark of a shard, and the put of the first key none.
        server = self.serve(env=watching(self, fail="pread:6:EIO"))
        client = self.client(server)
        self.assertEqual(client.ask("put =abc 0102"), ["accepted 1"])
        replies = client.ask(*["get =abc"] * 8)
        self.assertEqual(sorted(replies), ["refused 5 Device"] + ["value 0102"] * 7)
        self.assertEqual(client.ask("put =pear 0102", "get =pear"), ["accepted 2", "value 0102"])


class Limits(ServedCase):
    """Limits of the process: the length of its files and the number of its descriptors."""

    def setUp(self):
        super().setUp()
        self.store(SMALL)

    def limited(self, is_signal_ignored):
        """A server that may not write where its logs are, and a client."""
        def limit():
            signal.signal(signal.SIGXFSZ, signal.SIG_IGN if is_signal_ignored else signal.SIG_DFL)
            resource.setrlimit(resource.RLIMIT_FSIZE, (16384, 16384))

        server = self.serve("--sessions", 1, "--stay", preexec_fn=limit, restore_signals=False)
        return server, self.client(server)

    def test_a_file_that_may_not_be_so_long(self):
        server, client = self.limited(is_signal_ignored=True)
        replies = client.ask("put =abc 0102", "put =pear 0304", "get =abc")
        self.assertEqual(replies, ["unsettled 1"] + ["refused 9 Failed"] * 2)
        client.close()
        ended = server.ended()
        self.assertIn("silt: store: a write at 16384: File too large (os error 27)\n", ended.err)
        self.assertEqual(ended.status, 1)
        self.check_whole()
        self.assertEqual(self.found("=abc", "=pear"), ["absent"] * 2)

    def test_a_signal_for_such_a_file(self):
        server, client = self.limited(is_signal_ignored=False)
        client.send("put =abc 0102")
        self.assertEqual(client.rest(), [])
        self.assertEqual(server.ended().status, -signal.SIGXFSZ)
        self.check_whole()
        self.assertEqual(self.found("=abc"), ["absent"])

    def test_no_descriptor_for_the_listener(self):
        def limit():
            resource.setrlimit(resource.RLIMIT_NOFILE, (UNHEARD, UNHEARD))

        ended = self.begin("store", 0, preexec_fn=limit).ended()
        self.assertEqual((ended.status, ended.out), (1, "opened\nnetwork fault\n"), ended)
        self.assertEqual(ended.err, "silt: 127.0.0.1:0: Too many open files (os error 24)\n")

    def ended_without_output(self, stdout):
        """How a server ends whose output goes where it cannot be written."""
        running = self.start("serve", "store", 0, stdin=subprocess.DEVNULL, stdout=stdout)
        _, errors = running.communicate(timeout=TIME_LIMIT)
        return running.returncode, without_note(errors.decode())

    def test_output_that_cannot_be_written(self):
        with open("/dev/full", "wb") as full:
            self.assertEqual(
                self.ended_without_output(full),
                (1, "silt: No space left on device (os error 28)\n"),
            )
        reading, writing = os.pipe()
        os.close(reading)
        self.assertEqual(self.ended_without_output(writing), (1, ""))
        os.close(writing)
        self.check_whole()

    def crowded(self, places):
        """A server with descriptors for so many clients, these clients, and one more, which gets no
        reply for now."""
        server = self.serve()
        most = DESCRIPTORS + places
        resource.prlimit(server.process.pid, resource.RLIMIT_NOFILE, (most, 1024))
        clients = self.clients(server, places)
        for number, client in enumerate(clients):
            self.assertEqual(client.ask(f"put {digits(number)} 0001"), [f"accepted {number + 1}"])
        late = self.client(server)
        late.send("get =late")
        self.assertFalse(late.is_answered(patience=0.3))
        return server, clients, late

    def test_sessions_go_on_without_descriptors(self):
        server, clients, _ = self.crowded(4)
        for number, client in enumerate(clients):
            lines = (f"get {digits(number)}", f"delete {digits(number)}", "flush")
            self.assertEqual(
                client.ask(*lines),
                ["value 0001", f"accepted {number + 5}", f"acknowledged {number + 5}"],
            )
        self.assertTrue(server.is_running())

    def test_a_descriptor_that_is_given_back_serves_the_client_that_waits(self):
        server, clients, late = self.crowded(4)
        clients[0].close()
        late.socket.settimeout(TIME_LIMIT)
        self.assertEqual(late.reply(), "absent")
        self.assertTrue(server.is_running())

    def test_more_descriptors_serve_more_clients(self):
        server, _, late = self.crowded(4)
        resource.prlimit(server.process.pid, resource.RLIMIT_NOFILE, (1024, 1024))
        late.socket.settimeout(TIME_LIMIT)
        self.assertEqual(late.reply(), "absent")
        for _ in range(8):
            self.served_client(server)


class Accepting(ServedCase):
    """An accept that fails."""

    def setUp(self):
        super().setUp()
        self.store(SMALL)

    def check_passing(self, *errors):
        """The server goes on after an accept that failed with one of these errors, and does not
        count it."""
        for error in errors:
            server = self.serve(
                "--sessions", 2, env=watching(self, fail=[f"accept:1:{error}", f"accept:3:{error}"])
            )
            for _ in range(2):
                self.served_client(server).close()
            self.check_calls(server.ended(), 0)

    def test_a_connection_that_is_gone(self):
        self.check_passing("ECONNABORTED", "ECONNRESET", "EINTR")

    def test_a_passing_lack_of_descriptors(self):
        self.check_passing("EMFILE", "ENFILE")

    def test_a_passing_lack_of_memory(self):
        self.check_passing("ENOMEM")

    def test_a_cause_that_may_pass(self):
        self.check_passing("EPERM", "EPROTO", "ENETDOWN")

    def noted(self, error):
        """What a server of port 0 writes for people whose first three accepts fail so."""
        server = self.serve(
            "--sessions", 1, env=watching(self, fail=[f"accept:{it}:{error}" for it in (1, 2, 3)])
        )
        self.served_client(server).close()
        return server.ended().err

    def test_a_cause_that_people_should_know_is_noted_once(self):
        note = "a connection is not accepted: Operation not permitted (os error 1); the server tries again"
        self.assertEqual(self.noted("EPERM"), f"silt: 127.0.0.1:0: {note}\n")

    def test_a_connection_that_is_gone_is_not_noted(self):
        for error in ("ECONNABORTED", "EMFILE"):
            self.assertEqual(self.noted(error), "")

    def gone(self):
        """How a server ends whose listener fails for good, while one session goes on."""
        server = self.serve(env=watching(self, fail="accept:2+:EINVAL"))
        client = self.client(server)
        self.assertEqual(client.ask("put =abc 0102", "get =abc"), ["accepted 1", "value 0102"])
        client.close()
        return server.ended()

    def test_a_listener_that_is_gone(self):
        ended = self.gone()
        self.assertEqual((ended.status, ended.lines[2:]), (1, ["network fault"]), ended)
        self.check_whole()
        self.assertEqual(self.found("=abc"), ["value 0102"])

    def test_a_listener_that_is_gone_at_once(self):
        for options in ([], ["--audit", 10]):
            server = self.serve(*options, env=watching(self, fail="accept:1+:EINVAL"))
            lines = ["opened", f"listening {server.port}", "network fault"]
            ended = server.ended()
            self.assertEqual((ended.status, ended.lines), (1, lines), ended)
            self.check_empty()

    def test_the_cause_is_reported(self):
        self.assertIn("Invalid argument (os error 22)", self.gone().err)


class Threads(ServedCase):
    """A thread that cannot be started. The first is that of the care, then come the merger's, the
    converter's, the writer's, the replier's, and those of the sessions."""

    def setUp(self):
        super().setUp()
        self.store(SMALL)

    def test_threads_of_sessions(self):
        sessions = range(FIRST_SESSION, FIRST_SESSION + MOST_SESSIONS)
        faults = [f"thread:{it}:EAGAIN" for it in sessions]
        server = self.serve("--sessions", 2, env=watching(self, fail=faults))
        for _ in range(MOST_SESSIONS):
            client = self.client(server)
            self.assertEqual(client.reply(), "busy: the system gives no thread")
            self.assertIsNone(client.reply())
            client.close()
        clients = self.clients(server, 2)
        self.assertEqual([it.ask("get =abc") for it in clients], [["absent"]] * 2)
        for client in clients:
            client.close()
        self.check_calls(server.ended(), 0)

    def check_refused(self, *faults):
        ended = self.begin("store", 0, env=watching(self, fail=list(faults))).ended()
        self.assertEqual(
            (ended.status, ended.lines[0], ended.lines[2:]),
            (1, "opened", ["refused 6 NoMemory"]),
            ended,
        )
        self.check_whole()

    def test_a_thread_that_no_server_can_do_without(self):
        for thread in (CARE, MERGER, CONVERTER, WRITER):
            with self.subTest(thread):
                self.check_refused(f"thread:{thread}:EAGAIN")

    def test_no_thread_at_all(self):
        self.check_refused("thread:1+:EAGAIN")

    def test_the_thread_of_the_replier(self):
        server = self.serve("--sessions", 1, env=watching(self, fail=f"thread:{REPLIER}:EAGAIN"))
        client = self.client(server)
        self.assertEqual(client.ask(*FIVE_PUTS), [f"accepted {it}" for it in range(1, 6)])
        client.close()
        self.check_calls(server.ended(), 32)
        numbers = self.check_whole()
        self.assertEqual(
            (numbers["generation"], numbers["sorted entries"], numbers["charge"]), (3, 4, 5)
        )


class Workers(ServedCase):
    """A step of a worker that is refused."""

    def setUp(self):
        super().setUp()
        self.store(SMALL)

    def check_tried_again(self, worker):
        """The worker does its work in the end, though its first reads fail, more of them than commands come."""
        faults = [f"pread@{worker}:{it}:EIO" for it in range(1, 8)]
        server = self.serve(env=watching(self, fail=faults))
        client = self.client(server)
        self.assertEqual(client.ask(*FIVE_PUTS), [f"accepted {it}" for it in range(1, 6)])
        self.wait_until(lambda: self.merged() == 4, "the work of both workers")
        self.assertTrue(server.is_running())

    def merged(self):
        """How many entries of the sorted store a copy of the store's file has."""
        self.path("copy").write_bytes(self.path("store").read_bytes())
        return self.check_whole("copy")["sorted entries"]

    def test_a_read_of_the_converter(self):
        self.check_tried_again(CONVERTER)

    def test_a_read_of_the_merger(self):
        self.check_tried_again(MERGER)


class Sessions(ServedCase):
    """A connection that fails ends its own session alone."""

    def setUp(self):
        super().setUp()
        self.store(ROOMY)

    def check_alone(self, fault, found):
        server = self.serve("--sessions", 2, env=watching(self, fail=fault))
        client = self.client(server)
        client.send("put =abc 0102", "get =abc")
        self.assertEqual(client.rest(), [])
        other = self.client(server)
        self.assertIn(other.ask("get =abc")[0], found)
        self.assertEqual(other.ask("put =abc 0304", "get =abc")[1], "value 0304")
        other.close()
        self.assertEqual(server.ended().status, 0)
        self.assertEqual(self.found("=abc"), ["value 0304"])

    def test_a_reply_that_cannot_be_sent(self):
        self.check_alone("send:1:EPIPE", {"value 0102"})
        self.check_alone("send:1:ECONNRESET", {"value 0102"})

    def test_lines_that_cannot_be_received(self):
        self.check_alone("recv:1:ECONNRESET", {"absent"})

    def test_calls_that_are_interrupted(self):
        server = self.serve(
            "--sessions",
            1,
            env=watching(self, fail=["send:1:EINTR", "recv:1:EINTR", "recv:3:EINTR"]),
        )
        client = self.client(server)
        self.assertEqual(client.ask("put =abc 0102", "get =abc"), ["accepted 1", "value 0102"])
        self.assertEqual(client.ask("get =abc"), ["value 0102"])
        client.close()
        self.check_calls(server.ended(), 2)

    def test_replies_that_are_sent_in_parts(self):
        server = self.serve(
            "--sessions", 1, env=watching(self, short=[f"send:{it}" for it in range(1, 9)])
        )
        client = self.client(server)
        self.assertEqual(client.ask("put =abc 0102", "get =abc"), ["accepted 1", "value 0102"])
        client.close()
        self.check_calls(server.ended(), 2)


if __name__ == "__main__":
    unittest.main()
