"""The server: its replies letter for letter, its options, where it listens, and how it ends."""
import signal
import socket
import unittest

from served import SMALL, Client, ServedCase, digits, free_port, listening_sockets

OPENED_REPORT = [
    "active log 1 rows 1",
    "frozen logs 0 rows 0",
    "hash stores 0 rows 0",
    "sorted entries 4",
    "charge 5",
    "layout 2",
]


class Replies(ServedCase):
    """One session on a new small store."""

    def setUp(self):
        super().setUp()
        self.store(SMALL)

    def answers(self, text, *options, env=None):
        """The replies of one session to this text and the end of input, and how the server ends."""
        server = self.serve("--sessions", 1, *options, env=env)
        client = self.client(server)
        client.send_bytes(text.encode())
        client.end_input()
        return client.rest(), server.ended()

    def test_put_get_and_a_step(self):
        replies, ended = self.answers("put =abc 0102\nget =abc\nmerge\n")
        self.assertEqual(replies, ["accepted 1", "value 0102", "refused 20 BadLine"])
        self.check_calls(ended, 2)
        self.assertEqual(
            self.found("=abc", "a9993e364706816aba3e25717850c26c9cd0d89d"), ["value 0102"] * 2
        )

    def test_a_last_line_without_a_line_feed_is_not_answered(self):
        replies, ended = self.answers("put =abc 0102\nget =abc\nput =abc 0304")
        self.assertEqual(replies, ["accepted 1", "value 0102"])
        self.check_calls(ended, 2)
        self.assertEqual(self.found("=abc"), ["value 0102"])

    def test_nothing_is_sent(self):
        replies, ended = self.answers("")
        self.assertEqual((replies, ended.err), ([], ""))
        self.check_calls(ended, 0)

    def test_work_in_the_background_is_done_before_the_end(self):
        text = "".join(f"put {digits(it)} {it:04}\n" for it in range(1, 6))
        replies, ended = self.answers(text)
        self.assertEqual(replies, [f"accepted {it}" for it in range(1, 6)])
        # 5 puts, 5 flushes, 9 steps of a conversion and 13 of a merge.
        self.check_calls(ended, 32)
        self.report("generation 3", *OPENED_REPORT)
        self.assertEqual(
            self.found(*map(digits, range(1, 6))), [f"value {it:04}" for it in range(1, 6)]
        )

    def ended_after(self, *lines, end="\n"):
        """Each line, one behind the other, has the reply beside it. How the server ends."""
        replies, ended = self.answers("".join(line + end for line, _ in lines))
        self.assertEqual(replies, [reply for _, reply in lines])
        return ended

    def test_swaps(self):
        ended = self.ended_after(
            ("swap =abc 0102 0304", "differs"),
            ("put =abc 0102", "accepted 1"),
            ("swap =abc 0102 0304", "accepted 2"),
            ("swap =abc 0102 0506", "differs"),
            ("get =abc", "value 0304"),
            ("delete =abc", "accepted 3"),
            ("swap =abc 0304 0506", "differs"),
            ("flush", "acknowledged 3"),
        )
        # 6 commands, those that differ too, a flush behind each, and the flush.
        self.check_calls(ended, 13)
        self.assertEqual(self.found("=abc"), ["absent"])

    def test_swaps_from_and_to_no_value(self):
        ended = self.ended_after(
            ("swap =abc 0102 -", "differs"),
            ("swap =abc - 0102", "accepted 1"),
            ("swap =abc - 0304", "differs"),
            ("get =abc", "value 0102"),
            ("swap =abc - -", "refused 22 BadValue"),
            ("swap =abc 0102 -", "accepted 2"),
            ("get =abc", "absent"),
            ("swap =abc - 0506", "accepted 3"),
            ("flush", "acknowledged 3"),
        )
        # 5 commands, those that differ too, a flush behind each, and the flush.
        self.check_calls(ended, 11)
        self.assertEqual(self.found("=abc"), ["value 0506"])

    def test_other_lines(self):
        self.ended_after(
            ("flush", "acknowledged 0"),
            ("get =pear", "absent"),
            ("put =pear 0A0b", "accepted 1"),
            ("get =pear", "value 0a0b"),
            ("flush", "acknowledged 1"),
            ("delete =pear", "accepted 2"),
            ("get =pear", "absent"),
            ("delete =plum", "accepted 3"),
            ("convert", "refused 20 BadLine"),
            ("stop 0 old", "refused 20 BadLine"),
            ("GET =pear", "refused 20 BadLine"),
            ("get  =pear", "refused 20 BadLine"),
            ("get =", "refused 21 BadKey"),
            ("get 0123", "refused 21 BadKey"),
            ("put =pear 01", "refused 22 BadValue"),
            ("put =pear 01zz", "refused 22 BadValue"),
            ("swap =pear 0102", "refused 20 BadLine"),
            ("swap =pear 0102 0304 0506", "refused 20 BadLine"),
            ("swap = 01 02", "refused 21 BadKey"),
            ("swap =pear 01 0304", "refused 22 BadValue"),
            ("swap =pear 0102 03zz", "refused 22 BadValue"),
            ("swap =pear 0102 03", "refused 22 BadValue"),
            ("swap =pear 0102 0304", "differs"),
            ("swap =pear -", "refused 20 BadLine"),
            ("swap = - -", "refused 21 BadKey"),
            ("swap =pear - -", "refused 22 BadValue"),
            ("swap =pear - 03", "refused 22 BadValue"),
            ("swap =pear -- 0304", "refused 22 BadValue"),
            ("put =pear -", "refused 22 BadValue"),
            ("get -", "refused 21 BadKey"),
            ("swap =pear - 0C0d", "accepted 4"),
            ("get =pear", "value 0c0d"),
            ("swap =pear 0c0D -", "accepted 5"),
            ("get =pear", "absent"),
            end="\r\n\n\r\n",
        )

    def test_store_full(self):
        server = self.serve("--sessions", 1)
        client = self.client(server)
        replies = [client.ask(f"put {digits(it)} 0001")[0] for it in range(1, 9)]
        self.assertEqual(replies, [f"accepted {it}" for it in range(1, 9)])
        self.assertEqual(
            client.ask(f"put {digits(9)} 0001", f"put {digits(1)} 0002"),
            ["refused 7 StoreFull"] * 2,
        )
        swaps = (
            [f"swap {digits(1)} {old} 0002" for old in ("0001", "0002", "-")]
            + [f"swap {digits(9)} - 0001"]
        )
        self.assertEqual(
            client.ask(*swaps), ["refused 7 StoreFull", "differs", "differs", "refused 7 StoreFull"]
        )
        # A delete is taken as soon as a conversion has made room for its row.
        for _ in self.turns("room for a delete"):
            reply, found = client.ask(f"delete {digits(1)}", f"get {digits(1)}")
            if reply != "refused 8 NoRoom":
                break
            self.assertEqual(found, "value 0001")
        self.assertEqual((reply, found), ("accepted 9", "absent"))
        client.close()
        self.assertEqual(server.ended().status, 0)

    def test_a_file_without_a_store(self):
        self.path("other").write_bytes(bytes(45056))
        for name, reply in (("other", "refused 1 NotFormatted"), ("nothing", "refused 5 Device")):
            ended = self.begin(name, 0).ended()
            self.assertEqual((ended.status, ended.lines), (1, [reply]), ended)

    def test_a_served_file_has_one_owner(self):
        server = self.serve()
        for words in ("run store", "check store", "serve store 0", f"format store {SMALL}"):
            refused = self.silt(*words.split())
            self.assertEqual((refused.status, refused.out), (1, "refused 5 Device\n"), words)
        self.assertEqual(self.client(server).ask("put =abc 0102"), ["accepted 1"])


class Options(ServedCase):
    def setUp(self):
        super().setUp()
        self.store(SMALL)

    def test_a_record_that_is_full(self):
        server = self.serve("--audit", 4, "--sessions", 1)
        client = self.client(server)
        self.assertEqual(
            [client.ask(f"put {digits(it)} 0001")[0] for it in (1, 2)], ["accepted 1", "accepted 2"]
        )
        lines = [
            f"put {digits(3)} 0001",
            "flush",
            f"delete {digits(1)}",
            f"swap {digits(1)} 0001 0002",
            f"swap {digits(1)} 0003 0002",
            f"swap {digits(1)} 0001 -",
            f"swap {digits(3)} - 0001",
            f"get {digits(1)}",
            f"get {digits(3)}",
        ]
        self.assertEqual(
            client.ask(*lines), ["refused 11 HistoryFull"] * 7 + ["value 0001", "absent"]
        )
        client.close()
        self.check_calls(server.ended(), 4)
        self.assertEqual(self.check_whole()["charge"], 2)

    def test_a_record_that_is_full_behind_a_put(self):
        server = self.serve("--sessions", 1, "--audit", 3)
        client = self.client(server)
        replies = [client.ask(f"put {digits(it)} 0001")[0] for it in (1, 2, 3)]
        self.assertEqual(replies, ["accepted 1", "unsettled 2", "refused 11 HistoryFull"])
        client.close()
        self.check_calls(server.ended(), 3)

    def test_an_empty_record(self):
        client = self.client(self.serve("--audit=0"))
        self.assertEqual(
            client.ask(f"put {digits(1)} 0001", f"get {digits(1)}"),
            ["refused 11 HistoryFull", "absent"],
        )

    def test_a_record_with_room(self):
        server = self.serve("--audit", 32, "--sessions", 1)
        client = self.client(server)
        client.send(*(f"put {digits(it)} 0001" for it in range(1, 6)))
        client.end_input()
        self.assertEqual(client.rest(), [f"accepted {it}" for it in range(1, 6)])
        self.check_calls(server.ended(), 32)
        self.report("generation 3", *OPENED_REPORT)

    def test_options_at_each_place(self):
        orders = [
            ["--sessions", 1, "--audit", 2, "store", 0],
            ["--audit", 2, "store", "--sessions", 1, 0],
            ["store", "--audit=2", 0, "--sessions=1"],
            ["store", 0, "--sessions", 1, "--audit", 2],
        ]
        for number, words in enumerate(orders):
            server = self.begin(*words).listen()
            client = self.client(server)
            line = f"put {digits(number)} 0001"
            self.assertEqual(client.ask(line), ["accepted 1"], words)
            self.assertEqual(client.ask(line), ["refused 11 HistoryFull"], words)
            client.close()
            self.check_calls(server.ended(), 2)

    def test_sessions_are_counted(self):
        server = self.serve("--sessions", 3)
        for number in range(1, 4):
            self.assertTrue(server.is_running())
            client = self.client(server)
            self.assertEqual(client.ask(f"put {digits(number)} 0001"), [f"accepted {number}"])
            if number < 3:
                client.close()
        late = self.client(server)
        late.send("get =abc")
        self.assertEqual(client.ask("get =abc"), ["absent"])
        self.assertTrue(server.is_running())
        client.close()
        self.check_calls(server.ended(), 6)
        self.assertEqual(late.rest(), [])

    def test_sessions_side_by_side_are_counted(self):
        server = self.serve("--sessions", 3)
        clients = self.clients(server, 3)
        self.assertEqual([it.ask("get =abc") for it in clients], [["absent"]] * 3)
        for client in clients[:2]:
            client.close()
        self.assertEqual(clients[2].ask("put =abc 0001"), ["accepted 1"])
        self.assertTrue(server.is_running())
        clients[2].close()
        self.check_calls(server.ended(), 2)

    def test_no_number_of_sessions_ends_it(self):
        for options in ([], ["--sessions", 0]):
            server = self.serve(*options)
            for _ in range(10):
                client = self.client(server)
                self.assertEqual(client.ask("get =abc"), ["absent"])
                client.close()
            self.assertTrue(server.is_running())
            server.kill()


def own_address():
    """The address at which other machines reach this one. None if there is none. Sends nothing."""
    with socket.socket(socket.AF_INET, socket.SOCK_DGRAM) as asking:
        try:
            asking.connect(("192.0.2.1", 9))
        except OSError:
            return None
        return asking.getsockname()[0]


class Listening(ServedCase):
    def setUp(self):
        super().setUp()
        self.store(SMALL)

    def test_it_listens_on_this_machine_alone(self):
        server = self.serve()
        self.assertEqual(
            listening_sockets(server.process.pid), [("tcp", f"0100007F:{server.port:04X}")]
        )
        for address in ("127.0.0.2", "::1", own_address()):
            if address is None or (address == "::1" and not socket.has_ipv6):
                continue
            with self.assertRaises(OSError, msg=address):
                Client(server.port, address, limit=5).close()
        self.assertEqual(self.client(server).ask("get =abc"), ["absent"])

    def test_a_given_port(self):
        port = free_port()
        server = self.serve(port=port)
        self.assertEqual(server.port, port)
        self.assertEqual(self.client(server).ask("get =abc"), ["absent"])

    def test_a_port_is_free_again(self):
        port = free_port()
        for number in range(1, 4):
            server = self.serve("--sessions", 1, port=port)
            client = self.client(server)
            self.assertEqual(client.ask(f"put {digits(number)} 0001"), ["accepted 1"])
            client.close()
            self.check_calls(server.ended(), 2)

    def test_a_port_in_use(self):
        with socket.create_server(("127.0.0.1", 0)) as listener:
            port = listener.getsockname()[1]
            ended = self.begin("store", port).ended()
        self.assertEqual((ended.status, ended.out), (1, "opened\nnetwork fault\n"), ended)
        self.assertEqual(
            ended.err, f"silt: 127.0.0.1:{port}: Address already in use (os error 98)\n"
        )
        self.check_empty()

    def test_ports_out_of_limits(self):
        for port in ("65536", "-1", "x", ""):
            ended = self.silt("serve", "store", port)
            self.assertEqual((ended.status, ended.out), (2, "usage\n"), port)


class Signals(ServedCase):
    def setUp(self):
        super().setUp()
        self.store(SMALL)

    def check_signal(self, number):
        server = self.serve()
        client, waiting = self.clients(server, 2)
        waiting.send_bytes(b"put =half 01")
        accepted = client.ask(*(f"put {digits(it)} {it:04}" for it in range(1, 6)))
        self.assertEqual(accepted, [f"accepted {it}" for it in range(1, 6)])
        server.send_signal(number)
        ended = server.ended()
        self.assertEqual((ended.status, ended.err), (-number, ""), ended)
        self.assertEqual(client.rest() + waiting.rest(), [])
        self.check_whole()
        found = self.found(*map(digits, range(1, 6)), "=half")
        self.assertEqual(found, [f"value {it:04}" for it in range(1, 6)] + ["absent"])

    def test_terminated(self):
        self.check_signal(signal.SIGTERM)

    def test_interrupted(self):
        self.check_signal(signal.SIGINT)


if __name__ == "__main__":
    unittest.main()
