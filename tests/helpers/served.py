"""A server under test and its clients.

A `Server` is a running `silt serve`. A `Client` is one connection to it. `ServedCase` starts both,
and ends them with the test.
"""
import os
import pathlib
import select
import signal
import socket
import struct
import subprocess
import threading
import time

from harness import TIME_LIMIT, Ended, without_note
from watch import WatchedCase

# Logs of four rows: the fifth put freezes one, and background work begins.
SMALL = "2 2 4 2 2 8"
# A store that takes some thousand puts.
ROOMY = "2 16 64 8 16 4000"
# The descriptors of a server before it listens: three streams and the store's file.
UNHEARD = 4
# And those of a server without connections: the listener, and the file once more for early syncs.
DESCRIPTORS = UNHEARD + 2
# The number of sessions that a server has at once.
MOST_SESSIONS = 64
# What a connection reads for which there is no place, without its line feed.
BUSY = f"busy: {MOST_SESSIONS} connections are served already"
# A wait for room, in seconds, that no test lives to see the end of.
FOREVER = 10 * TIME_LIMIT
# The threads of a server, by the order of their starts.
CARE = 1
MERGER = 2
CONVERTER = 3
WRITER = 4
REPLIER = 5
FIRST_SESSION = 6
# The number of the system call in which a thread waits for another one.
FUTEX = "202"
# The longest line, without its line feed.
LONGEST_LINE = 16600


class Client:
    """A connection to a server: it sends lines and receives replies."""

    def __init__(self, port, address="127.0.0.1", limit=TIME_LIMIT):
        self.limit = limit
        self.socket = socket.create_connection((address, port), timeout=limit)
        self.socket.setsockopt(socket.IPPROTO_TCP, socket.TCP_NODELAY, 1)
        self.received = bytearray()
        self.broke = None

    def send(self, *lines):
        """Sends these lines in one write."""
        self.send_bytes("".join(line + "\n" for line in lines).encode())

    def send_bytes(self, data):
        self.socket.sendall(data)

    def receive(self):
        """Receives some bytes, and returns whether there were any. A reset counts as an end, and is
        kept in `broke`."""
        try:
            data = self.socket.recv(1 << 16)
        except (ConnectionResetError, BrokenPipeError) as broke:
            self.broke = broke
            data = b""
        self.received += data
        return data != b""

    def reply(self):
        """The next reply without its line feed. None if the server closed the connection first."""
        while (end := self.received.find(b"\n")) < 0:
            if not self.receive():
                return None
        line = self.received[:end].decode()
        del self.received[: end + 1]
        return line

    def is_answered(self, patience):
        """Whether a reply comes within so many seconds. That there is no place is none."""
        self.socket.settimeout(patience)
        try:
            return self.reply() not in (None, BUSY)
        except TimeoutError:
            return False
        finally:
            self.socket.settimeout(self.limit)

    def replies(self, count):
        return [self.reply() for _ in range(count)]

    def ask(self, *lines):
        """Sends these lines in one write, and returns as many replies."""
        self.send(*lines)
        return self.replies(len(lines))

    def end_input(self):
        """Ends what the client sends. The server replies to all lines and closes."""
        self.socket.shutdown(socket.SHUT_WR)

    def rest(self):
        """All replies until the server closes the connection."""
        while self.receive():
            pass
        text = self.received.decode()
        self.received = bytearray()
        return text.splitlines()

    def exchange(self, lines):
        """Sends these lines in one write and ends the input, and reads meanwhile. All replies. The
        server has to read all lines and to end the connection by itself: one that breaks is an
        error."""
        sending = threading.Thread(target=self.send_all, args=(lines,))
        sending.start()
        replies = self.rest()
        sending.join()
        if self.broke:
            raise ConnectionError(
                f"{len(replies)} replies to {len(lines)} lines, and then: {self.broke!r}"
            )
        return replies

    def send_all(self, lines):
        """Sends these lines, and ends the input. An error is kept in `broke`."""
        try:
            self.send(*lines)
            self.end_input()
        except OSError as broke:
            self.broke = broke

    def close(self):
        self.socket.close()

    def reset(self):
        """Closes the connection with a reset, as a client that crashed."""
        self.socket.setsockopt(socket.SOL_SOCKET, socket.SO_LINGER, struct.pack("ii", 1, 0))
        self.socket.close()


class Server:
    """A running `silt serve`. Its output is read as it comes; its error output goes to a file."""

    def __init__(self, case, words, env, how):
        self.case = case
        self.printed = b""
        self.error_file = case.path(f"errors of {time.monotonic_ns()}")
        with open(self.error_file, "wb") as errors:
            how = {"stdin": subprocess.DEVNULL, "stderr": errors} | how
            self.process = case.start("serve", *words, env=env, **how)
        case.addCleanup(self.kill)

    def line(self, number):
        """The line of its output with this number, from 0. None if the output ended before it."""
        by = time.monotonic() + TIME_LIMIT
        while self.printed.count(b"\n") <= number:
            if not select.select([self.process.stdout], [], [], max(0, by - time.monotonic()))[0]:
                self.case.fail(
                    f"the server printed {self.printed}, and nothing more in {TIME_LIMIT} seconds"
                )
            data = os.read(self.process.stdout.fileno(), 1 << 16)
            if not data:
                return None
            self.printed += data
        return self.printed.decode().splitlines()[number]

    def listen(self):
        """Waits until it listens. Returns itself."""
        self.case.assertEqual(self.line(0), "opened", self.errors())
        words = (self.line(1) or "").split()
        self.case.assertEqual(words[:1], ["listening"], self.printed)
        self.port = int(words[1])
        return self

    def errors(self):
        return without_note(self.error_file.read_text(errors="replace"))

    def is_running(self):
        return self.process.poll() is None

    def awaits_another(self, thread):
        """Whether its thread with this number waits for another one. That of a session does so when
        it has handed its lines to the writer."""
        folder = pathlib.Path(f"/proc/{self.process.pid}/task")
        tasks = sorted(int(it.name) for it in folder.iterdir())
        place = thread - CARE  # the thread of the care ends at once
        if place >= len(tasks):
            return False  # it has not started
        return (folder / str(tasks[place]) / "syscall").read_text().split()[0] == FUTEX

    def send_signal(self, number):
        self.process.send_signal(number)

    def ended(self, limit=TIME_LIMIT):
        """Waits until it ends, and returns how, with all that it printed."""
        try:
            rest, _ = self.process.communicate(timeout=limit)
        except subprocess.TimeoutExpired:
            self.case.fail(f"the server did not end in {limit} seconds; it printed {self.printed}")
        self.printed += rest
        return Ended(self.process.returncode, self.printed.decode(), self.errors())

    def kill(self):
        """Ends it as a crash of the process does, and returns how it ended."""
        if self.process.stdout.closed:
            return None
        self.process.kill()
        return self.ended()


class ServedCase(WatchedCase):
    """A test with servers and clients, which end with it."""

    # The options that each server of the test has.
    options = ()
    # Those with which a command waits for room as long as it takes.
    patient = ("--wait", FOREVER)

    def setUp(self):
        super().setUp()
        # A shell starts a background job with this signal ignored, which the server would inherit.
        signal.signal(signal.SIGINT, signal.default_int_handler)

    def begin(self, *words, env=None, **how):
        """Starts `silt serve` with these words, and waits for nothing."""
        return Server(self, words, env, how)

    def serve(self, *options, name="store", port=0, env=None, **how):
        """A server of this store, which listens."""
        return self.begin(name, port, *self.options, *options, env=env, **how).listen()

    def client(self, server):
        client = Client(server.port)
        self.addCleanup(client.close)
        return client

    def clients(self, server, count):
        return [self.client(server) for _ in range(count)]

    def served_client(self, server, limit=TIME_LIMIT, patience=TIME_LIMIT):
        """A client that has a session. It connects again if it is closed, or if it has waited for
        its first reply for so many seconds."""
        for _ in self.turns("a session for a client", limit):
            client = self.client(server)
            client.send("get =nothing")
            if client.is_answered(patience):
                return client
            client.close()

    def turns(self, what, limit=TIME_LIMIT):
        """Turns of a loop that waits for something. It fails when that takes too long."""
        by = time.monotonic() + limit
        while time.monotonic() < by:
            yield
            time.sleep(0.01)
        self.fail(f"waited {limit} seconds for {what}")

    def wait_until(self, holds, what, limit=TIME_LIMIT):
        for _ in self.turns(what, limit):
            if holds():
                return

    def check_calls(self, ended, calls):
        """The server ended well after so many calls."""
        self.assertEqual(ended.status, 0, ended)
        self.assertEqual(ended.lines[-1], f"calls {calls}", ended)

    def report(self, *lines, name="store"):
        """`check` prints these lines."""
        checked = self.check_report(name)
        self.assertEqual((checked.status, checked.lines), (0, list(lines)), checked)

    def check_whole(self, name="store"):
        """`check` finds the store whole. Returns its numbers by the words before them."""
        checked = self.check_report(name)
        self.assert_checked(checked, name)
        return {words: int(number) for words, number in (it.rsplit(" ", 1) for it in checked.lines)}

    def check_empty(self, name="store"):
        """`check` finds an empty store: no call has changed it."""
        numbers = self.check_whole(name)
        words = ("generation", "active log 0 rows", "sorted entries", "charge")
        self.assertEqual([numbers[it] for it in words], [0] * len(words), numbers)

    def found(self, *keys, name="store"):
        """What a new run of the store replies to gets of these keys."""
        ran = self.silt("run", name, text="".join(f"get {key}\n" for key in keys))
        self.assertEqual((ran.status, ran.lines[:1], ran.err), (0, ["opened"], ""), ran)
        return ran.lines[1:]


def digits(number):
    """A key of forty digits that begins with two digits of this number."""
    return f"{number:02}".ljust(40, "0")


def free_port():
    """A port of this machine that nobody listens on for now."""
    with socket.create_server(("127.0.0.1", 0)) as listener:
        return listener.getsockname()[1]


def listening_sockets(process):
    """Each internet socket at which a process can be reached: its protocol, and its address as
    the system writes it."""
    held = {link_of(it) for it in pathlib.Path(f"/proc/{process}/fd").iterdir()}
    found = []
    for protocol in ("tcp", "tcp6", "udp", "udp6"):
        for row in pathlib.Path(f"/proc/net/{protocol}").read_text().splitlines()[1:]:
            fields = row.split()
            is_open = fields[3] == "0A" or protocol.startswith("udp")
            if is_open and f"socket:[{fields[9]}]" in held:
                found.append((protocol, fields[1]))
    return found


def link_of(path):
    try:
        return str(path.readlink())
    except OSError:
        return ""
