"""Clients that write all the time to a server that is killed, and know what it has to keep."""
import itertools
import threading

from harness import TIME_LIMIT
from served import ServedCase

# Logs of eight rows and few regions, so that freezes, conversions and merges go on all the time.
BUSY = "4 4 8 4 3 200"
CLIENTS = 4
KEYS = 6


class Writer:
    """A client with keys of its own. It knows their values by its accepted commands, and the
    commands that have no reply yet.

    It sends `burst` commands in one write, and then waits for replies until `ahead` are due."""

    def __init__(self, number, random, burst=1, ahead=0):
        self.number = number
        self.random = random
        self.burst = burst
        self.ahead = ahead
        self.values = {f"=client/{number}/{key}": "absent" for key in range(KEYS)}
        # The commands without a reply, in their order: the word of the due reply, the key and its
        # value then.
        self.pending = []
        self.turn = 0
        self.wrong = []

    def next_command(self, values):
        """A line, and the command that it makes of these values: a put of a new value, or now and
        then a delete, a swap that differs, or one that does not, from or to no value too."""
        self.turn += 1
        key = self.random.choice(list(values))
        now = values[key]
        new = f"{self.number:02x}{self.turn:06x}"
        old = "-" if now == "absent" else now.split()[1]
        kind = self.random.randrange(7)
        if kind == 0:
            return f"delete {key}", ("accepted", key, "absent")
        if kind == 1 and old != "-":
            return f"swap {key} {old} -", ("accepted", key, "absent")
        if kind == 2:
            return f"swap {key} ffffffff {new}", ("differs", key, now)
        line = f"swap {key} {old} {new}" if kind == 3 else f"put {key} {new}"
        return line, ("accepted", key, f"value {new}")

    def next_lines(self):
        """The lines of one write. Their commands are pending."""
        values = self.states()[-1]
        lines = []
        for _ in range(self.burst):
            line, command = self.next_command(values)
            _, key, value = command
            values = {**values, key: value}
            self.pending.append(command)
            lines.append(line)
        return lines

    def states(self):
        """The values after none of the pending commands, the first, the first two, and so on."""
        changes = ({key: value} for _, key, value in self.pending)
        return list(
            itertools.accumulate(changes, lambda values, it: {**values, **it}, initial=self.values)
        )

    def run(self, client, counted):
        """Sends commands and takes replies until the connection breaks."""
        try:
            while True:
                client.send(*self.next_lines())
                while len(self.pending) > self.ahead:
                    reply = client.reply()
                    if reply is None:
                        return
                    if self.take(reply):
                        counted()
        except OSError:
            pass

    def take(self, reply):
        """Notes the reply to the first pending command, and returns whether it was done. It may be
        refused only if no later one was sent, since that relies on it."""
        due, key, value = self.pending.pop(0)
        if reply.split()[0] == due:
            self.values[key] = value
            return True
        if self.ahead or reply not in ("refused 7 StoreFull", "refused 8 NoRoom"):
            self.wrong.append(reply)
        return False

    def find(self, found):
        """Takes over the values that a run found. Returns what they differ from: they are those
        after the commands that have replies, and some first pending ones."""
        states = self.states()
        self.values = found
        self.pending = []
        return [] if found in states else states


class Remembering(Writer):
    """A client that remembers all its commands. So it can say which states its keys ever had."""

    def __init__(self, *how):
        super().__init__(*how)
        # The commands that had their replies, in their order.
        self.done = []

    def take(self, reply):
        command = self.pending[0]
        was_done = super().take(reply)
        if was_done:
            self.done.append(command)
        return was_done

    def accepted(self, count):
        """How many of so many first commands changed something."""
        return sum(due == "accepted" for due, _, _ in self.done[:count])

    def has_been(self, found, first=0):
        """Whether these are the values after a beginning of its commands, which has at least so many
        that had their replies."""
        values = dict.fromkeys(self.values, "absent")
        for number, (_, key, value) in enumerate([*self.done, *self.pending]):
            if number >= first and values == found:
                return True
            values[key] = value
        return values == found


class InTurn(Remembering):
    """One that puts a new value to each of these keys in turn, and waits for each reply."""

    def __init__(self, number, names):
        super().__init__(number, None)
        self.values = dict.fromkeys(names, "absent")

    def next_command(self, values):
        key = list(values)[self.turn % len(values)]
        self.turn += 1
        new = f"{self.number:02x}{self.turn:06x}"
        return f"put {key} {new}", ("accepted", key, f"value {new}")


class Load:
    """Clients that write to a server in threads, until the server ends. Commands that are refused
    do not count: so whoever waits for many has waited for the background work that makes room for
    them."""

    def __init__(self, case, server, writers):
        self.lock = threading.Lock()
        self.count = 0
        self.least = 0
        self.reached = threading.Event()
        self.threads = [
            threading.Thread(target=it.run, args=(case.client(server), self.note)) for it in writers
        ]
        for thread in self.threads:
            thread.start()

    def note(self):
        """One more command was done."""
        with self.lock:
            self.count += 1
            if self.count >= self.least:
                self.reached.set()

    def wait(self, count, limit):
        """Waits until so many commands were done."""
        with self.lock:
            self.least = count
            if self.count < count:
                self.reached.clear()
        return self.reached.wait(limit)

    def join(self):
        for thread in self.threads:
            thread.join()


class KillCase(ServedCase):
    """A server of a store with such numbers and options, and its clients."""

    geometry = BUSY
    # What each client sends in one write, and how many replies may be due when it sends again.
    burst, ahead = 1, 0

    def setUp(self):
        super().setUp()
        self.store(self.geometry)
        self.writers = [Writer(it, self.random, self.burst, self.ahead) for it in range(CLIENTS)]

    def load_and_end(self, most, number):
        """Loads a server, and sends it this signal after a random number of commands."""
        server = self.serve()
        load = Load(self, server, self.writers)
        count = self.random.randrange(1, most)
        self.assertTrue(load.wait(count, limit=2 * TIME_LIMIT), (count, server.errors()))
        server.send_signal(number)
        ended = server.ended()
        load.join()
        self.assertEqual((ended.status, ended.err), (-number, ""), ended)
        self.assertEqual([it.wrong for it in self.writers], [[]] * CLIENTS)

    def check_found(self, replies):
        """These are the values that each client knows, by their keys."""
        for writer in self.writers:
            found = {key: replies[key] for key in writer.values}
            self.assertEqual(writer.find(found), [], found)

    def check_kept(self):
        """A new run finds the values that each client knows."""
        keys = [key for it in self.writers for key in it.values]
        self.check_found(dict(zip(keys, self.found(*keys), strict=True)))

    def check_rounds(self, rounds, most, number):
        generations = []
        for _ in range(rounds):
            self.load_and_end(most, number)
            numbers = self.check_whole()
            generations.append(numbers["generation"])
            self.check_kept()
        self.assertEqual(generations, sorted(generations))
        return generations[-1], numbers
