"""Loads of a program in a guest, and what a power cut may leave of them.

A load keeps, for each command that the store accepted, where the disk's log was when the command
was sent, and for each acknowledgement where it was when that came. So for a cut at any place of the
log it is known which commands have to be there, and which can be.
"""
import hashlib
import itertools
import time
from dataclasses import dataclass, field

from power_guest import FIRST_PORT, PORTS, GuestDied
from resp import command as resp_command

STORE = "/mnt/store"
TCP_PORT = 7070
# Replies to commands that were not done.
NOT_DONE = ("differs", "refused 7 StoreFull", "refused 8 NoRoom")
# How long a load may take for all its replies, in seconds.
LOAD_LIMIT = 120


@dataclass
class Geometry:
    """Six numbers of a store, and how many keys its loads use."""

    numbers: str
    keys: int

    @property
    def value_length(self):
        return int(self.numbers.split()[0])


# Small logs, so that freezes, conversions and merges go on all the time.
GEOMETRIES = [
    Geometry("16 4 12 3 2 200", 40),
    Geometry("64 16 56 3 4 1000", 150),
    Geometry("1000 16 40 3 3 500", 80),
    Geometry("4096 4 14 3 2 200", 30),
]


@dataclass
class Stream:
    """Commands whose order is known, on keys of their own, and the acknowledgements.

    A command is a key in digits, its new value in digits (None: no value), and the place in the
    disk's log where it was sent. An acknowledgement is its place, and how many commands it
    covers."""

    commands: list = field(default_factory=list)
    acknowledged: list = field(default_factory=list)

    def bounds(self, place):
        """The least and the largest number of commands that a cut at this place may keep."""
        least = max((count for at, count in self.acknowledged if at <= place), default=0)
        most = sum(1 for _ in itertools.takewhile(lambda it: it[2] <= place, self.commands))
        return least, max(least, most)

    def counts_of(self, base, found):
        """How many first commands make this map of the base: all numbers that do."""
        values, wrong, counts = dict(base), differing(base, found), []
        for count, (key, value, _) in enumerate([(None, None, 0), *self.commands]):
            if key:
                wrong -= values.get(key) != found.get(key)
                values[key] = value
                wrong += value != found.get(key)
            if not wrong:
                counts.append(count)
        return counts


def differing(one, other):
    """How many keys have different values in two maps."""
    return sum(one.get(it) != other.get(it) for it in one.keys() | other.keys())


def judge(streams, base, place, found):
    """What is wrong with the map that is found behind a cut at this place: None, `lost` if an
    acknowledged command is missing, `differs` if it is no beginning."""
    keys = [{key for key, _, _ in it.commands} for it in streams]
    wrong = None
    left = {key: value for key, value in found.items() if not any(key in its for its in keys)}
    if left != {key: value for key, value in base.items() if not any(key in its for its in keys)}:
        return "differs"
    for stream, mine in zip(streams, keys, strict=True):
        its_base = {key: value for key, value in base.items() if key in mine}
        its_found = {key: value for key, value in found.items() if key in mine}
        least, most = stream.bounds(place)
        counts = [it for it in stream.counts_of(its_base, its_found) if it <= most]
        if not counts:
            return "differs"
        if max(counts) < least:
            wrong = "lost"
    return wrong


def digest(name):
    """The key of a name, in digits."""
    return hashlib.sha1(name.encode()).hexdigest()


def shard_of(key, shards):
    """The shard of a key in digits: its second four bytes, modulo the number of shards."""
    return int(key[8:16], 16) % shards


class Writer:
    """One connection of lines or of Redis commands, and what it waits for."""

    def __init__(self, port, random, names, length):
        self.port = port
        self.random = random
        self.names = names
        self.length = length
        self.number = 0
        self.latest = {}
        # What was sent and has no reply yet: the command that it makes if it is accepted.
        self.pending = []

    def new_value(self):
        """Digits of a value that no other command of this connection has."""
        self.number += 1
        head = self.number.to_bytes(4, "big")
        return (head + self.random.randbytes(self.length))[: self.length].hex()

    def next_line(self, flushes):
        """A line, and the command that it makes if it is accepted."""
        name = self.random.choice(self.names)
        kind = self.random.random()
        if flushes and kind < 0.1:
            return "flush", None
        if kind < 0.2:
            self.latest.pop(name, None)
            return f"delete ={name}", (digest(name), None)
        old = self.latest.get(name, "-")
        new = self.latest[name] = self.new_value()
        word = f"swap ={name} {old}" if kind < 0.4 else f"put ={name}"
        return f"{word} {new}", (digest(name), new)

    def send_lines(self, count, place, flushes=False):
        lines = []
        for _ in range(count):
            line, command = self.next_line(flushes)
            lines.append(line + "\n")
            self.pending.append(command and (*command, place))
        self.port.send("".join(lines).encode())

    def send_strings(self, count, place):
        """Sends commands of a Redis client."""
        data = b""
        for _ in range(count):
            name = self.random.choice(self.names)
            if self.random.random() < 0.2:
                data += resp_command("DEL", name)
                self.pending.append((digest(name), None, place))
                continue
            self.number += 1
            rest = self.random.randrange(self.length - 9)
            text = b"%08d" % self.number + self.random.randbytes(rest)
            data += resp_command("SET", name, text)
            value = (len(text).to_bytes(2, "big") + text).ljust(self.length, b"\0")
            self.pending.append((digest(name), value.hex(), place))
        self.port.send(data)


def words_of_set(shards):
    """The words of a job on a set of so many shards. None if it is one file."""
    return f"--shards {shards}" if shards > 1 else ""


class Load:
    """A program that runs in a guest over a store, and writers that keep it busy."""

    name = None
    # Whether the store is a set of so many files, and not one file.
    shards = 1
    writers_count = 1
    # The most lines of one write, and how many replies may be due when the next one is sent.
    burst, ahead = 1, 0

    def __init__(self, guest, random, geometry, prefix=""):
        self.guest = guest
        self.random = random
        self.prefix = prefix
        self.opened = None
        self.replies = 0
        self.wrong = []
        ports = guest.ports[FIRST_PORT : FIRST_PORT + self.writers_count]
        self.writers = [
            Writer(port, random, self.names(number, geometry.keys), geometry.value_length)
            for number, port in enumerate(ports)
        ]

    @property
    def place(self):
        return len(self.guest.disk.log)

    @property
    def set_words(self):
        return words_of_set(self.shards)

    def shard_of(self, command):
        """The shard of a command's key."""
        return shard_of(command[0], self.shards)

    def names(self, number, count):
        return [f"n{it}" for it in range(count)]

    def run(self, count):
        """Has so many commands sent, and all their replies taken in."""
        self.start()
        by = time.monotonic() + LOAD_LIMIT
        while count > 0 or any(it.pending for it in self.writers):
            for writer in self.writers:
                if count > 0 and len(writer.pending) <= self.ahead:
                    sent = self.random.randint(1, self.burst)
                    self.send(writer, sent)
                    count -= sent
            self.guest.turn(1)
            for writer in self.writers:
                self.take_all(writer)
            if time.monotonic() > by:
                raise GuestDied(f"a load has no replies: {self.guest.run('cat /tmp/served')}")
        self.end()

    def take_all(self, writer):
        """Takes in the replies that came to a writer."""
        for line in writer.port.lines():
            self.replies += 1
            self.take(writer, line.rstrip("\r"), writer.pending.pop(0))

    def end(self):
        self.guest.run("killall -9 silt nc; sleep 0.1")

    def send(self, writer, count):
        writer.send_lines(count, self.place)


class Tending(Load):
    """`run --tend`: one stream of lines, with a flush now and then."""

    name = "run --tend"
    burst, ahead = 24, 40

    def __init__(self, *words):
        super().__init__(*words)
        self.by_shard = [Stream() for _ in range(self.shards)]

    def start(self):
        port = f"/dev/vport0p{FIRST_PORT + 1}"
        run = f"silt run {STORE} {self.set_words} --tend --merge-at 1"
        self.guest.must(f"{self.prefix} {run} <>{port} >&0 2>/tmp/served &")
        by = time.monotonic() + LOAD_LIMIT
        while b"opened\n" not in self.writers[0].port.received:
            self.guest.turn(1)
            if time.monotonic() > by:
                raise GuestDied(f"nothing is opened: {self.guest.run('cat /tmp/served')}")
        self.opened = self.place
        self.writers[0].port.lines()

    def send(self, writer, count):
        writer.send_lines(count, self.place, flushes=True)

    def take(self, writer, line, command):
        word, *rest = line.split()
        if word == "accepted" and command:
            stream = self.by_shard[self.shard_of(command)]
            stream.commands.append(command)
            assert int(rest[0]) == len(stream.commands)
        elif word == "acknowledged":
            self.acknowledge(int(rest[0]))
        elif line not in NOT_DONE:
            self.wrong.append(line)

    def acknowledge(self, count):
        """A flush settles all that was accepted before it, in each shard."""
        assert count == sum(len(it.commands) for it in self.by_shard)
        for it in self.by_shard:
            it.acknowledged.append((self.place, len(it.commands)))

    def streams(self):
        return self.by_shard


class Serving(Load):
    """`serve` with clients that wait for each reply. The numbers of the replies give the order of
    all commands."""

    name = "serve"
    options = ""
    writers_count = 3

    def __init__(self, *words):
        super().__init__(*words)
        self.accepted = [{} for _ in range(self.shards)]
        self.acknowledged = [[] for _ in range(self.shards)]

    def start(self):
        words = f"{self.options} {self.set_words} --merge-at 1"
        serve = f"silt serve {STORE} {TCP_PORT} {words} >/tmp/served 2>&1 &"
        wait = "until grep -q listening /tmp/served; do sleep 0.05; done"
        self.guest.must(f"{self.prefix} {serve} {wait}")
        self.opened = self.place
        for number in range(self.writers_count):
            port = f"/dev/vport0p{FIRST_PORT + 1 + number}"
            self.guest.must(f"nc 127.0.0.1 {TCP_PORT} <>{port} >&0 2>&1 &")

    def take(self, writer, line, command):
        word, *rest = line.split()
        if word == "accepted":
            shard = self.shard_of(command)
            self.accepted[shard][int(rest[0])] = command
            self.acknowledged[shard].append((self.place, int(rest[0])))
        elif line not in NOT_DONE:
            self.wrong.append(line)

    def streams(self):
        made = []
        for accepted, acknowledged in zip(self.accepted, self.acknowledged, strict=True):
            numbers = sorted(accepted)
            if numbers != list(range(1, len(numbers) + 1)):
                self.wrong.append(f"accepted {numbers}")
            made.append(Stream([accepted[it] for it in numbers], acknowledged))
        return made


class Pipelining(Serving):
    """`serve --pipeline` with clients that send many lines before they read a reply."""

    name = "serve --pipeline"
    options = "--pipeline"
    burst, ahead = 30, 20


class RedisClients(Serving):
    """`serve --resp` with clients that have names of their own."""

    name = "serve --resp"
    options = "--resp"
    writers_count = 2
    burst, ahead = 12, 6

    def __init__(self, *words):
        super().__init__(*words)
        self.by_writer = {id(it): [Stream() for _ in range(self.shards)] for it in self.writers}

    def names(self, number, count):
        return [f"c{number}/n{it}" for it in range(count // 2)]

    def send(self, writer, count):
        writer.send_strings(count, self.place)

    def take(self, writer, line, command):
        if line in ("+OK", ":1"):
            stream = self.by_writer[id(writer)][self.shard_of(command)]
            stream.commands.append(command)
            stream.acknowledged.append((self.place, len(stream.commands)))
        elif line != ":0" and "StoreFull" not in line and "NoRoom" not in line:
            self.wrong.append(line)

    def streams(self):
        return [it for its in self.by_writer.values() for it in its]


def over_a_set(load):
    """The same load over a set of shards."""
    words = words_of_set(SHARDS)
    return type(f"{load.__name__}Set", (load,), {"shards": SHARDS, "name": f"{load.name} {words}"})


# How many shards a set has.
SHARDS = 4
LOADS = [Tending, Serving, Pipelining, RedisClients]
SET_LOADS = [over_a_set(it) for it in LOADS]
assert all(it.writers_count <= PORTS for it in LOADS)
