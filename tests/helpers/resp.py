"""The protocol of Redis clients, as a client speaks it, and a model of what a server of it replies.

Nothing here is read from the program: the bytes are those that redis-cli and redis-py send and
read.
"""
import socket

from harness import TIME_LIMIT

OK = b"+OK\r\n"
NULL = b"$-1\r\n"
PONG = b"+PONG\r\n"
SYNTAX = b"-ERR syntax error\r\n"
WRONG_TYPE = b"-WRONGTYPE Operation against a key holding the wrong kind of value\r\n"


def command(*words):
    """The bytes of a command, as clients send it: an array of strings."""
    return b"*%d\r\n" % len(words) + b"".join(map(string, words))


def string(word):
    word = word if isinstance(word, bytes) else str(word).encode()
    return b"$%d\r\n%s\r\n" % (len(word), word)


def number(n):
    return b":%d\r\n" % n


def array(*items):
    return b"*%d\r\n" % len(items) + b"".join(items)


def few(name):
    """The reply to a command with a wrong number of words."""
    return b"-ERR wrong number of arguments for '%s' command\r\n" % name.lower()


class RespClient:
    """A connection to a server: it sends bytes and receives whole replies."""

    def __init__(self, port, address="127.0.0.1", limit=TIME_LIMIT):
        self.socket = socket.create_connection((address, port), timeout=limit)
        self.socket.setsockopt(socket.IPPROTO_TCP, socket.TCP_NODELAY, 1)
        self.received = b""

    def send(self, data):
        self.socket.sendall(data)

    def receive(self):
        """Receives some bytes, and returns whether there were any. A reset counts as an end."""
        try:
            data = self.socket.recv(1 << 16)
        except (ConnectionResetError, BrokenPipeError):
            data = b""
        self.received += data
        return data != b""

    def taken(self, count):
        """The next bytes. None if the server closed the connection before."""
        while len(self.received) < count:
            if not self.receive():
                return None
        data = self.received[:count]
        self.received = self.received[count:]
        return data

    def line(self):
        """The next line with its end. None if the server closed the connection before."""
        while (end := self.received.find(b"\r\n")) < 0:
            if not self.receive():
                return None
        return self.taken(end + 2)

    def reply(self):
        """The bytes of the next reply. None if the server closed the connection before it was
        whole."""
        head = self.line()
        if head is None or head[:1] not in b"$*" or head[1:2] == b"-":
            return head
        count = int(head[1:])
        if head[:1] == b"$":
            rest = self.taken(count + 2)
            return None if rest is None else head + rest
        items = [self.reply() for _ in range(count)]
        return None if None in items else head + b"".join(items)

    def replies(self, count):
        return [self.reply() for _ in range(count)]

    def ask(self, *words):
        """Sends one command, and returns its reply."""
        self.send(command(*words))
        return self.reply()

    def rest(self):
        """All bytes until the server closes the connection."""
        while self.receive():
            pass
        data = self.received
        self.received = b""
        return data

    def end_input(self):
        """Ends what the client sends. The server replies to all commands and closes."""
        self.socket.shutdown(socket.SHUT_WR)

    def close(self):
        self.socket.close()


class Model:
    """What a server replies to commands, and the strings that it has then, by their names."""

    def __init__(self):
        self.strings = {}

    def reply(self, words):
        """The reply to the words of one command. It has all words that it needs."""
        name = words[0].decode().lower()
        return getattr(self, f"do_{name}")(*words[1:])

    def item(self, name):
        return string(self.strings[name]) if name in self.strings else NULL

    def do_get(self, name):
        return self.item(name)

    def do_strlen(self, name):
        return number(len(self.strings.get(name, b"")))

    def do_mget(self, *names):
        return array(*map(self.item, names))

    def do_exists(self, *names):
        return number(sum(it in self.strings for it in names))

    def do_set(self, name, text, *options):
        options = [it.upper() for it in options[:1]] + list(options[1:])
        if options == [b"NX"]:
            return OK if self.insert(name, text) else NULL
        if options[:1] == [b"IFEQ"] and len(options) == 2:
            if self.strings.get(name) != options[1]:
                return NULL
        elif options:
            return SYNTAX
        self.strings[name] = text
        return OK

    def insert(self, name, text):
        """Sets the string of a name that has none, and returns whether it did."""
        if name in self.strings:
            return False
        self.strings[name] = text
        return True

    def do_setnx(self, name, text):
        return number(self.insert(name, text))

    def do_delifeq(self, name, text):
        if self.strings.get(name) != text:
            return number(0)
        del self.strings[name]
        return number(1)

    def do_mset(self, *words):
        self.strings.update(zip(words[::2], words[1::2]))
        return OK

    def do_del(self, *names):
        found = sum(it in self.strings for it in names)
        for name in names:
            self.strings.pop(name, None)
        return number(found)

    do_touch = do_exists
    do_unlink = do_del

    def do_ping(self, *words):
        return string(words[0]) if words else PONG

    def do_echo(self, text):
        return string(text)
