"""A disk with a volatile write cache: what was written and flushed, and what a power cut leaves.

A `Disk` serves one image over NBD to a guest and keeps a log of each write and each flush. From the
log `cut` makes an image as it may be when the power goes at any point of it.
"""
import os
import socket
import struct
from dataclasses import dataclass

BLOCK = 4096
SECTOR = 512
ZEROS = bytes(BLOCK)

# Numbers of the NBD protocol.
GREETING = b"NBDMAGIC" + b"IHAVEOPT"
OPTION_REPLY, REQUEST, REPLY = 0x3E889045565A9, 0x25609513, 0x67446698
EXPORT_NAME, ABORT, INFO, GO = 1, 2, 6, 7
ACK, INFO_EXPORT, UNSUPPORTED = 1, 3, 0x80000001
READ, WRITE, LEAVE, FLUSH = range(4)
HAS_FLAGS, SENDS_FLUSH, SENDS_FUA = 1, 4, 8
FUA = 1
INVALID = 22


class Image:
    """The bytes of a disk. Blocks of zeros are left out."""

    def __init__(self, size, blocks=None):
        self.size = size
        self.blocks = blocks or {}

    def copy(self):
        return Image(self.size, dict(self.blocks))

    def read(self, offset, length):
        first, last = offset // BLOCK, (offset + length - 1) // BLOCK
        data = b"".join(self.blocks.get(it, ZEROS) for it in range(first, last + 1))
        return data[offset - first * BLOCK :][:length]

    def write(self, offset, data):
        while data:
            number, start = divmod(offset, BLOCK)
            piece = data[: BLOCK - start]
            old = self.blocks.get(number, ZEROS)
            self.put(number, old[:start] + piece + old[start + len(piece) :])
            offset, data = offset + len(piece), data[len(piece) :]

    def put(self, number, block):
        if block == ZEROS:
            self.blocks.pop(number, None)
        else:
            self.blocks[number] = bytes(block)

    @staticmethod
    def load(path):
        """The image in a file, whose holes are not read."""
        size = os.path.getsize(path)
        image = Image(size)
        with open(path, "rb") as file:
            at = 0
            while at < size:
                try:
                    at = os.lseek(file.fileno(), at, os.SEEK_DATA) // BLOCK * BLOCK
                except OSError:
                    break
                file.seek(at)
                image.put(at // BLOCK, file.read(BLOCK))
                at += BLOCK
        return image

    def save(self, path):
        with open(path, "wb") as file:
            file.truncate(self.size)
            for number, block in self.blocks.items():
                file.seek(number * BLOCK)
                file.write(block)


@dataclass
class Written:
    """A write. With `fua` it is settled when it is done."""

    offset: int
    data: bytes
    fua: bool


@dataclass
class Flushed:
    """A flush, which settles the first `covers` entries of the log: those that were answered before
    the flush came."""

    covers: int


def listener_at(path):
    """A socket that waits for one connection at a path."""
    listener = socket.socket(socket.AF_UNIX)
    listener.bind(str(path))
    listener.listen(1)
    return listener


class Disk:
    """An NBD export. It has one client at a time, and its image may be exchanged while no guest has
    mounted it."""

    def __init__(self, path):
        self.listener = listener_at(path)
        self.link = None
        self.received = bytearray()
        self.insert(Image(BLOCK))

    def insert(self, image):
        """Another disk is in the drive. Its log is empty."""
        self.image = image
        self.log = []

    def accept(self):
        """Takes a client up to the end of the handshake."""
        self.link, _ = self.listener.accept()
        self.received = bytearray()
        self.link.sendall(GREETING + struct.pack(">H", 1))
        self.exactly(4)
        while self.take_option():
            pass
        self.link.setblocking(False)

    def exactly(self, count):
        data = self.link.recv(count, socket.MSG_WAITALL)
        if len(data) < count:
            raise ConnectionError("the guest left its disk")
        return data

    def take_option(self):
        """Answers one option. Returns whether more may follow."""
        _, option, length = struct.unpack(">8sII", self.exactly(16))
        if length:
            self.exactly(length)
        flags = HAS_FLAGS | SENDS_FLUSH | SENDS_FUA
        if option == EXPORT_NAME:
            self.link.sendall(struct.pack(">QH124x", self.image.size, flags))
            return False
        if option in (INFO, GO):
            self.answer_option(option, INFO_EXPORT, struct.pack(">HQH", 0, self.image.size, flags))
        self.answer_option(option, ACK if option in (INFO, GO, ABORT) else UNSUPPORTED)
        return option != GO

    def answer_option(self, option, kind, data=b""):
        self.link.sendall(struct.pack(">QIII", OPTION_REPLY, option, kind, len(data)) + data)

    def serve(self):
        """Does all requests that have come. Returns whether the client is still there.

        The replies go out together at the end: so a flush never settles a write whose reply it
        cannot have waited for."""
        try:
            data = self.link.recv(1 << 20)
        except BlockingIOError:
            return True
        except ConnectionResetError:
            data = b""
        self.received += data
        answered, replies = len(self.log), []
        while (request := self.next_request()) is not None:
            if request[0] == LEAVE:
                return False
            replies.append(self.do(answered, *request))
        self.send(b"".join(replies))
        return data != b""

    def send(self, data):
        self.link.setblocking(True)
        self.link.sendall(data)
        self.link.setblocking(False)

    def next_request(self):
        """Cuts a whole request off what was received: its kind, flags, handle, place and data."""
        if len(self.received) < 28:
            return None
        magic, flags, kind, handle, offset, length = struct.unpack_from(">IHH8sQI", self.received)
        assert magic == REQUEST
        size = length if kind == WRITE else 0
        if len(self.received) < 28 + size:
            return None
        data = bytes(self.received[28 : 28 + size])
        del self.received[: 28 + size]
        return kind, flags, handle, offset, data or length

    def do(self, answered, kind, flags, handle, offset, rest):
        """Does a request, and returns the bytes of its reply."""
        error, data = 0, b""
        if kind == READ:
            data = self.image.read(offset, rest)
        elif kind == WRITE:
            self.log.append(Written(offset, rest, bool(flags & FUA)))
            self.image.write(offset, rest)
        elif kind == FLUSH:
            self.log.append(Flushed(answered))
        else:
            error = INVALID
        return struct.pack(">II8s", REPLY, error, handle) + data


def cut(base, log, place, lies, random, piece):
    """The image that a power cut at this place of the log leaves of the base.

    What the last flush covers is settled, and each write with FUA. Of what is not settled, and of
    the write that is under way, each is there, is missing, or is torn into pieces of this length.
    One of six cuts keeps none of it, and one keeps all. A disk that lies has replied to its flushes
    and kept an earlier state."""
    image = base.copy()
    done = log[: random.randrange(place + 1) if lies else place]
    settled = max((it.covers for it in done if isinstance(it, Flushed)), default=0)
    share = random.choice((0, 0.1, 0.5, 0.5, 0.9, 1))
    for number, entry in enumerate(log[: len(done) + 1]):
        if isinstance(entry, Flushed):
            continue
        if number < len(done) and (lies or number < settled or entry.fua):
            image.write(entry.offset, entry.data)
        elif not lies:
            write_some(image, entry, random, share, piece)
    return image


def write_some(image, entry, random, share, piece):
    """Writes a share of a write: all or nothing, or its pieces one by one."""
    whole = random.random() < share
    if random.random() < 0.5:
        if whole:
            image.write(entry.offset, entry.data)
        return
    for at in range(0, len(entry.data), piece):
        if random.random() < share:
            image.write(entry.offset + at, entry.data[at : at + piece])
