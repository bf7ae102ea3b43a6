"""Reads what watch.c recorded, and says how a program is run under it.

    env = watching(self, log="log", fail="fdatasync:3:EIO")
    self.silt("run", "store", env=env)
    for call in read_record(self.path("log")):
        print(call.name, call.file, call.at, call.data)
"""
import errno
import itertools
import os
import pathlib
import shutil
import struct
import tempfile
from dataclasses import dataclass

from harness import Case, watch_library

HEAD = struct.Struct("<B3xiiIqqqI4x")
STREAMS = {0: "standard input", 1: "standard output", 2: "standard error"}
# Calls that name a path.
NAMING = ("open", "rename", "unlink", "mkdir", "rmdir", "symlink", "readlink")
# Calls that put bytes into a stream or a socket, and those that take bytes out.
OUT = ("write", "send")
IN = ("read", "recv")


@dataclass
class Call:
    """One call of the system.

    `file` is the path that was opened, made or removed, the new name of one that was renamed, a
    stream's name, or `socket N` for the N-th connection.
    `at` is the offset, and of ftruncate the length. `asked` is the number of bytes, or the flags.
    `result` is what the system returned; if that is negative, `error` has the error's name.
    `data` is the bytes to write, or those that were read from a stream. Of a rename it has the old
    name, a zero and the new one; of a symlink the text of the link, a zero and its name.
    """

    name: str
    file: str
    fd: int
    at: int
    asked: int
    result: int
    error: str
    thread: int
    data: bytes

    @property
    def moved(self):
        """The bytes that were really written."""
        return self.data[:max(self.result, 0)]


def watching(case, log=None, counts=None, lists=False, **plans):
    """The environment of a watched run. The plans are fail, short, drop, slow and hold: a word or a
    list. Calls on the system's lists of file systems are watched if that is asked for."""
    env = {"LD_PRELOAD": str(watch_library())}
    if lists:
        env["SILT_WATCH_LISTS"] = "1"
    for name, path in (("LOG", log), ("COUNTS", counts)):
        if path:
            env[f"SILT_WATCH_{name}"] = str(case.path(path))
    for name, words in plans.items():
        env[f"SILT_WATCH_{name.upper()}"] = words if isinstance(words, str) else ",".join(words)
    return env


def read_counts(path):
    """How often the program made each call, by name."""
    return {
        name: int(number)
        for name, number in map(str.split, pathlib.Path(path).read_text().splitlines())
    }


def read_raw(path):
    """The records in the order of the file: a name, the numbers and the bytes of each."""
    data = pathlib.Path(path).read_bytes()
    names = data[:data.index(b"\n")].decode().split()
    at = data.index(b"\n") + 1
    while at + HEAD.size <= len(data):
        call, *numbers, size = HEAD.unpack_from(data, at)
        at += HEAD.size
        yield names[call], numbers, data[at:at + size]
        at += size


def read_record(path):
    """The calls in their order. Each names the file that its number meant when it was made."""
    files = dict(STREAMS)
    calls = []
    sockets = itertools.count(1)
    for name, (fd, error, thread, at, asked, result), data in read_raw(path):
        if name == "result":
            latest = next(it for it in reversed(calls) if it.thread == thread and it.name in OUT)
            latest.result = result
            latest.error = errno.errorcode.get(error, "")
            continue
        if result >= 0 and name in ("open", "accept"):
            files[result] = data.decode() if name == "open" else f"socket {next(sockets)}"
        if name in NAMING:
            file = data.decode().split("\0")[-1]
        else:
            file = files.get(result if name == "accept" else fd, "")
        calls.append(
            Call(name, file, fd, at, asked, result, errno.errorcode.get(error, ""), thread, data)
        )
    return calls


def sent(calls, file):
    """All bytes that a stream or a socket took."""
    return b"".join(it.moved for it in calls if it.name in OUT and it.file == file)


class WatchedCase(Case):
    """A case whose folder lies in memory, if the system has such a place: syncs are quick there."""

    def setUp(self):
        super().setUp()
        place = "/dev/shm" if os.access("/dev/shm", os.W_OK) else None
        self.folder = pathlib.Path(tempfile.mkdtemp(prefix="silt-test-", dir=place))
        self.addCleanup(shutil.rmtree, self.folder, ignore_errors=True)

    def recorded(self, *words, text="", **plans):
        """Runs the program under the watching library: how it ended, and its calls."""
        ended = self.silt(*words, text=text, env=watching(self, log="record", **plans))
        return ended, read_record(self.path("record"))

    def record_by_lines(self, lines, name="store", **plans):
        """A recorded run that reads its lines byte by byte: it answers each before it reads the
        next. The replies, and the calls."""
        text = "".join(line + "\n" for line in lines)
        ended, calls = self.recorded("run", name, text=text, short="read:1+", **plans)
        self.assertEqual((ended.status, len(ended.lines)), (0, len(lines) + 1), ended)
        return ended.lines, calls
