"""A guest: a virtual machine with a kernel of Debian, the program, one disk and some ports.

It runs without hardware acceleration, on one processor. Its first process runs the lines that the
host sends (`power_init`).
"""
import contextlib
import os
import pathlib
import re
import select
import shutil
import socket
import subprocess
import time

from harness import HELPERS, TOP
from power_disk import Disk, listener_at

PROGRAMS = ["setpriv", "qemu-system-x86_64", "mkfs.ext4", "mkfs.xfs", "mkfs.btrfs", "mkfs.f2fs"]
BUSYBOX = pathlib.Path("/bin/busybox")
KERNELS = pathlib.Path(os.environ.get("SILT_POWER_KERNEL", TOP / "tests/out/kernel"))
# What a guest needs of the kernel's modules; the names of one are written with either hyphen.
MODULES = "crc32c_generic crc32_generic virtio_pci virtio_blk virtio_console".split()
# The port of the first process, and those of a load.
FIRST_PORT, PORTS = 1, 4
BOOT_LIMIT, LINE_LIMIT = 240, 300
# Megabytes.
MEMORY = 320
# The last line of what a guest says.
ENDED = re.compile(rb"--- (\d+)\n")


class GuestDied(Exception):
    """The guest ended, or it does not answer."""


def missing():
    """What a guest needs and this machine does not have. Empty if all is there."""
    path = os.environ["PATH"] + ":/usr/sbin:/sbin"
    lacks = [it for it in PROGRAMS if not shutil.which(it, path=path)]
    if not BUSYBOX.exists():
        lacks.append("busybox")
    if find_kernel() is None:
        lacks.append("a kernel (tests/power prepare)")
    return lacks


def find_kernel():
    """The newest kernel that a package of Debian was unpacked to."""
    return max(KERNELS.glob("boot/vmlinuz-*"), default=None)


def release():
    return find_kernel().name.removeprefix("vmlinuz-")


def module_files(file_system):
    """The modules that a guest of this file system loads, each behind those that it depends on."""
    found = {
        it.stem.replace("-", "_"): it for it in (KERNELS / "lib/modules" / release()).rglob("*.ko")
    }
    order = []

    def add(name):
        file = found.get(name.replace("-", "_"))
        if file is None or file in order:
            return
        depends = re.search(rb"\0depends=([^\0]*)\0", file.read_bytes())
        for other in depends[1].decode().split(","):
            add(other)
        order.append(file)

    for name in [*MODULES, file_system]:
        add(name)
    return order


def libraries(program):
    """The libraries that a program needs to run, with its loader."""
    said = subprocess.run(["ldd", program], capture_output=True, text=True).stdout
    return [pathlib.Path(it) for it in re.findall(r"(/\S+) \(0x", said)]


def archive(files):
    """The bytes of an archive (cpio, newc) of these files, by their paths in the guest."""
    folders = sorted({str(it) for path in files for it in pathlib.PurePath(path).parents} - {"."})
    entries = [(it, 0o040755, b"") for it in folders]
    entries += [(it, 0o100755, data) for it, data in files.items()] + [("TRAILER!!!", 0, b"")]
    made = bytearray()
    for number, (path, mode, data) in enumerate(entries):
        name = path.encode() + b"\0"
        fields = (number, mode, 0, 0, 1, 0, len(data), 0, 0, 0, 0, len(name), 0)
        made += b"070701" + b"".join(b"%08X" % it for it in fields) + name
        made += bytes(-len(made) % 4)
        made += data
        made += bytes(-len(made) % 4)
    return bytes(made)


def first_files(init, file_system):
    """What each guest's first file system has: its first process, a shell and modules."""
    files = {"init": (HELPERS / init).read_bytes(), "bin/busybox": BUSYBOX.read_bytes()}
    files |= {str(it).lstrip("/"): it.read_bytes() for it in libraries(BUSYBOX)}
    modules = module_files(file_system)
    files["modules/order"] = "\n".join(it.name for it in modules).encode()
    return files | {f"modules/{it.name}": it.read_bytes() for it in modules}


def make_root(file_system, program, others=()):
    """The bytes of a guest's first file system, with the program and other files for /lib."""
    files = first_files("power_init", file_system)
    files["bin/silt"] = program.read_bytes()
    files |= {str(it).lstrip("/"): it.read_bytes() for it in libraries(program)}
    return archive(files | {f"lib/{it.name}": it.read_bytes() for it in others})


def make_system_root():
    """The bytes of the first file system of a guest whose disk has a whole system on ext4."""
    return archive(first_files("system_init", "ext4"))


class Port:
    """A stream between the host and the guest. The bytes that came are in `received`, those that
    have not gone out yet in `waiting`: a guest that waits for its disk takes none."""

    def __init__(self, path):
        self.path = path
        self.listener = listener_at(path)
        self.link = None
        self.received = bytearray()
        self.waiting = bytearray()

    def accept(self):
        self.link, _ = self.listener.accept()
        self.link.setblocking(False)

    def send(self, data):
        self.waiting += data
        self.send_more()

    def send_more(self):
        with contextlib.suppress(BlockingIOError):
            while self.waiting:
                del self.waiting[: self.link.send(self.waiting)]

    def receive(self):
        """Receives what has come. Returns whether the guest is still there."""
        data = self.link.recv(1 << 16)
        self.received += data
        return data != b""

    def lines(self):
        """The whole lines that came, without their ends."""
        *whole, rest = bytes(self.received).split(b"\n")
        self.received = bytearray(rest)
        return [it.decode(errors="replace") for it in whole]


class Guest:
    """A running guest. `through` says whether its disk has no write cache.

    All that happens on the host happens in `turn`: so the order of the disk's log and of the bytes
    at the ports is known."""

    def __init__(self, folder, root, image, through=False, memory=MEMORY):
        self.folder = folder
        self.memory = memory
        self.disk = Disk(folder / "disk.socket")
        self.disk.insert(image)
        self.ports = [Port(folder / f"port{it}.socket") for it in range(1 + PORTS)]
        words = self.words(root, through)
        errors = open(folder / "qemu.errors", "wb")
        how = {"stdin": subprocess.DEVNULL, "stdout": errors, "stderr": errors}
        self.process = subprocess.Popen(words, **how)
        errors.close()
        try:
            self.connect()
            self.wait_for_line(BOOT_LIMIT)
        except BaseException:
            self.close()
            raise

    def words(self, root, through):
        cached = "off" if through else "on"
        # It ends with this process, however that ends.
        words = "setpriv --pdeathsig KILL qemu-system-x86_64".split()
        words += "-nodefaults -no-user-config -display none -no-reboot".split()
        words += ["-accel", "tcg,thread=single,tb-size=128", "-cpu", "max"]
        words += ["-smp", "1", "-m", str(self.memory)]
        words += ["-kernel", str(find_kernel()), "-initrd", str(root)]
        words += ["-append", "console=ttyS0 quiet loglevel=3 panic=-1 mitigations=off"]
        words += ["-serial", f"file:{self.folder / 'console'}"]
        # The first device of virtio has the number of the ports' names.
        words += ["-device", "virtio-serial-pci"]
        drive = f"file=nbd+unix:///?socket={self.folder / 'disk.socket'},format=raw,if=none,id=disk"
        words += ["-drive", drive, "-device", f"virtio-blk-pci,drive=disk,write-cache={cached}"]
        for number, port in enumerate(self.ports, FIRST_PORT):
            words += ["-chardev", f"socket,id=port{number},path={port.path}"]
            words += ["-device", f"virtserialport,chardev=port{number},nr={number}"]
        return words

    def connect(self):
        """Takes the connections of the disk and of all ports, in whatever order they come."""
        waiting = [self.disk, *self.ports]
        by = time.monotonic() + BOOT_LIMIT
        while waiting:
            ready = select.select([it.listener for it in waiting], [], [], 1)[0]
            if self.process.poll() is not None or time.monotonic() > by:
                raise GuestDied((self.folder / "qemu.errors").read_text())
            for it in [it for it in waiting if it.listener in ready]:
                it.accept()
                waiting.remove(it)

    def turn(self, seconds):
        """Waits for something to come, and takes it in. If bytes are at the ports, the disk waits:
        so a reply is noted at the place in the disk's log where it came."""
        links = [it.link for it in self.ports] + [self.disk.link]
        full = [it for it in self.ports if it.waiting]
        ready, takes, _ = select.select(links, [it.link for it in full], [], seconds)
        for it in full:
            if it.link in takes:
                it.send_more()
        there = [it.receive() for it in self.ports if it.link in ready]
        if not there and ready:
            there = [self.disk.serve()]
        if not all(there):
            raise GuestDied("the guest ended")

    def run(self, line, limit=LINE_LIMIT):
        """Runs a line in the guest. Returns its status and what it printed."""
        self.ports[0].send(line.encode() + b"\n")
        return self.wait_for_line(limit)

    def wait_for_line(self, limit):
        by = time.monotonic() + limit
        received = self.ports[0].received
        while not (ended := ENDED.fullmatch(received[received.rfind(b"\n", 0, -1) + 1 :])):
            if time.monotonic() > by:
                raise GuestDied(f"no answer in {limit} seconds")
            self.turn(1)
        said = bytes(received[: -len(ended[0])])
        received.clear()
        return int(ended[1]), said.decode(errors="replace")

    def must(self, line, limit=LINE_LIMIT):
        """Runs a line that has to succeed. Returns what it printed."""
        status, said = self.run(line, limit)
        if status:
            raise GuestDied(f"{line}: status {status}, {said}")
        return said

    def console(self):
        with open(self.folder / "console", errors="replace") as file:
            return file.read()

    def close(self):
        self.process.kill()
        self.process.wait()
        for it in (self.disk, *self.ports):
            it.listener.close()
            if it.link:
                it.link.close()
