"""Lives of a store on a file system, each ended by power cuts, and what a fresh mount finds.

A chain is some lives in a row. Of each life's disk log many cuts are made; each is mounted, checked
and dumped in the guest, and judged. One of the cuts is the disk of the next life.
"""
import collections
import contextlib
import json
import pathlib
import re
import subprocess
import tempfile
from dataclasses import dataclass, field

from harness import NO_JOURNAL
from power_disk import BLOCK, SECTOR, Flushed, Image, Written, cut
from power_guest import Guest, GuestDied, libraries, make_root
from power_loads import (
    GEOMETRIES,
    LOADS,
    SET_LOADS,
    SHARDS,
    STORE,
    Load,
    judge,
    shard_of,
    words_of_set,
)

SIZE = 320 << 20
# Statuses of repairs that found no fault, or left none.
REPAIRED = (0, 1, 2)
PLACES = {"PATH": "/usr/sbin:/sbin:/usr/bin:/bin"}
# Another program of the guest, which writes, removes and syncs small files beside the store.
OTHERS = (
    "(n=0; while ! [ -e /tmp/stop ]; do n=$((n + 1)); date >/mnt/other$((n % 7)); "
    "rm -f /mnt/other$(((n + 3) % 7)); [ $((n % 5)) = 0 ] && sync; sleep 0.1; done)"
)


@dataclass(frozen=True)
class FileSystem:
    """A file system under test: its kind, the words of its mkfs, its mount options, its disk, how
    the store's file is made, whether it is to obey the crash model, and what is tried in turn if a
    mount is refused."""

    name: str
    kind: str
    mkfs: str
    options: str = "defaults"
    disk: str = "cache"
    format: str = "--sparse"
    obeys: bool = True
    repairs: tuple = ()

    @property
    def has_note(self):
        """Whether a job that writes there says what is known against it."""
        return "^has_journal" in self.mkfs

    def repaired(self, image, path):
        """The image as the first repair leaves it that does not give up. None if all do."""
        for repair in self.repairs:
            image.save(path)
            ran = subprocess.run([*repair.split(), path], capture_output=True, env=PLACES)
            if ran.returncode in REPAIRED:
                return Image.load(path)
        return None

    def made(self):
        """The image of a new file system."""
        with tempfile.NamedTemporaryFile(prefix="silt-power-") as file:
            file.truncate(SIZE)
            words = [*self.mkfs.split(), file.name]
            ran = subprocess.run(words, capture_output=True, text=True, env=PLACES)
            if ran.returncode:
                raise RuntimeError(f"{' '.join(words)}: {ran.stderr}")
            return Image.load(file.name)


# Blocks as mkfs makes them on disks above 512 MB.
EXT4 = "mkfs.ext4 -q -F -b 4096"
# What a system runs at its start, and what its owner runs if that gives up.
E2FSCK = ("e2fsck -p", "e2fsck -y")
RESCUE = ("btrfs rescue super-recover -y",)
BARE = f"{EXT4} -O ^has_journal"
# The first ones are those that a short run comes to.
FILE_SYSTEMS = [
    FileSystem("ext4", "ext4", EXT4, repairs=E2FSCK),
    FileSystem("xfs", "xfs", "mkfs.xfs -q -f"),
    FileSystem("btrfs", "btrfs", "mkfs.btrfs -q -f", repairs=RESCUE),
    FileSystem("f2fs", "f2fs", "mkfs.f2fs -q -f", repairs=("fsck.f2fs -a",)),
    FileSystem("ext4 data=writeback", "ext4", EXT4, "data=writeback", repairs=E2FSCK),
    FileSystem("ext4 data=journal", "ext4", EXT4, "data=journal", repairs=E2FSCK),
    FileSystem("ext4, blocks of 1,024", "ext4", "mkfs.ext4 -q -F -b 1024", repairs=E2FSCK),
    FileSystem("btrfs nodatacow", "btrfs", "mkfs.btrfs -q -f", "nodatacow", repairs=RESCUE),
    FileSystem("ext4 nobarrier", "ext4", EXT4, "nobarrier", repairs=E2FSCK, obeys=False),
    FileSystem("ext4, no journal", "ext4", BARE, obeys=False),
    FileSystem("ext4, no journal, no cache", "ext4", BARE, disk="through", obeys=False),
    FileSystem(
        "ext4, no journal, no cache, filled", "ext4", BARE, disk="through", format="", obeys=False
    ),
]


@dataclass
class Life:
    """What is known of a life: the disk that it began with and its log, where the log was when the
    store was formatted (in a first life) and opened, and what the load did.

    `before` judges what is found if the store was not opened yet."""

    base: Image
    log: list
    formatted: int
    opened: int
    found: dict
    streams: list
    before: object = None

    def judge(self, place, found):
        """What is wrong with what is found behind a cut at this place: a map, or why there is
        none."""
        if found in ("unmounted", "died"):
            return found
        if place < self.opened:
            if self.before:
                return self.before(found)
            if place < self.formatted:
                return None
        if isinstance(found, str):
            return found
        if place < self.opened:
            return "differs" if found else None
        return judge(self.streams, self.found, place, found)

    def due(self, place):
        """How many commands have to be there behind a cut at this place."""
        return sum(it.bounds(place)[0] for it in self.streams)


@dataclass
class Counts:
    """What was tried on one file system. Cuts are counted by the piece that writes were torn to,
    and bad ones also by what was wrong: `WRONG/PIECE`. Repaired ones: the mount was refused, and
    what was judged is what a repair left."""

    loads: collections.Counter = field(default_factory=collections.Counter)
    cuts: collections.Counter = field(default_factory=collections.Counter)
    bad: collections.Counter = field(default_factory=collections.Counter)
    repaired: collections.Counter = field(default_factory=collections.Counter)
    replies: int = 0
    due: int = 0
    writes: int = 0
    flushes: int = 0

    def add(self, other):
        for name, value in vars(other).items():
            setattr(self, name, getattr(self, name) + value)

    @staticmethod
    def load(record):
        """Counts that were written as JSON."""
        names = ("loads", "cuts", "bad", "repaired")
        return Counts(**record | {it: collections.Counter(record.get(it)) for it in names})

    @property
    def failed(self):
        return self.bad.total()


def mounted(fs):
    return f"mount -t {fs.kind} -o {fs.options} /dev/vda /mnt"


def files_of(shards):
    """The files of a store in so many shards."""
    return [f"{STORE}.{it}" for it in range(shards)] if shards > 1 else [STORE]


def find(guest, fs, shards=1):
    """Mounts the disk and reads the store: a map of digits, or what is wrong in a word. A map comes
    back only if `check` finds each of its files whole, and if a set can be opened. Behind it is
    what was said."""
    files = " ".join(files_of(shards))
    line = (
        f"{mounted(fs)} || {{ dmesg | tail -n 8; exit 3; }}; "
        f"for file in {files}; do silt check $file || exit 4; silt dump $file 2>&1 || exit 5; done"
    )
    if shards > 1:
        line += f"; silt run {STORE} {words_of_set(shards)} 2>&1 || exit 6"
    status, said = guest.run(f"({line}); status=$?; umount /mnt; (exit $status)")
    if status:
        words = {3: "unmounted", 4: "refused", 5: "refused", 6: "refused"}
        return words.get(status, "unclear"), said
    return rows_of_files(said, shards), said


def find_anew(rig, fs, image, shards=1):
    """What a guest finds that never saw the disk before, as `find`."""
    with tempfile.TemporaryDirectory(prefix="silt-power-") as folder:
        guest = Guest(pathlib.Path(folder), rig.root(fs.kind), image.copy(), fs.disk == "through")
        with contextlib.closing(guest):
            return find(guest, fs, shards)


def rows_of(dump):
    return dict(re.findall(r"(?m)^put ([0-9a-f]{40}) ([0-9a-f]+)$", dump))


def rows_of_files(said, shards):
    """The rows of the files of a set, one behind the other. `misplaced` if a key lies in another
    file than its own. A check begins with the file's generation."""
    whole = {}
    for number, part in enumerate(re.split(r"(?m)^generation ", said)[1:]):
        rows = rows_of(part)
        if any(shard_of(key, shards) != number for key in rows):
            return "misplaced"
        whole |= rows
    return whole


class Chain:
    """Some lives in a row on one file system, in one guest, of a store in so many shards."""

    def __init__(self, fs, shards, rig, random, folder, prefix=""):
        self.fs = fs
        self.shards = shards
        self.rig = rig
        self.random = random
        self.folder = folder
        self.prefix = prefix
        self.geometry = random.choice(GEOMETRIES)
        self.counts = Counts()
        self.failures = []
        self.has_died = False

    def run(self, lives, cuts, lies=False):
        """Lives and cuts of each. Returns the counts."""
        disk = self.fs.made()
        before = None
        root, through = self.rig.root(self.fs.kind), self.fs.disk == "through"
        with contextlib.closing(Guest(self.folder, root, disk, through)) as self.guest:
            for number in range(lives):
                life = self.live(disk, number == 0, before)
                self.counts.loads[self.load.name] += 1
                good = [it for it in (self.try_cut(life, lies) for _ in range(cuts)) if it]
                if not good:
                    break
                disk, before = self.random.choice(good)
        return self.counts

    def live(self, disk, is_first, before):
        """A life of the store on this disk, up to its end without a crash."""
        guest = self.guest
        guest.disk.insert(disk.copy())
        self.hurry()
        guest.must(mounted(self.fs))
        formatted = self.format() if is_first else 0
        base = {} if is_first else self.rows()
        if before and (wrong := before(base)):
            raise RuntimeError(f"{self.fs.name}: a second mount of one disk finds what {wrong}")
        load = self.load = self.random.choice(self.rig.loads[self.shards])(
            guest, self.random, self.geometry, self.prefix
        )
        log = self.loaded(load)
        streams = load.streams()
        if load.wrong:
            raise RuntimeError(f"{load.name} on {self.fs.name}: {load.wrong[:5]}")
        self.counts.replies += load.replies
        self.counts.writes += sum(isinstance(it, Written) for it in log)
        self.counts.flushes += sum(isinstance(it, Flushed) for it in log)
        return Life(disk, log, formatted, load.opened, base, streams, before)

    def hurry(self):
        """The kernel writes dirty pages back soon, or as late as it does by itself."""
        centis = self.random.choice((10, 500))
        for name in ("writeback", "expire"):
            self.guest.must(f"echo {centis} >/proc/sys/vm/dirty_{name}_centisecs")

    def rows(self):
        """The rows of the store as it lies there."""
        return rows_of("".join(self.guest.must(f"silt dump {it}") for it in files_of(self.shards)))

    def format(self):
        """Makes a store. Returns where the disk's log was then."""
        words = f"{self.geometry.numbers} {self.fs.format} {words_of_set(self.shards)}"
        said = self.guest.must(f"silt format {STORE} {words}")
        if (NO_JOURNAL in said) != self.fs.has_note:
            raise RuntimeError(f"{self.fs.name}: a format says {said}")
        return len(self.guest.disk.log)

    def loaded(self, load):
        """Runs a load, now and then beside another program. Returns the disk's log."""
        others = self.random.random() < 0.3
        if others:
            self.guest.must(f"rm -f /tmp/stop; {OTHERS} &")
        load.run(self.random.randrange(40, self.rig.commands))
        log = list(self.guest.disk.log)
        self.guest.must("touch /tmp/stop; sleep 0.5" if others else "true")
        self.guest.must("umount /mnt")
        return log

    def find(self, image):
        """What a mount of this image finds, as `find`: in a guest of its own, or in that of the
        life, whose disk is exchanged. If that dies, as on a busy machine, another one looks."""
        try:
            if self.rig.fresh:
                return find_anew(self.rig, self.fs, image, self.shards)
            self.guest.disk.insert(image.copy())
            return find(self.guest, self.fs, self.shards)
        except GuestDied:
            self.has_died = True
            return self.find_again(image)

    def find_again(self, image):
        try:
            return find_anew(self.rig, self.fs, image, self.shards)
        except GuestDied as died:
            return "died", str(died)

    def place(self, life):
        """Where the power goes: just behind a reply, just before a flush, when most is not settled,
        or behind any entry of the log."""
        replies = [at for it in life.streams for at, _ in it.acknowledged]
        flushes = [at for at, it in enumerate(life.log) if isinstance(it, Flushed) and at]
        kind = self.random.random()
        if replies and kind < 0.4:
            return self.random.choice(replies)
        if flushes and kind < 0.7:
            return self.random.choice(flushes)
        return self.random.randint(1, len(life.log))

    def try_cut(self, life, lies):
        """Makes a cut and looks what is there. Returns the disk and its judge if all is well, so
        that a life can follow."""
        place = len(life.log) if lies else self.place(life)
        piece = self.random.choice((SECTOR, BLOCK))
        image = cut(life.base, life.log, place, lies, self.random, piece)
        found, said = self.find(image)
        if found == "unmounted" and (other := self.fs.repaired(image, self.folder / "repaired")):
            image = other
            found, said = self.find(image)
            self.counts.repaired[str(piece)] += 1
        wrong = life.judge(place, found)
        self.counts.cuts[str(piece)] += 1
        self.counts.due += life.due(place)
        if wrong:
            self.counts.bad[f"{wrong}/{piece}"] += 1
            self.failures.append(Failure(self.fs, image, life, place, wrong, said, self.load))
        if self.has_died:
            raise GuestDied("a guest died while it looked at a cut")
        follows = isinstance(found, dict) and place >= life.opened and not wrong
        return (image, lambda its: life.judge(place, its)) if follows else None


@dataclass
class Failure:
    """A cut that lost something, with all that is needed to look at it again."""

    fs: FileSystem
    image: Image
    life: Life
    place: int
    wrong: str
    said: str
    load: Load

    def keep(self, folder):
        folder.mkdir(parents=True)
        self.image.save(folder / "disk")
        life = self.life
        streams = [
            {
                "commands": [it[:2] for it in stream.commands],
                "least": stream.bounds(self.place)[0],
                "most": stream.bounds(self.place)[1],
            }
            for stream in life.streams
        ]
        story = {
            "file system": self.fs.name,
            "load": self.load.name,
            "shards": self.load.shards,
            "wrong": self.wrong,
            "place": self.place,
            "formatted": life.formatted,
            "opened": life.opened,
            "entries": len(life.log),
            "base": life.found,
            "streams": streams,
        }
        (folder / "story.json").write_text(json.dumps(story, indent=1))
        (folder / "said").write_text(self.said)


def serves_sets(program):
    """Whether a server can have a set of shards."""
    said = subprocess.run([program, "serve", "--help"], capture_output=True, text=True).stderr
    return "--shards" in said


class Rig:
    """What all guests share: the program, their first file systems, the loads, the most commands of
    a life, and whether each cut has a guest of its own."""

    def __init__(self, program, folder, others=(), commands=400, fresh=False):
        self.program = program
        self.folder = folder
        self.others = [*others, *(it for other in others for it in libraries(other))]
        # By the number of shards.
        self.loads = {1: LOADS, SHARDS: SET_LOADS if serves_sets(program) else SET_LOADS[:1]}
        self.commands = commands
        self.fresh = fresh
        self.roots = {}

    def root(self, kind):
        if kind not in self.roots:
            path = self.folder / f"root-{kind}"
            path.write_bytes(make_root(kind, self.program, self.others))
            self.roots[kind] = path
        return self.roots[kind]
