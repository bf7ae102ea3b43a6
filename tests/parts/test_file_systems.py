"""What is said on standard error of the file system in which a store lies: nothing, or one line.

The system's own lists are hidden behind ones that are written here, in a mount namespace.
"""
import os

from harness import IN_MEMORY, NO_JOURNAL, REMOTE, Case, mounting
from terminal import on_terminal
from watch import WatchedCase

SMALL = "2 2 4 2 2 8"
# Lists of mounted file systems, in which DEV is the store's device, and what is told.
LISTS = {
    b"": None,
    b"\n\n": None,
    b"36 35 DEV / /mnt rw,noatime master:1 - ext3 /dev/root rw,errors=continue\n": None,
    b"36 35 DEV / /mnt rw - xfs /dev/sdb1 rw\n": None,
    b"36 35 DEV / /mnt rw - btrfs /dev/sdb1 rw\n": None,
    b"25 24 DEV / /dev/shm rw,relatime - tmpfs tmpfs rw,size=24683672k\n": IN_MEMORY,
    b"25 24 DEV / /dev/shm rw,relatime - tmpfs": IN_MEMORY,
    b"1 1 DEV / / rw - ramfs none rw\n": IN_MEMORY,
    b"36 35 DEV / /mnt rw shared:2 master:1 propagate_from:3 - nfs4 host:/a rw\n": REMOTE,
    b"36 35 DEV / /a\\040b\\134c rw shared:2 - cifs //host/a\\040b rw,vers=3.0\n": REMOTE,
    b"36 35 DEV / /caf\xe9 rw - 9p host rw\n": REMOTE,
    b"36 35 DEV / /mnt rw - fuse.sshfs host: rw\n": REMOTE,
    b"36 35 DEV / /mnt rw - fuse.gvfsd host: rw\n": None,
    b"36 35 DEV / /mnt rw - fuse host: rw\n": None,
    b"36 35 DEV / /mnt rw - NFS host: rw\n": None,
    b"36 35 DEV / /mnt rw - tmpfs\xff tmpfs rw\n": None,
    # Another device.
    b"36 35 0:4095 / /mnt rw - nfs4 host:/a rw\n": None,
    b"36 35 1DEV / /mnt rw - nfs4 host:/a rw\n36 35 DEV0 / /mnt rw - nfs4 host:/a rw\n": None,
    b"DEV DEV 0:4095 DEV DEV DEV - nfs4 host:/a rw\n": None,
    b"36 35 0:4095 / / rw - ext3 /dev/a rw\n36 35 DEV / /mnt rw - nfs host:/a rw\n": REMOTE,
    # The first line of a device counts, and one that is cut short is none.
    b"36 35 DEV / / rw - ext3 /dev/a rw\n36 35 DEV / /mnt rw - nfs host:/a rw\n": None,
    b"36 35 DEV\n36 35 DEV / /mnt rw\n36 35 DEV / /mnt rw -\n36 35 DEV / / rw - nfs host:/a rw\n": REMOTE,
    # Parts between single spaces are words.
    b"36 35  DEV / /mnt rw - nfs host:/a rw\n": None,
    b" 36 35 DEV / /mnt rw - nfs host:/a rw\n": None,
    b"36 35 DEV / /mnt rw - \n": None,
    b"36\t35\tDEV\t/\t/mnt\trw\t-\tnfs\thost:/a\trw\n": None,
}
REMOTE_LIST = b"36 35 DEV / /mnt rw - nfs host:/a rw\n"
EXT4 = b"27 1 DEV / / rw,relatime - ext4 /dev/root rw\n"
# What the system says of the journal of an ext4.
TASKS = {b"<none>\n": NO_JOURNAL, b"123\n": None, b"": None, b"<none>": None, None: None}
# Hides /proc and /sys behind folders, and runs what follows.
HIDE = 'mount --bind proc /proc && mount --bind sys /sys && exec "$@"'


class FileSystems(Case):
    def setUp(self):
        super().setUp()
        self.device = os.stat(self.folder).st_dev
        self.numbers = f"{os.major(self.device)}:{os.minor(self.device)}"
        self.store(SMALL)

    def list(self, mounts, task=None):
        """Hides the system's lists behind these. The device has another name than its mount."""
        self.starter = [*mounting(self), "sh", "-c", HIDE, "sh"]
        folder = self.path("proc/self")
        folder.mkdir(parents=True, exist_ok=True)
        (folder / "mountinfo").write_bytes(mounts.replace(b"DEV", self.numbers.encode()))
        links = self.path("sys/dev/block")
        links.mkdir(parents=True, exist_ok=True)
        if not (links / self.numbers).is_symlink():
            (links / self.numbers).symlink_to("../../devices/virtual/block/dm-3")
        journal = self.path("sys/fs/ext4/dm-3/journal_task")
        journal.parent.mkdir(parents=True, exist_ok=True)
        journal.unlink(missing_ok=True)
        if task is not None:
            journal.write_bytes(task)

    def note(self, due, file="store"):
        return f"silt: {file}: {due}\n" if due else ""

    def check(self, due, words="run store", out="opened\nabsent\n"):
        ended = self.silt(*words.split(), text="get =a\n")
        note = self.note(due, words.split()[1])
        self.assertEqual((ended.out, ended.note, ended.err), (out, note, ""))

    def test_each_list(self):
        for mounts, due in LISTS.items():
            with self.subTest(mounts=mounts):
                self.list(mounts)
                self.check(due)

    def test_a_journal(self):
        for task, due in TASKS.items():
            with self.subTest(task=task):
                self.list(EXT4, task)
                self.check(due)

    def test_no_list(self):
        self.list(b"")
        self.path("proc/self/mountinfo").unlink()
        self.check(None)

    def test_each_job(self):
        """Jobs that write tell it, also of a file that is not there yet. A job that reads does
        not."""
        self.list(REMOTE_LIST)
        self.check(REMOTE, "tend store", "opened\nconverted 0 steps, merged 0 steps\n")
        self.check(REMOTE, f"format new {SMALL}", "formatted 45056\n")
        self.check(REMOTE, f"format set {SMALL} --shards 2", "formatted 45056\n" * 2)
        self.check(REMOTE, "run set --shards 2")
        for words in ("check store", "dump store", f"script {SMALL}", "plan 1000 2", "run", "--help"):
            ended = self.silt(*words.split())
            self.assertEqual((ended.note, REMOTE in ended.err), ("", False), words)

    def test_a_server(self):
        """It is there before the server listens."""
        self.list(REMOTE_LIST)
        with self.start("serve", "store", 0) as running:
            self.assertEqual(running.stdout.readline(), b"opened\n")
            self.assertEqual(running.stderr.readline().decode(), self.note(REMOTE))
            running.kill()

    def test_a_file_that_is_not_there(self):
        """Nothing is known of a folder that is not there."""
        self.list(REMOTE_LIST)
        ended = self.silt("run", "none/none")
        self.assertEqual((ended.status, ended.out, ended.note), (1, "refused 5 Device\n", ""))
        missing = self.silt("run", "none")
        self.assertEqual((missing.status, missing.note), (1, self.note(REMOTE, "none")))

    def test_a_terminal(self):
        self.list(REMOTE_LIST)
        status, out, shown = on_terminal(self, "run", "store", text="get =a\n")
        self.assertEqual((status, out, shown), (0, "opened\nabsent\n", self.note(REMOTE)))

    def test_no_standard_error(self):
        """A note that cannot be written changes nothing."""
        self.list(REMOTE_LIST)
        with open("/dev/full", "wb") as full:
            ended = self.finish(self.start("run", "store", stderr=full), "get =a\n")
        self.assertEqual((ended.status, ended.out), (0, "opened\nabsent\n"))
        self.starter = [*self.starter, "sh", "-c", 'exec "$@" 2>&-', "sh"]
        ended = self.silt("run", "store", text="get =a\n")
        self.assertEqual((ended.status, ended.out, ended.note), (0, "opened\nabsent\n", ""))


class Streams(WatchedCase):
    """A store that is a standard stream. Its folder lies in memory, as the system's own lists say."""

    def test_nothing_is_said_of_it(self):
        """It could go into the store."""
        before = self.store(SMALL).read_bytes()
        if self.silt("run", "store").note != f"silt: store: {IN_MEMORY}\n":
            self.skipTest("there is no place in memory here")
        for stream in ("stdin", "stdout", "stderr"):
            with open(self.path("store"), "r+b") as file:
                ended = self.finish(self.start("run", "store", **{stream: file}))
            self.assertEqual((ended.status, ended.note), (1, ""), stream)
            self.assertEqual(self.path("store").read_bytes(), before, stream)
