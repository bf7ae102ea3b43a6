"""Servers that are killed while they write a backup: there is the old one, or a new one."""
import os
import time
import unittest

import model
from backups import FILLED, BackupCase
from harness import scaled
from watch import read_record, watching


class KillCase(BackupCase):
    """A server that is killed while it writes a backup."""

    kills = 36
    # Each call of the care takes a while, so that kills come between all of them.
    calls = (
        *("open", "ftruncate", "pwrite", "fdatasync", "fsync", "rename", "unlink"),
        *("mkdir", "symlink", "rmdir"),
    )

    def setUp(self):
        super().setUp()
        self.values = {f"key/{it}": f"{it:0200x}" for it in range(1000)}
        self.format()
        lines = [f"put ={it} {self.values[it]}\n" for it in self.values]
        ran = self.silt("run", "store", "--tend", *self.set_options(), text="".join(lines) + "flush\n")
        self.assertEqual(ran.status, 0, ran.lines[-1:])

    def format(self):
        made = self.silt("format", "store", *FILLED.split(), *self.set_options())
        self.assertEqual(made.status, 0, made)

    def put_more(self, client):
        more = {
            f"key/{self.random.randrange(1200)}": f"{self.random.getrandbits(800):0200x}"
            for _ in range(10)
        }
        self.put_all(client, more)
        self.values |= more

    def whole(self):
        """A backup that nothing hinders. What lies there is taken no notice of."""
        server = self.serve_store("--merge-at", 2)
        client = self.client(server)
        self.put_more(client)
        self.back_up(server, client)
        server.kill()
        self.check_holds(self.values)

    def slowly(self):
        return watching(self, slow=[f"{it}@{self.care}:1+:3" for it in self.calls])

    def check_at_any_moment(self):
        """The old backup is there, or the new one. What is left of a backup does not hinder the
        next one."""
        self.whole()
        server = self.serve_store("--merge-at", 2, env=self.slowly())
        began = time.monotonic()
        self.back_up(server)
        lasted = time.monotonic() - began
        server.kill()
        ended = {"old": 0, "new": 0}
        # At once, long after, and between: a backup may take longer than that one on a busy machine.
        moments = [0, 8, *(1.4 * self.random.random() for _ in range(scaled(self.kills)))]
        for moment in moments:
            old, before = self.image(), dict(self.values)
            server = self.serve_store("--merge-at", 2, env=self.slowly())
            client = self.client(server)
            self.put_more(client)
            self.order(client)
            time.sleep(moment * lasted)
            server.kill()
            ended[self.judge(old, before)] += 1
            self.whole()
            self.check_alone()
        print(f"killed within {lasted:.2f} s: {ended}", flush=True)
        self.assertGreater(min(ended["old"], ended["new"]), 0, ended)

    def judge(self, old, before):
        """What lies at the path of the backup: the old one, or the new one."""
        if self.image() == old:
            self.check_holds(before)
            return "old"
        self.check_holds(self.values)
        return "new"

    def killed_when(self, hold, is_reached):
        """Kills a server whose care waits in this call. Returns the backup before."""
        self.whole()
        old, before = self.image(), dict(self.values)
        server = self.serve_store(env=watching(self, hold=f"{hold}:{self.path('never')}"))
        client = self.client(server)
        self.put_more(client)
        self.order(client)
        self.wait_until(lambda: is_reached(old), f"the call {hold}")
        time.sleep(0.1)
        server.kill()
        return old, before

    def is_sound(self, name):
        """Whether a file holds a store, as far as the model sees."""
        try:
            return len(model.examine(self.path(name).read_bytes()).stores()) > 0
        except (model.Refused, FileNotFoundError):
            return False


class Kills(KillCase):
    def test_at_any_moment(self):
        self.check_at_any_moment()

    def test_before_the_rename(self):
        """The old backup is there, and the new one is whole beside it."""
        old, before = self.killed_when(f"rename@{self.care}:1", lambda _: self.is_sound("backup.new"))
        self.assertEqual(self.judge(old, before), "old")
        self.check_holds(self.values, "backup.new")
        self.whole()

    def test_behind_the_rename(self):
        """A call behind the rename is not needed: the new backup has its name."""
        def is_renamed(old):
            return self.image() != old

        for call in ("fsync", "open"):
            self.whole()
            server = self.serve_store(env=watching(self, log="record"))
            self.back_up(server)
            server.kill()
            names = [it.name for it in self.calls_of_care()]
            number = names[: names.index("rename")].count(call) + 1
            with self.subTest(call):
                old, before = self.killed_when(f"{call}@{self.care}:{number}", is_renamed)
                self.assertEqual(self.judge(old, before), "new")

    def test_garbage_at_the_draft(self):
        """Whatever lies at PATH.new, a backup is written."""
        for size in (0, 1, 5000, 10_000_000):
            with self.subTest(size=size):
                self.path("backup.new").write_bytes(self.random.randbytes(size))
                self.whole()
                self.assertEqual(self.files(), ["backup"])


class KillsOfSets(KillCase):
    """All files are the old ones, or all are the new ones."""

    count = 3
    kills = 18
    # The calls that change what the folders have, and those that settle it.
    changing = ("mkdir", "symlink", "fsync", "rename", "unlink", "rmdir")

    def test_at_any_moment(self):
        self.check_at_any_moment()

    def made(self):
        """The changing calls of the care so far, by name. It alone reads a link, and does so
        first."""
        calls = read_record(self.path("record"))
        cares = {it.thread for it in calls if it.name == "readlink"}
        return [it.name for it in calls if it.thread in cares and it.name in self.changing]

    def test_before_each_change(self):
        """A server is killed before each call that changes a folder or settles it. It is the rename
        alone that decides."""
        self.whole()
        server = self.serve_store("--merge-at", 2, env=watching(self, log="record"))
        self.back_up(server)
        server.kill()
        made = self.made()
        self.assertEqual(made.count("rename"), 1)
        self.assertEqual(made.count("unlink"), self.count)
        for place, name in enumerate(made):
            number = made[: place + 1].count(name)
            with self.subTest(call=name, number=number):
                self.whole()
                old, before = self.image(), dict(self.values)
                hold = f"{name}@{self.care}:{number}:{self.path('never')}"
                env = watching(self, log="record", hold=hold)
                server = self.serve_store("--merge-at", 2, env=env)
                client = self.client(server)
                self.put_more(client)
                self.order(client)
                self.wait_until(lambda: len(self.made()) == place, f"what is before {name}")
                time.sleep(0.05)
                server.kill()
                self.assertEqual(self.made(), made[:place])
                due = "new" if "rename" in made[:place] else "old"
                self.assertEqual(self.judge(old, before), due)
                self.whole()
                self.check_alone()

    def test_the_draft_is_whole_before_the_rename(self):
        old, before = self.killed_when(
            f"rename@{self.care}:1",
            lambda _: all(self.is_sound(f"backup.new/set.{it}") for it in range(self.count)),
        )
        self.assertEqual(self.judge(old, before), "old")
        self.check_holds(self.values, "backup.new/set")
        self.whole()
        self.check_alone()

    def test_the_first_one_is_broken_off(self):
        """Without an old backup nothing is opened. The next one takes no notice of what is left."""
        server = self.serve_store(env=watching(self, hold=f"rename@{self.care}:1:{self.path('never')}"))
        self.order(self.client(server))
        drafts = [f"backup.a/set.{it}" for it in range(self.count)]
        self.wait_until(lambda: all(map(self.is_sound, drafts)), "drafts that are sound")
        server.kill()
        self.assertEqual(self.files(), ["backup.a", "backup.new"])
        ran = self.silt("run", self.backup, *self.set_options())
        self.assertEqual((ran.status, ran.out), (1, "refused 5 Device\n"))
        self.whole()
        self.check_alone()

    def test_garbage_at_the_draft(self):
        """Whatever lies at the names of the next backup's files, it is written."""
        self.whole()
        for lies in ("file", "link", "files", "both"):
            with self.subTest(lies):
                folder = self.next_folder()
                if lies in ("file", "both"):
                    self.path("backup.new").write_bytes(self.random.randbytes(5000))
                if lies == "link":
                    os.symlink("backup.c", self.path("backup.new"))
                if lies in ("files", "both"):
                    folder.mkdir()
                    for it in (0, 1, self.count, 63):
                        (folder / f"set.{it}").write_bytes(self.random.randbytes(9000))
                self.whole()
                self.check_alone()

    def next_folder(self):
        """The folder that the next backup gets."""
        last = os.readlink(self.path("backup"))
        return self.path({"backup.a": "backup.b", "backup.b": "backup.a"}[last])


if __name__ == "__main__":
    unittest.main()
