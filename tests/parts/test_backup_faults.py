"""Backups of a served store that cannot be written: the path is bad, the store is damaged, the disk is
full, or a call fails. The old backup stays."""
import os
import pathlib
import shutil
import stat
import unittest

import model
from backups import (
    DAMAGED,
    FAILED,
    FILLED,
    NO_FOLDER,
    NO_LINK,
    NONE_WRITTEN,
    OTHER_FILES,
    OWN,
    WRITTEN,
    BackupCase,
    key_of,
)
from harness import PROVED, mounting
from served import SMALL
from test_merge_damage import DamageCase
from watch import watching
from writers import BUSY

ROOMY = "2 16 64 8 16 4000"


class Paths(BackupCase):
    """Paths at which no backup can be."""

    def setUp(self):
        super().setUp()
        self.store(ROOMY)

    def check_refused(self, why=None, before=(), options=()):
        """No backup is written, and the store is unharmed. The files beside it stay."""
        server = self.serve_store(*options)
        client = self.client(server)
        self.put_all(client, {"a": "0001"})
        self.order(client)
        found = self.not_written(server, why, options[1] if options else "backup")
        self.wait_until(lambda: self.counts(client)["backups"] == 0, "no count")
        self.put_all(client, {"b": "0002"})
        self.assertEqual(client.ask("get =a"), ["value 0001"])
        server.kill()
        self.check_holds({"a": "0001", "b": "0002"}, "store")
        self.assertEqual(self.files(), sorted(before))
        return found

    def test_words(self):
        for path in ("store", ""):
            for served in (("store", 0), ("store", 0, "--shards", 2)):
                ran = self.silt("serve", *served, "--backup", path)
                self.assertEqual((ran.status, ran.out), (2, "usage\n"))
        ran = self.silt("serve", "b.new", 0, "--backup", "b")
        self.assertEqual((ran.status, ran.out), (2, "usage\n"))
        ran = self.silt("serve", "store", 0, "--backup")
        self.assertEqual((ran.status, ran.out), (2, "usage\n"))

    def test_the_store_by_another_name(self):
        for make in (os.link, os.symlink):
            with self.subTest(make.__name__):
                self.silt("format", "store", *ROOMY.split(), "--force")
                make(self.path("store"), self.path("backup"))
                self.check_refused(OWN, ["backup"])
                self.assertTrue(self.path("backup").samefile(self.path("store")))
                self.path("backup").unlink()

    def test_the_store_by_another_text(self):
        for path in ("./store", str(self.path("store"))):
            with self.subTest(path):
                self.silt("format", "store", *ROOMY.split(), "--force")
                self.options = ()
                self.check_refused(OWN, options=("--backup", path))

    def test_the_store_at_the_draft(self):
        """A link to the store at PATH.new is not written through, whatever becomes of the
        backup."""
        for make in (os.link, os.symlink):
            with self.subTest(make.__name__):
                self.silt("format", "store", *ROOMY.split(), "--force")
                make(self.path("store"), self.path("backup.new"))
                server = self.serve_store()
                client = self.client(server)
                self.put_all(client, {"a": "0001"})
                self.order(client)
                note = self.note(server)
                self.put_all(client, {"b": "0002"})
                self.assertEqual(client.ask("get =a"), ["value 0001"])
                server.kill()
                self.check_holds({"a": "0001", "b": "0002"}, "store")
                if WRITTEN.fullmatch(note):
                    self.check_holds({"a": "0001"})
                else:
                    self.assertEqual(NONE_WRITTEN.fullmatch(note)[2], OWN)
                for name in self.files():
                    self.path(name).unlink()

    def test_a_link_to_another_file_at_the_draft(self):
        """What it names stays as it is."""
        for make in (os.link, os.symlink):
            with self.subTest(make.__name__):
                self.path("other").write_bytes(b"precious")
                make(self.path("other"), self.path("backup.new"))
                server = self.serve_store()
                self.order(self.client(server))
                self.note(server)
                server.kill()
                self.assertEqual(self.path("other").read_bytes(), b"precious")
                for name in self.files():
                    self.path(name).unlink()

    def test_a_link_at_the_draft_that_cannot_be_removed(self):
        """As one of another user in a folder whose files belong to whoever made them."""
        self.path("other").write_bytes(b"precious")
        os.symlink(self.path("other"), self.path("backup.new"))
        server = self.serve_store(env=watching(self, fail=f"unlink@{self.care}:1+:EACCES"))
        self.order(self.client(server))
        self.note(server)
        server.kill()
        self.assertEqual(self.path("other").read_bytes(), b"precious")
        self.assertFalse(self.path("backup").is_symlink())

    def test_no_folder(self):
        self.options = ()
        why = "No such file or directory (os error 2)"
        self.check_refused(why, options=("--backup", "missing/backup"))
        self.path("file").write_bytes(b"")
        why = "Not a directory (os error 20)"
        self.check_refused(why, options=("--backup", "file/backup"))

    def test_a_folder(self):
        """A backup replaces no folder, and its draft none."""
        self.path("backup").mkdir()
        self.check_refused("Is a directory (os error 21)", ["backup"])
        self.assertTrue(self.path("backup").is_dir())
        self.path("backup").rmdir()
        self.path("backup.new").mkdir()
        self.check_refused(None, ["backup.new"])

    def test_what_is_no_file(self):
        """A pipe at the path is not replaced by a file, and no backup waits for its reader."""
        os.mkfifo(self.path("backup"))
        server = self.serve_store()
        client = self.client(server)
        self.order(client)
        self.not_written(server)
        self.assertTrue(stat.S_ISFIFO(self.path("backup").stat().st_mode))

    def test_a_pipe_at_the_draft(self):
        os.mkfifo(self.path("backup.new"))
        server = self.serve_store()
        self.order(self.client(server))
        self.note(server)

    def test_a_name_that_is_too_long(self):
        self.options = ()
        self.check_refused("File name too long (os error 36)", options=("--backup", "b" * 253))

    def test_a_store_that_failed(self):
        server = self.serve_store("--stay")
        self.back_up(server)
        server.kill()
        server = self.serve_store("--stay", env=watching(self, fail="fdatasync:2:EIO"))
        client = self.client(server)
        self.assertEqual(client.ask("put =a 0001"), ["unsettled 1"])
        self.assertIn("the store takes nothing more", self.note(server))
        self.order(client)
        self.not_written(server, FAILED)
        self.check_holds({})
        self.assertEqual(self.files(), ["backup"])

    def test_a_folder_that_comes_later(self):
        """The next order is another try."""
        self.options = ("--backup", "later/backup")
        server = self.serve_store()
        client = self.client(server)
        self.order(client)
        self.not_written(server, name="later/backup")
        self.path("later").mkdir()
        self.order(client)
        self.written(server, "later/backup")
        self.check_holds({}, "later/backup")


class PathsOfSets(BackupCase):
    """What lies at the path of a set's backup, at its draft and at its two folders."""

    count = 2

    def setUp(self):
        super().setUp()
        self.format(self.count)
        self.values = {}

    def format(self, count, name="store"):
        made = self.silt("format", name, *ROOMY.split(), "--shards", count)
        self.assertEqual(made.status, 0, made)

    def begin_server(self):
        self.server = self.serve_store()
        self.asking = self.client(self.server)

    def put_more(self):
        more = {f"k{len(self.values)}": f"{len(self.values):04x}"}
        self.put_all(self.asking, more)
        self.values |= more

    def check_written(self):
        """The next order has its backup."""
        self.put_more()
        self.back_up(self.server, self.asking)
        self.check_holds(self.values)
        self.check_alone()

    def seen(self):
        """All that lies at the names of backups: files with their bytes, links with their texts."""
        found = {}
        for top in self.files():
            for folder, folders, files in [(self.path(top), [], [""]), *os.walk(self.path(top))]:
                for name in (*folders, *files):
                    it = pathlib.Path(folder, name) if name else self.path(top)
                    if it.is_symlink():
                        found[str(it)] = os.readlink(it)
                    elif it.is_file():
                        found[str(it)] = it.read_bytes()
                    else:
                        found[str(it)] = stat.S_IFMT(it.stat().st_mode)
        return found

    def check_refused(self, why=None):
        """No backup is written, and nothing at all has changed."""
        self.put_more()
        before = self.seen()
        self.order(self.asking)
        found = self.not_written(self.server, why)
        self.assertEqual(self.seen(), before)
        return found

    def next_folder(self):
        last = os.readlink(self.path("backup"))
        return self.path({"backup.a": "backup.b", "backup.b": "backup.a"}[last])

    def test_one_after_the_other(self):
        """The two folders take turns, and the link has the last name alone."""
        self.begin_server()
        for folder in ("backup.a", "backup.b", "backup.a"):
            self.check_written()
            self.assertEqual(os.readlink(self.path("backup")), folder)

    def test_what_is_no_link(self):
        """A folder, a file, a pipe, and a link to something else stay as they are."""
        makes = {
            "an empty folder": lambda it: it.mkdir(),
            "a folder": lambda it: (it.mkdir(), (it / "set.0").write_bytes(b"precious")),
            "a file": lambda it: it.write_bytes(b"precious"),
            "a pipe": os.mkfifo,
            "a link to nothing": lambda it: os.symlink("nothing", it),
            "a link to a folder": lambda it: os.symlink("other", it),
            "a link with another text": lambda it: os.symlink("./backup.a", it),
        }
        self.path("other").mkdir()
        self.begin_server()
        for what, make in makes.items():
            with self.subTest(what):
                make(self.path("backup"))
                self.check_refused(NO_LINK)
                self.path("backup").rename(self.path(f"moved {what}"))
        self.assertEqual(list(self.path("other").iterdir()), [])
        self.check_written()

    def test_a_link_to_a_missing_folder(self):
        """Somebody has removed the folder of the last backup."""
        for name, other in (("backup.a", "backup.b"), ("backup.b", "backup.a")):
            with self.subTest(name):
                os.symlink(name, self.path("backup"))
                self.begin_server()
                self.check_written()
                self.assertEqual(os.readlink(self.path("backup")), other)
                self.server.kill()
                shutil.rmtree(self.path(other))
                self.path("backup").unlink()

    def test_other_files_in_the_next_folder(self):
        """They stay, and so does the last backup."""
        self.begin_server()
        self.check_written()
        folder = self.next_folder()
        folder.mkdir()
        for name in ("notes", "set.64", "set.00", "set.-1", "set"):
            with self.subTest(name):
                (folder / name).write_bytes(b"precious")
                self.check_refused(OTHER_FILES)
                (folder / name).unlink()
        (folder / "set.1").mkdir()
        self.check_refused("Is a directory (os error 21)")
        (folder / "set.1").rmdir()
        self.check_written()

    def test_other_files_in_the_last_folder(self):
        """The next backup takes the place of the last one, and they stay. The one behind that is
        refused."""
        self.begin_server()
        self.check_written()
        folder = self.path(os.readlink(self.path("backup")))
        (folder / "notes").write_bytes(b"precious")
        self.put_more()
        self.back_up(self.server, self.asking)
        self.check_holds(self.values)
        self.assertEqual([it.name for it in folder.iterdir()], ["notes"])
        self.check_refused(OTHER_FILES)
        (folder / "notes").unlink()
        self.check_written()

    def test_a_folder_that_is_none(self):
        """A file and a link at the name of the next folder stay. Nothing is removed through the
        link."""
        self.begin_server()
        self.check_written()
        folder, other = self.next_folder(), self.path("other")
        other.mkdir()
        (other / "set.0").write_bytes(b"precious")
        os.symlink("other", folder)
        self.check_refused(NO_FOLDER)
        self.assertEqual((other / "set.0").read_bytes(), b"precious")
        folder.unlink()
        folder.write_bytes(b"precious")
        self.check_refused(NO_FOLDER)
        folder.unlink()
        self.check_written()

    def test_a_link_at_the_draft(self):
        """It is replaced, and what it names stays as it is."""
        self.begin_server()
        other = self.path("other")
        other.mkdir()
        for text in ("other", "other/set.0", "store.0", "nothing"):
            with self.subTest(text):
                (other / "set.0").write_bytes(b"precious")
                os.symlink(text, self.path("backup.new"))
                self.put_more()
                self.order(self.asking)
                if text == "store.0":
                    self.not_written(self.server, OWN)
                    self.path("backup.new").unlink()
                else:
                    self.written(self.server)
                    self.check_holds(self.values)
                    self.check_alone()
                self.assertEqual([it.name for it in other.iterdir()], ["set.0"])
                self.assertEqual((other / "set.0").read_bytes(), b"precious")
        self.check_written()

    def test_a_folder_at_the_draft(self):
        self.begin_server()
        self.check_written()
        self.path("backup.new").mkdir()
        self.check_refused()
        self.path("backup.new").rmdir()
        self.check_written()

    def test_a_file_that_is_the_stores(self):
        """A file of the set at a name that is written or removed."""
        for folder in ("backup.a", "backup.b"):
            for shard, name in ((0, "set.1"), (1, "set.63")):
                with self.subTest(folder=folder, name=name):
                    self.path(folder).mkdir()
                    os.link(self.path(f"store.{shard}"), self.path(folder) / name)
                    self.begin_server()
                    self.check_refused(OWN)
                    self.server.kill()
                    shutil.rmtree(self.path(folder))
        self.check_holds(self.values, "store")

    def test_a_served_backup(self):
        """A server of the backup itself writes none over it."""
        self.begin_server()
        self.check_written()
        self.server.kill()
        self.server = self.serve_store(name=self.backup)
        self.asking = self.client(self.server)
        self.check_refused(OWN)
        self.server.kill()
        self.check_holds(self.values)

    def test_a_backup_that_another_server_serves(self):
        """The link is replaced. The files stay until that server ends, and so long there is no
        backup behind that one."""
        self.begin_server()
        self.check_written()
        folder = self.path(os.readlink(self.path("backup")))
        kept, self.noted = self.noted, 0
        self.options = ()
        other = self.serve_store(name=self.backup)
        self.noted = kept
        before = dict(self.values)
        self.put_more()
        self.back_up(self.server, self.asking)
        self.check_holds(self.values)
        self.put_all(self.client(other), {"later": "0102"})
        self.check_holds(self.values)
        self.order(self.asking)
        self.assertIn("the file is in use", self.not_written(self.server))
        other.kill()
        self.check_holds(before | {"later": "0102"}, f"{folder.name}/set")
        self.check_written()

    def test_no_folder(self):
        self.path("file").write_bytes(b"")
        for path, why in (
            ("missing/backup", "No such file or directory (os error 2)"),
            ("file/backup", "Not a directory (os error 20)"),
            ("b" * 253, "File name too long (os error 36)"),
        ):
            self.options = ("--backup", path)
            self.begin_server()
            self.order(self.asking)
            self.not_written(self.server, why, path)
            self.server.kill()
        self.assertEqual(self.files(), [])
        self.assertEqual([it.name for it in self.folder.iterdir() if it.name[0] == "b"], [])

    def test_another_number_of_shards(self):
        """The next backup of the same path is one of another set."""
        for count in (2, 5, 3):
            self.count, self.values = count, {}
            self.format(count, f"store{count}")
            self.server = self.serve_store(name=f"store{count}")
            self.asking = self.client(self.server)
            self.check_written()
            self.check_written()
            self.server.kill()

    def test_a_folder_that_moves(self):
        """The link works wherever the folder is that has it."""
        self.path("deep").mkdir()
        for path in ("deep/backup", str(self.path("deep/backup"))):
            self.options = ("--backup", path)
            self.begin_server()
            self.put_more()
            self.order(self.asking)
            self.written(self.server, path)
            self.server.kill()
            self.path("deep").rename(self.path("moved"))
            self.check_holds(self.values, "moved/backup/set")
            self.path("moved").rename(self.path("deep"))

    def test_the_way_back(self):
        """The files take the place of the store's."""
        self.begin_server()
        self.check_written()
        kept = dict(self.values)
        self.put_more()
        self.server.kill()
        for shard in range(self.count):
            self.path(f"backup/set.{shard}").rename(self.path(f"store.{shard}"))
        self.check_holds(kept, "store")
        self.values = kept
        self.begin_server()
        self.check_written()


class Damage(DamageCase, BackupCase):
    """A byte of the served file that changes before the order."""

    def check_damaged(self, place, says):
        self.with_stores(3)
        server = self.serve_store("--merge-at", 4)
        client = self.client(server)
        self.back_up(server, client)
        old = self.path("backup").read_bytes()
        flipped = self.flip(place)
        self.assertEqual(client.ask("put =more 0102"), ["accepted 1"])
        self.order(client)
        why = self.not_written(server)
        self.assertTrue(why.startswith(f"{DAMAGED}: "), why)
        self.assertIn(why.removeprefix(f"{DAMAGED}: "), says)
        self.assertEqual(self.path("backup").read_bytes(), old)
        self.assertEqual(self.files(), ["backup"])
        self.assertEqual(self.counts(client)["backups"], 1)
        # The server goes on. What was put back is a backup again.
        self.assertEqual(client.ask("get =more"), ["value 0102"])
        self.put_back(flipped)
        self.back_up(server, client)
        self.assertEqual(self.held()[key_of("more")], "0102")
        server.kill()

    def test_a_hash_store(self):
        for place in self.hash_places(1)[:3]:
            with self.subTest(place=place):
                self.check_damaged(
                    place,
                    (
                        "a hash store has another digest than the manifest says",
                        "a slot of a hash store is damaged",
                    ),
                )

    def test_the_entries(self):
        for place in self.sorted_places()[:3]:
            with self.subTest(place=place):
                self.check_damaged(
                    place,
                    (
                        "the sorted store has another digest than the manifest says",
                        "an entry of the sorted store is damaged",
                    ),
                )

    def test_before_the_logs(self):
        """A byte of the header, of a manifest slot, and the kind of a row of a log."""
        refused = 0
        for place in (9, model.SECTOR + 10, 2 * model.SECTOR + 10, 4 * model.SECTOR):
            with self.subTest(place=place):
                self.with_stores(3)
                server = self.serve_store("--merge-at", 4)
                client = self.client(server)
                self.back_up(server, client)
                old, held = self.path("backup").read_bytes(), self.held()
                self.flip(place)
                self.order(client)
                note = self.note(server)
                server.kill()
                if WRITTEN.fullmatch(note):
                    # What changed counted for nothing.
                    self.assertEqual(self.held(), held)
                else:
                    self.assertIn(DAMAGED, note)
                    self.assertEqual(self.path("backup").read_bytes(), old)
                    refused += 1
        self.assertGreaterEqual(refused, 2)

    def test_an_old_device(self):
        """A store whose manifest has no digests has a backup too."""
        self.version = 1
        self.with_stores(3)
        server = self.serve_store("--merge-at", 4)
        client = self.client(server)
        before = self.held_of_server(client)
        self.back_up(server, client)
        self.assertEqual(len(self.held()), before)

    def held_of_server(self, client):
        """How many of the keys of the store have a value."""
        replies = client.ask(*(f"get =key/{it}" for it in range(20)))
        return sum(it.startswith("value") for it in replies)


class FullDisks(BackupCase):
    """A backup on a file system of its own, which is full."""

    def setUp(self):
        super().setUp()
        # The numbers of a store whose backup takes some hundred pages.
        self.store("400 64 200 3 4 4000")
        lines = "".join(f"put =key/{it} {it:0800x}\n" for it in range(600))
        self.silt("run", "store", "--tend", text=lines + "flush\n")

    def test_a_small_file_system(self):
        """First there is room for a backup of a small store, and then for no other one."""
        self.path("small").mkdir()
        self.store(SMALL, ["put =old 0001", "flush"], "old")
        script = (
            "mount -t tmpfs -o size=128k tmpfs small && cp old small/backup && "
            'exec "$0" "$@"'
        )
        self.starter = [*mounting(self), "sh", "-c", script]
        self.options = ("--backup", "small/backup")
        server = self.serve_store()
        self.starter = ()
        there = pathlib.Path(f"/proc/{server.process.pid}/root") / str(self.path("small"))[1:]
        old = (there / "backup").read_bytes()
        client = self.client(server)
        for _ in range(2):
            self.order(client)
            why = self.not_written(server, name="small/backup")
            self.assertEqual(why, "No space left on device (os error 28)")
            self.assertEqual([it.name for it in there.iterdir()], ["backup"])
            self.assertEqual((there / "backup").read_bytes(), old)
        self.assertEqual(client.ask("put =more " + "01" * 400), ["accepted 1"])


class FullDisksOfSets(BackupCase):
    """The same of a set: neither a file nor a folder nor a link stays."""

    count = 2

    def test_a_small_file_system(self):
        made = self.silt("format", "store", *"400 64 200 3 4 4000".split(), *self.set_options())
        self.assertEqual(made.status, 0, made)
        lines = "".join(f"put =key/{it} {it:0800x}\n" for it in range(600))
        self.silt("run", "store", "--tend", *self.set_options(), text=lines + "flush\n")
        self.path("small").mkdir()
        script = 'mount -t tmpfs -o size=128k tmpfs small && exec "$0" "$@"'
        self.starter = [*mounting(self), "sh", "-c", script]
        self.options = ("--backup", "small/backup")
        server = self.serve_store()
        self.starter = ()
        there = pathlib.Path(f"/proc/{server.process.pid}/root") / str(self.path("small"))[1:]
        client = self.client(server)
        for _ in range(2):
            self.order(client)
            why = self.not_written(server, name="small/backup")
            self.assertEqual(why, "No space left on device (os error 28)")
            self.assertEqual(list(there.iterdir()), [])
        self.assertEqual(client.ask("put =more " + "01" * 400), ["accepted 1"])


class Faults(BackupCase):
    """Each call of a backup fails once."""

    # So many calls of a backup ask what a path is.
    stats = 6
    # The numbers of its requests for memory.
    requests = range(1, 25)

    def setUp(self):
        super().setUp()
        self.values = {f"key/{it}": f"{it:0200x}" for it in range(600)}
        self.format()
        lines = "".join(f"put ={it} {self.values[it]}\n" for it in self.values)
        ran = self.silt("run", "store", "--tend", *self.set_options(), text=lines + "flush\n")
        self.assertEqual(ran.status, 0, ran.lines[-1:])

    def format(self):
        made = self.silt("format", "store", *FILLED.split(), *self.set_options())
        self.assertEqual(made.status, 0, made)

    def calls(self):
        """How many calls of each name the care makes for a backup that takes the place of one."""
        server = self.serve_store("--merge-at", 4)
        self.back_up(server)
        server.kill()
        server = self.serve_store("--merge-at", 4, env=watching(self, log="record"))
        self.back_up(server)
        server.kill()
        names = [it.name for it in self.calls_of_care()]
        return {name: names.count(name) for name in names}

    def check_fault(self, server, note, client):
        """There is the old backup or a new one, which is sound, and the next order has its
        backup."""
        if WRITTEN.fullmatch(note):
            self.check_holds(self.values)
        else:
            self.assertTrue(NONE_WRITTEN.fullmatch(note), note)
            self.assertIn(self.held(), (self.old, self.new))
        self.assertEqual([it for it in self.files() if ".new" in it], [])
        self.assertTrue(server.is_running())
        self.assertEqual(client.ask("get =more"), [f"value {self.values['more']}"])

    def sweep(self, name, errors, numbers):
        """Lets the calls of these numbers fail, one in each server. Returns the notes."""
        notes = []
        for number in numbers:
            for error in errors:
                # The old backup lacks a value that the next one has.
                self.old = self.held()
                self.values["more"] = f"{self.random.getrandbits(800):0200x}"
                env = watching(self, fail=f"{name}@{self.care}:{number}:{error}")
                server = self.serve_store("--merge-at", 4, env=env)
                client = self.client(server)
                self.put_all(client, {"more": self.values["more"]})
                self.new = {key_of(it): self.values[it] for it in self.values}
                self.order(client)
                note = self.note(server)
                with self.subTest(call=name, number=number, error=error, note=note):
                    self.check_fault(server, note, client)
                    self.values["behind"] = f"{self.random.getrandbits(800):0200x}"
                    self.put_all(client, {"behind": self.values["behind"]})
                    # A backup with fewer calls leaves the fault to the next one.
                    self.order(client)
                    if not WRITTEN.fullmatch(self.note(server)):
                        self.assertTrue(WRITTEN.fullmatch(note), note)
                        self.back_up(server, client)
                    self.check_holds(self.values)
                    self.check_alone()
                    notes.append(note)
                server.kill()
        return notes

    def some(self, count, most=6):
        """The first and the last calls, and some between them."""
        numbers = range(1, count + 1)
        if count <= most:
            return numbers
        between = self.random.sample(numbers[2:-2], most - 4)
        return sorted([*numbers[:2], *between, *numbers[-2:]])

    def test_each_call(self):
        errors = {
            "pwrite": ("ENOSPC", "EIO"),
            "pread": ("EIO",),
            "fdatasync": ("EIO", "ENOSPC"),
            "fsync": ("EIO",),
            "ftruncate": ("EFBIG",),
            "open": ("EMFILE", "EACCES"),
            "flock": ("EAGAIN",),
            "rename": ("EACCES", "EROFS"),
            "unlink": ("EACCES",),
            "mkdir": ("EACCES", "ENOSPC"),
            "symlink": ("EACCES", "ENOSPC"),
            "readlink": ("EIO",),
            "rmdir": ("EACCES",),
            "stat": ("EACCES",),
        }
        calls = self.calls() | {"stat": self.stats}
        for name in errors:
            notes = self.sweep(name, errors[name], self.some(calls.get(name, 0)))
            print(name, calls.get(name, 0), sorted({it.split(": ", 2)[2] if ": no" in it else "written" for it in notes}))

    def test_merges_go_on(self):
        """A backup that is not written holds up no merge behind it."""
        for call in ("open", "pwrite", "fdatasync", "pread", "rename"):
            with self.subTest(call):
                made = self.silt("format", "store", *BUSY.split(), *self.set_options(), "--force")
                self.assertEqual(made.status, 0, made)
                server = self.serve_store(env=watching(self, fail=f"{call}@{self.care}:1+:EIO"))
                client = self.client(server)
                for _ in range(3):
                    self.order(client)
                    self.not_written(server)
                    replies = client.ask(*(f"put =k{it % 20} {it:08x}" for it in range(300)))
                    self.assertEqual({it.split()[0] for it in replies}, {"accepted"})
                server.kill()

    @unittest.skipUnless(PROVED, "a build with a memory checker refuses no memory")
    def test_refused_memory(self):
        server = self.serve_store()
        self.back_up(server)
        server.kill()
        notes = self.sweep("memory", ["ENOMEM"], self.requests)
        self.assertIn("silt: backup: no backup was written: there is no memory for it", notes)


class FaultsOfSets(Faults):
    count = 2
    stats = 300

    @property
    def requests(self):
        """Some of them. The first one of the care's thread is none of a backup."""
        return sorted(self.random.sample(range(2, 260), 24))

    def some(self, count, most=4):
        return super().some(count, most + 2)[: most + 1] if count > most + 2 else range(1, count + 1)


if __name__ == "__main__":
    unittest.main()
