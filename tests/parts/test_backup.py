"""`serve --backup PATH`: a client orders a backup, and the server writes one while it serves."""
import os
import shutil
import stat
import threading
import time
import unittest

from backups import BEGUN, BGSAVE, ENDS, FAILED, FILLED, IN_PROGRESS, NONE_WRITTEN, SOON, UNDER_WAY, WRITTEN, BackupCase, key_of
from harness import PROVED, TIME_LIMIT, scaled
from resp import OK, command
from served import SMALL, WRITER
from test_metrics import MetricsCase
from test_serve_sets import names_of
from watch import read_record, watching
from writers import BUSY, CLIENTS, InTurn, Load, Remembering

# A store of many pages, whose backup has few.
ROOMY = "2 16 64 8 16 4000"
# Logs that have room for all commands that are under way.
WIDE = "4 256 1024 8 8 30000"
# The longest put beside a backup, in seconds.
LONGEST_PUT = 2


class Orders(BackupCase):
    def setUp(self):
        super().setUp()
        self.store(ROOMY)
        self.values = {f"key/{it}": f"{it:04x}" for it in range(200)}

    def test_a_line(self):
        for options in ((), ("--pipeline",)):
            with self.subTest(options):
                self.silt("format", "store", *ROOMY.split(), "--force")
                server = self.serve_store(*options)
                client = self.client(server)
                self.put_all(client, self.values)
                self.assertEqual(client.ask("backup"), [BEGUN])
                self.assertEqual(self.written(server), len(self.values))
                self.check_holds(self.values)
                self.wait_until(lambda: self.counts(client)["backups"] == 1, "the count")
                # The server goes on, and the backup stays as it is.
                later = {"key/1": "ffff", "more": "0102"}
                self.put_all(client, later)
                self.check_holds(self.values)
                self.assertEqual(client.ask("get =more"), ["value 0102"])
                server.kill()
                self.check_holds(self.values | later, "store")

    def test_a_second_one(self):
        """It is a file of its own, which has what came meanwhile."""
        server = self.serve_store()
        client = self.client(server)
        self.put_all(client, self.values)
        self.back_up(server, client)
        with open(self.path("backup"), "rb") as first:
            before = first.read()
            later = {"key/1": "ffff", "more": "0102"}
            self.put_all(client, later)
            self.assertEqual(self.back_up(server, client), len(self.values) + 2)
            self.assertNotEqual(os.fstat(first.fileno()).st_ino, self.path("backup").stat().st_ino)
            first.seek(0)
            self.assertEqual(first.read(), before)
        self.check_holds(self.values | later)
        self.wait_until(lambda: self.counts(client)["backups"] == 2, "the count")
        self.assertEqual(self.files(), ["backup"])
        self.assertEqual(server.errors().count("\n"), 2)

    def test_an_empty_store(self):
        server = self.serve_store()
        client = self.client(server)
        self.assertEqual(self.back_up(server, client), 0)
        self.check_holds({})
        self.check_empty("backup")
        self.put_all(client, {"a": "0001"})
        self.assertEqual(self.back_up(server, client), 1)
        self.check_holds({"a": "0001"})

    def test_a_command(self):
        for words in (["BGSAVE"], ["bgsave"], ["BGSAVE", "SCHEDULE"], ["Bgsave", "schedule"]):
            with self.subTest(words):
                server = self.serve_store("--resp")
                client = self.resp_client(server)
                self.assertEqual(client.ask("SET", "b", ""), OK)
                self.assertEqual(client.ask(*words), BGSAVE)
                self.assertEqual(self.written(server), 1)
                self.check_holds({"b": "0000"})
                self.wait_until(
                    lambda: b"\r\nbackups:1\r\n" in client.ask("INFO", "stats"), "the count"
                )
                server.kill()

    def test_words_that_are_none(self):
        server = self.serve_store()
        lines = ["backup now", "BACKUP", " backup", "backup backup"]
        self.assertEqual(self.client(server).ask(*lines), ["refused 20 BadLine"] * 4)
        server.kill()
        server = self.serve_store("--resp")
        client = self.resp_client(server)
        self.assertTrue(client.ask("BGSAVE", "now").startswith(b"-ERR "))
        self.assertTrue(client.ask("BGSAVE", "schedule", "schedule").startswith(b"-ERR "))
        self.assertEqual(client.ask("SAVE"), b"-ERR unknown command 'SAVE'\r\n")
        time.sleep(0.5)
        self.assertEqual((self.files(), server.errors()), ([], ""))

    def test_a_server_that_writes_none(self):
        self.options = ()
        server = self.serve_store()
        self.assertEqual(self.client(server).ask("backup"), ["refused 20 BadLine"])
        server.kill()
        server = self.serve_store("--resp")
        self.assertEqual(self.resp_client(server).ask("BGSAVE"), b"-ERR not served\r\n")
        self.assertEqual((self.files(), server.errors()), ([], ""))

    def test_two_at_once(self):
        """The care of the first order waits in its first write."""
        for options in ((), ("--resp",)):
            self.path("go").unlink(missing_ok=True)
            with self.subTest(options):
                env = watching(self, hold=f"pwrite@{self.care}:1:{self.path('go')}")
                server = self.serve_store(*options, env=env)
                if options:
                    client = self.resp_client(server)
                    client.send(2 * command("BGSAVE"))
                    self.assertEqual(client.replies(2), [BGSAVE, IN_PROGRESS])
                    self.assertEqual(self.resp_client(server).ask("BGSAVE"), IN_PROGRESS)
                else:
                    client = self.client(server)
                    self.assertEqual(client.ask("backup", "backup"), [BEGUN, UNDER_WAY])
                    self.assertEqual(self.client(server).ask("backup"), [UNDER_WAY])
                self.path("go").write_bytes(b"")
                self.written(server)
                time.sleep(0.5)
                self.assertEqual(server.errors().count("\n"), 1)
                server.kill()

    def test_many_clients_at_once(self):
        """Each order that begins one has its note."""
        server = self.serve_store()
        self.put_all(self.client(server), self.values)
        replies = []

        def ask(client):
            for _ in range(50):
                replies.append(client.ask("backup")[0])

        threads = [threading.Thread(target=ask, args=(it,)) for it in self.clients(server, 4)]
        for thread in threads:
            thread.start()
        for thread in threads:
            thread.join()
        self.assertLessEqual(set(replies), {BEGUN, UNDER_WAY})
        for _ in range(replies.count(BEGUN)):
            self.assertEqual(self.written(server), len(self.values))
        client = self.client(server)
        self.wait_until(
            lambda: self.counts(client)["backups"] == replies.count(BEGUN), "the count"
        )
        self.check_holds(self.values)

    def test_it_is_sparse(self):
        """It has the length of the store, and blocks for what the store has."""
        server = self.serve_store()
        self.put_all(self.client(server), {"a": "0001"})
        self.back_up(server)
        store, backup = self.path("store").stat(), self.path("backup").stat()
        self.assertEqual(store.st_size, backup.st_size)
        self.assertTrue(stat.S_ISREG(backup.st_mode))
        self.assertLess(512 * backup.st_blocks, backup.st_size / 2)

    def test_it_is_a_store(self):
        """It is served and tended, and takes commands. The lines of the other jobs are those of a
        store."""
        server = self.serve_store()
        self.put_all(self.client(server), self.values)
        self.back_up(server)
        self.assertEqual(self.silt("tend", "backup").status, 0)
        self.check_holds(self.values)
        self.options = ()
        other = self.serve_store(name="backup")
        client = self.client(other)
        self.assertEqual(client.ask("get =key/7", "put =more 0102"), ["value 0007", "accepted 1"])
        other.kill()
        self.check_holds(self.values | {"more": "0102"})

    def test_of_a_backup(self):
        """A served backup has backups."""
        server = self.serve_store()
        self.put_all(self.client(server), self.values)
        self.back_up(server)
        self.options = ("--backup", "backup2")
        other = self.serve_store(name="backup")
        self.order(self.client(other))
        self.written(other, "backup2")
        self.check_holds(self.values, "backup2")

    def test_beside_another_server_of_the_old_one(self):
        """The old file keeps its name no longer, and all its bytes."""
        server = self.serve_store()
        client = self.client(server)
        self.put_all(client, {"a": "0001"})
        self.back_up(server, client)
        kept, self.noted = self.noted, 0
        self.options = ()
        other = self.serve(name="backup")
        self.noted = kept
        reader = self.client(other)
        self.put_all(client, {"a": "0002"})
        self.back_up(server, client)
        self.assertEqual(reader.ask("get =a", "put =b 0003", "get =b")[::2], ["value 0001", "value 0003"])
        self.check_holds({"a": "0002"})

    def test_other_paths(self):
        """A path with folders, a long one, and one with a letter that is not ASCII."""
        self.path("deep/er").mkdir(parents=True)
        for name in ("deep/er/backup", f"{self.path('deep')}/b", "b" * 240, "Größe", "deep/../back up"):
            with self.subTest(name):
                self.options = ("--backup", name)
                server = self.serve_store()
                client = self.client(server)
                self.put_all(client, {"a": "0001"})
                self.order(client)
                self.written(server, name)
                self.check_holds({"a": "0001"}, name)
                server.kill()

    def test_the_working_folder(self):
        """A hyphen begins no option behind --backup=, and a path without a folder lies here."""
        self.options = ("--backup=-b",)
        server = self.serve_store()
        self.order(self.client(server))
        self.written(server, "-b")
        self.check_holds({}, "./-b")


class Page(MetricsCase, BackupCase):
    def test_the_count(self):
        """The page counts backups, and is served while one is written."""
        self.store(SMALL)
        slow = watching(self, slow=f"pwrite@{self.care}:1+:300")
        server = self.serve_page(env=slow)
        self.noted = 1  # where the page is
        client = self.client(server)
        self.assertEqual(self.numbers()["silt_backups"], 0)
        self.order(client)
        began = time.monotonic()
        self.assertEqual(self.numbers()["silt_backups"], 0)
        self.assertLess(time.monotonic() - began, SOON)
        self.written(server)
        self.wait_until(lambda: self.numbers()["silt_backups"] == 1, "the count")


class Scrubs(BackupCase):
    def test_an_order_in_a_long_scrub(self):
        """A scrub of this store takes more than ten seconds. A backup does not wait for it."""
        self.store("1000 1024 3000 3 8 20000")
        keys = 16_000 if PROVED else 12_000
        text = "".join(f"put =key/{it} {it:02000x}\n" for it in range(keys)) + "flush\n"
        ran = self.silt("run", "store", "--tend", "--strict", "--merge-at", 1, text=text)
        self.assertEqual(ran.status, 0, ran.lines[-1:])
        server = self.serve_store("--scrub", 1, "--scrub-rate", 1, "--merge-at", 8)
        client = self.client(server)
        time.sleep(12)
        self.order(client)
        began = time.monotonic()
        self.written(server)
        self.assertLess(time.monotonic() - began, SOON)
        self.assertEqual(self.counts(client)["scrubs"], 0)
        self.assertEqual(len(self.held()), keys)


class LoadCase(BackupCase):
    """Backups under load. What they hold is judged when the load has ended."""

    geometry = BUSY
    rounds = 10

    def check_rounds(self, writers, *options, **how):
        """Each backup has all commands that had their replies before its order, and holds a
        beginning of each writer's commands. Returns what a check prints of each."""
        server = self.serve_store(*options, **how)
        load = Load(self, server, writers)
        client = self.client(server)
        found, reports = [], []
        for _ in range(scaled(self.rounds)):
            most = load.count + self.random.randrange(50, 400)
            self.assertTrue(load.wait(most, limit=2 * TIME_LIMIT), server.errors())
            firsts = [len(it.done) for it in writers]
            self.order(client)
            commands = self.written(server)
            least = sum(it.accepted(first) for it, first in zip(writers, firsts, strict=True))
            lasts = [len(it.done) + len(it.pending) + 1 for it in writers]
            self.assertTrue(least <= commands <= sum(lasts), (least, commands, lasts))
            found.append((firsts, self.held()))
            reports.append(self.silt("check", self.backup, *self.set_options()))
        server.kill()
        load.join()
        self.assertEqual([it.wrong for it in writers], [[]] * len(writers))
        for firsts, held in found:
            for writer, first in zip(writers, firsts, strict=True):
                values = {
                    name: f"value {held.pop(key)}" if (key := key_of(name[1:])) in held else "absent"
                    for name in writer.values
                }
                self.assertTrue(writer.has_been(values, first), (writer.number, first, values))
            self.assertEqual(held, {})
        return reports


class Loads(LoadCase):
    def numbers(self, checked):
        return {words: int(number) for words, number in (it.rsplit(" ", 1) for it in checked.lines)}

    def test_under_load(self):
        """Logs freeze and are converted and merged all the time."""
        for options in ((), ("--merge-at", 1), ("--merge-at", 3)):
            with self.subTest(options):
                self.silt("format", "store", *self.geometry.split(), "--force")
                writers = [Remembering(it, self.random) for it in range(CLIENTS)]
                numbers = [self.numbers(it) for it in self.check_rounds(writers, *options)]
                generations = [it["generation"] for it in numbers]
                self.assertEqual(generations, sorted(generations))
                self.assertGreater(generations[-1] - generations[0], 3 * self.rounds)
                self.assertGreater(max(it["sorted entries"] for it in numbers), 0)

    def test_pipelined(self):
        """Each client has many commands under way."""
        self.store(WIDE)
        writers = [Remembering(it, self.random, 25, 75) for it in range(CLIENTS)]
        self.check_rounds(writers, "--pipeline")


class Sets(LoadCase):
    count = 4

    def setUp(self):
        super().setUp()
        self.format()

    def format(self, *options):
        made = self.silt(
            "format", "store", *self.geometry.split(), *self.set_options(), *options
        )
        self.assertEqual(made.status, 0, made)

    def mark(self, shard, name=None):
        """A file's mark: its magic bytes, its version, the numbers of the shard and of all; then
        the name of the set."""
        return self.path(f"{name or self.backup}.{shard}").read_bytes()[2048 : 2048 + 37]

    def in_turn(self, number):
        """A client whose commands go to one shard after the other."""
        names = zip(*(names_of(it, self.count, 6 * (number + 1))[-6:] for it in range(self.count)))
        return InTurn(number, [f"={name}" for row in names for name in row])

    def test_one_moment_of_all(self):
        """Slow reads of the care make the moment long. Without them conversions and merges come
        more often."""
        slow = watching(self, slow=f"pread@{self.care}:1+:3")
        for env, *options in (
            (slow,),
            (slow, "--pipeline"),
            (None, "--pipeline"),
            (None, "--merge-at", 1),
            (None, "--mergers", 1),
        ):
            with self.subTest(slow=env is not None, options=options):
                self.format("--force")
                writers = [self.in_turn(it) for it in range(3)]
                reports = self.check_rounds(writers, *options, env=env)
                generations = [
                    sum(int(it.split()[1]) for it in ran.lines if it.startswith("generation "))
                    for ran in reports
                ]
                self.assertEqual(generations, sorted(generations))
                self.assertGreater(generations[-1], generations[0])

    def test_one_client_alone(self):
        """With one client nothing else happens between its commands."""
        self.check_rounds([self.in_turn(0)])

    def test_a_set_of_its_own(self):
        """The files of a backup share a new name of their set, and work as a set."""
        server = self.serve_store()
        client = self.client(server)
        values = {f"k{it}": f"{it:08x}" for it in range(50)}
        self.put_all(client, values)
        names = {self.mark(0, "store")[21:]}
        for number in range(1, 4):
            self.assertEqual(self.back_up(server, client), 50)
            marks = [self.mark(it) for it in range(self.count)]
            self.assertEqual(
                [it[:21] for it in marks], [self.mark(it, "store")[:21] for it in range(self.count)]
            )
            self.assertEqual(len({it[21:] for it in marks}), 1)
            names.add(marks[0][21:])
            self.assertEqual(len(names), 1 + number)
        self.check_alone()
        self.check_holds(values)
        self.options = ()
        other = self.serve_store(name=self.backup)
        reader = self.client(other)
        self.assertEqual(reader.ask("get =k7", "flush"), ["value 00000007", "acknowledged 0"])
        self.put_all(reader, {"more": "00000001"})
        other.kill()
        self.check_holds(values | {"more": "00000001"})

    def test_a_command(self):
        made = self.silt("format", "store", *WIDE.split(), *self.set_options(), "--force")
        self.assertEqual(made.status, 0, made)
        server = self.serve_store("--resp")
        client = self.resp_client(server)
        for name in range(20):
            self.assertEqual(client.ask("SET", name, name % 10), OK)
        self.assertEqual(client.ask("BGSAVE"), BGSAVE)
        self.assertEqual(self.written(server), 20)
        self.check_holds({str(it): f"0001{ord(str(it % 10)):02x}00" for it in range(20)})

    def refused(self, name):
        """All jobs that open a set refuse this one."""
        for job in (("check", name), ("run", name), ("serve", name, 0)):
            ran = self.silt(*job, *self.set_options())
            self.assertEqual((ran.status, ran.lines[-1:]), (1, ["refused 2 BadGeometry"]), ran)

    def test_a_mix_is_refused(self):
        """Files of two backups, and files of a backup and of the store, are no set."""
        server = self.serve_store()
        client = self.client(server)
        self.back_up(server, client)
        for shard in range(self.count):
            shutil.copy(self.path(f"{self.backup}.{shard}"), self.path(f"first.{shard}"))
        self.back_up(server, client)
        server.kill()
        for shard in range(self.count):
            for other in ("first", "store"):
                for it in range(self.count):
                    source = other if it == shard else self.backup
                    shutil.copy(self.path(f"{source}.{it}"), self.path(f"mixed.{it}"))
                self.refused("mixed")
        for name in ("first", self.backup, "store"):
            self.check_holds({}, name)

    def test_a_shard_that_has_failed(self):
        """Each opening makes one sync. One shard fails, and there is no backup of the others."""
        server = self.serve_store("--stay")
        client = self.client(server)
        self.back_up(server, client)
        server.kill()
        server = self.serve_store("--stay", env=watching(self, fail="fdatasync:5:EIO"))
        client = self.client(server)
        self.assertEqual(client.ask("put =a 00000001"), ["unsettled 1"])
        self.assertIn("it takes nothing more until it is opened again", self.note(server))
        self.order(client)
        note = self.note(server)
        self.assertRegex(note, rf"\Asilt: backup(\.\d)?: no backup was written: {FAILED}\Z")
        self.check_holds({})


class Ends(BackupCase):
    """A server that ends while it writes a backup."""

    def setUp(self):
        super().setUp()
        self.store(ROOMY)
        server = self.serve_store()
        self.put_all(self.client(server), {"a": "0001"})
        self.back_up(server)
        self.assertEqual(self.client(server).exchange(["shutdown"]), [BEGUN])
        self.assertEqual(server.ended().status, 0)
        self.old = self.path("backup").read_bytes()

    def check_ended(self, server, limit=SOON, status=0):
        ended = server.ended(limit=limit)
        self.assertEqual(ended.status, status, ended)
        self.assertEqual(self.files(), ["backup"])
        note = self.note(server)
        if WRITTEN.fullmatch(note):
            self.check_holds({"a": "0001", "b": "0002"})
        else:
            self.assertEqual(NONE_WRITTEN.fullmatch(note)[2], ENDS)
            self.assertEqual(self.path("backup").read_bytes(), self.old)
        self.check_holds({"a": "0001", "b": "0002"}, "store")
        return note

    def test_a_shutdown_right_behind_it(self):
        for options in ((), ("--pipeline",)):
            for _ in range(scaled(5)):
                self.old = self.path("backup").read_bytes()
                server = self.serve_store(*options)
                client = self.client(server)
                lines = ["put =b 0002", "backup", "shutdown"]
                self.assertEqual(client.exchange(lines), ["accepted 1", BEGUN, BEGUN])
                self.check_ended(server)

    def test_a_shutdown_in_a_long_one(self):
        """Each write of the backup takes half a second. It is given up."""
        server = self.serve_store(env=watching(self, slow=f"pwrite@{self.care}:1+:500"))
        client = self.client(server)
        self.put_all(client, {"b": "0002"})
        self.order(client)
        time.sleep(0.7)
        self.assertEqual(client.exchange(["shutdown"]), [BEGUN])
        self.assertIn(ENDS, self.check_ended(server))

    def test_a_shutdown_while_the_copy_is_examined(self):
        """Each read of the copy takes a second. The examination is given up."""
        self.silt("format", "store", *FILLED.split(), "--force")
        lines = "".join(f"put =key/{it} {it:0200x}\n" for it in range(600))
        ran = self.silt("run", "store", "--tend", text=lines + "flush\n")
        self.assertEqual(ran.status, 0, ran.lines[-1:])
        server = self.serve_store("--merge-at", 4, env=watching(self, log="record"))
        self.back_up(server)
        server.kill()
        files = [it.file for it in self.calls_of_care() if it.name == "pread"]
        first = files.index("backup.new") + 1
        self.assertGreater(len(files) - first, 3 * SOON)
        self.old = self.path("backup").read_bytes()
        env = watching(self, log="record", slow=f"pread@{self.care}:{first + 1}+:1000")
        server = self.serve_store("--merge-at", 4, env=env)
        self.order(self.client(server))

        def is_examined():
            return any(
                it.name == "pread" and it.file == "backup.new"
                for it in read_record(self.path("record"))
            )

        self.wait_until(is_examined, "a read of the copy")
        self.assertEqual(self.client(server).exchange(["shutdown"]), [BEGUN])
        ended = server.ended(limit=SOON)
        self.assertEqual(ended.status, 0, ended)
        self.assertEqual(self.note(server), f"silt: backup: no backup was written: {ENDS}")
        self.assertEqual(self.files(), ["backup"])
        self.assertEqual(self.path("backup").read_bytes(), self.old)

    def test_the_last_session(self):
        """The server ends with its last session, also if that has ordered a backup."""
        for _ in range(5):
            self.old = self.path("backup").read_bytes()
            server = self.serve_store("--sessions", 1)
            client = self.client(server)
            self.assertEqual(client.exchange(["put =b 0002", "backup"]), ["accepted 1", BEGUN])
            self.check_ended(server, TIME_LIMIT)

    def test_a_store_that_fails_meanwhile(self):
        """The failure ends the server, with status 1, and leaves the old backup."""
        env = watching(self, slow=f"pwrite@{self.care}:1+:300", fail=f"fdatasync@{WRITER}:3+:EIO")
        server = self.serve_store(env=env)
        client = self.client(server)
        self.put_all(client, {"b": "0002"})
        self.order(client)
        self.assertEqual(client.ask("put =c 0003"), ["unsettled 2"])
        ended = server.ended(limit=SOON)
        self.assertEqual(ended.status, 1, ended)
        self.assertEqual(self.files(), ["backup"])
        self.assertEqual(self.path("backup").read_bytes(), self.old)
        self.assertRegex(ended.err, rf"(?m)^silt: backup: no backup was written: ({ENDS}|{FAILED})$")


class Calls(BackupCase):
    """The order of a backup's calls: a crash of the machine at each moment leaves the old file or
    the new one."""

    def recorded(self):
        server = self.serve_store(env=watching(self, log="record"))
        client = self.client(server)
        self.put_all(client, {f"k{it}": f"{it:08x}" for it in range(40)})
        self.back_up(server, client)
        server.kill()
        return self.calls_of_care()

    def check_drafts(self, calls, drafts, renamed):
        """Nothing is written but the drafts. Each is made by this backup, has its whole length, and
        is settled before the rename."""
        # The draft is made anew, and then opened as each store is.
        self.assertEqual({it.error for it in calls if it.result < 0} - {"ENOENT", "EEXIST"}, set())
        changing = [it for it in calls if it.name in ("pwrite", "write", "ftruncate")]
        written = {it.file for it in changing if it.file != "standard error"}
        self.assertEqual(written, set(drafts))
        for draft in drafts:
            opened = [it for it in calls if it.name == "open" and it.file == draft]
            self.assertTrue(any(it.asked & os.O_CREAT for it in opened), opened)
            its = [(place, it) for place, it in enumerate(calls) if it.file == draft]
            last = max(place for place, it in its if it.name in ("pwrite", "ftruncate"))
            # The length is a part of the file that fdatasync settles only if it is needed.
            syncs = [place for place, it in its if it.name in ("fsync", "fdatasync")]
            self.assertTrue(any(last < it < renamed for it in syncs), (draft, last, syncs))

    def renamed(self, calls):
        """The place of the only rename, which gives the draft its name."""
        (place,) = [place for place, it in enumerate(calls) if it.name == "rename"]
        self.assertEqual(calls[place].data.decode().split("\0"), ["backup.new", "backup"])
        return place

    def syncs_of(self, calls, folder):
        """The places of the syncs of a folder."""
        return [place for place, it in enumerate(calls) if it.name == "fsync" and it.file == folder]

    def test_of_a_store(self):
        self.store(WIDE)
        calls = self.recorded()
        renamed = self.renamed(calls)
        self.check_drafts(calls, ["backup.new"], renamed)
        self.assertGreater(max(self.syncs_of(calls, ".")), renamed, calls[renamed:])

    def test_of_a_set(self):
        """The folder is settled behind its files, and behind that the folder of its name. Then the
        link gets its name, which is settled before the old files are removed."""
        self.count = 3
        made = self.silt("format", "store", *WIDE.split(), "--shards", 3)
        self.assertEqual(made.status, 0, made)
        for new, old in (("backup.a", None), ("backup.b", "backup.a"), ("backup.a", "backup.b")):
            calls = self.recorded()
            renamed = self.renamed(calls)
            drafts = [f"{new}/set.{it}" for it in range(3)]
            self.check_drafts(calls, drafts, renamed)
            names = [it.data.decode() for it in calls if it.name in ("mkdir", "symlink")]
            self.assertEqual(names, [new, f"{new}\0backup.new"])
            made = max(place for place, it in enumerate(calls) if it.file in drafts)
            within = [it for it in self.syncs_of(calls, new) if made < it < renamed]
            self.assertTrue(within, calls[made : renamed + 1])
            settled = [it for it in self.syncs_of(calls, ".") if within[0] < it < renamed]
            self.assertTrue(settled, calls[made : renamed + 1])
            behind = [it for it in self.syncs_of(calls, ".") if renamed < it]
            self.assertTrue(behind, calls[renamed:])
            removed = [place for place, it in enumerate(calls) if it.name in ("unlink", "rmdir")]
            gone = [calls[it].file for it in removed]
            self.assertEqual(gone, [*(f"{old}/set.{it}" for it in range(3)), old] if old else [])
            self.assertTrue(all(behind[0] < it for it in removed), calls[renamed:])
            # What the path names is settled before a folder is made or removed.
            first = min(place for place, it in enumerate(calls) if it.name in ("mkdir", "rmdir"))
            self.assertLess(self.syncs_of(calls, ".")[0], first)

    def test_of_another_folder(self):
        """The folder of the backup is the one that is synced."""
        self.store(SMALL)
        self.path("other").mkdir()
        self.options = ("--backup", "other/backup")
        server = self.serve_store(env=watching(self, log="record"))
        self.order(self.client(server))
        self.written(server, "other/backup")
        server.kill()
        calls = self.calls_of_care()
        (renamed,) = [place for place, it in enumerate(calls) if it.name == "rename"]
        synced = [it.file for it in calls[renamed:] if it.name == "fsync"]
        self.assertEqual(synced, ["other"])


class Judging(unittest.TestCase):
    """What a client says of the values that a backup has."""

    def setUp(self):
        self.writer = InTurn(0, ["=a", "=b"])
        for _ in range(3):
            self.writer.next_lines()
        self.writer.take("accepted 1")
        self.writer.take("accepted 2")

    def judged(self, first, *values):
        found = {
            name: "absent" if it is None else f"value {it:08x}"
            for name, it in zip(("=a", "=b"), values, strict=True)
        }
        return self.writer.has_been(found, first)

    def test_a_beginning(self):
        """Two puts had their replies, and a third one has none."""
        for first, values in ((0, (None, None)), (1, (1, None)), (2, (1, 2)), (2, (3, 2))):
            self.assertTrue(self.judged(first, *values), values)

    def test_no_beginning(self):
        for first, values in ((1, (None, None)), (2, (1, None)), (0, (None, 2)), (0, (3, None))):
            self.assertFalse(self.judged(first, *values), values)


class Latency(BackupCase):
    """Gets and puts go on while a backup of a larger store is written."""

    keys = 200_000 if PROVED else 20_000

    def test_gets_and_puts_go_on(self):
        plan = self.silt("plan", self.keys + self.keys // 4, 100)
        self.assertEqual(plan.status, 0, plan)
        self.store(plan.lines[0])
        text = "".join(f"put =key/{it} {it:0200x}\n" for it in range(self.keys)) + "flush\n"
        ran = self.silt("run", "store", "--tend", "--strict", text=text, limit=4 * TIME_LIMIT)
        self.assertEqual(ran.status, 0, ran.lines[-1:])
        server = self.serve_store("--pipeline")
        putting, getting, ordering = self.clients(server, 3)
        longest, counts = {"put": 0, "get": 0}, {"put": 0, "get": 0}
        has_ended = threading.Event()

        def ask(client, kind):
            number = 0
            while not has_ended.is_set():
                key = f"=key/{number * 7919 % self.keys}"
                line = f"put {key} {number:0200x}" if kind == "put" else f"get {key}"
                began = time.monotonic()
                (reply,) = client.ask(line)
                longest[kind] = max(longest[kind], time.monotonic() - began)
                if reply.split()[0] != {"put": "accepted", "get": "value"}[kind]:
                    return
                counts[kind] += 1
                number += 1

        threads = [
            threading.Thread(target=ask, args=it) for it in ((putting, "put"), (getting, "get"))
        ]
        for thread in threads:
            thread.start()
        time.sleep(0.5)
        before, longest["put"], longest["get"] = dict(counts), 0, 0
        began = time.monotonic()
        self.order(ordering)
        self.written(server)
        lasted = time.monotonic() - began
        has_ended.set()
        for thread in threads:
            thread.join()
        did = {it: counts[it] - before[it] for it in counts}
        print(
            f"a backup of {self.keys} keys took {lasted:.2f} s; meanwhile {did['put']} puts, the"
            f" longest {1000 * longest['put']:.0f} ms, and {did['get']} gets, the longest"
            f" {1000 * longest['get']:.0f} ms",
            flush=True,
        )
        self.assertGreater(min(did.values()), 0)
        self.assertLess(longest["put"], LONGEST_PUT)
        self.assertLess(longest["get"], LONGEST_PUT)
        held = self.held()
        self.assertEqual(len(held), self.keys)


if __name__ == "__main__":
    unittest.main()
