"""A server that writes backups, and what is said of them."""
import os
import re

from harness import TIME_LIMIT
from layout import key_bytes
from resp import RespClient
from served import CARE, SMALL, ServedCase
from watch import read_record, watching

# The replies to an order.
BEGUN = "begun"
UNDER_WAY = "under way"
BGSAVE = b"+Background saving started\r\n"
IN_PROGRESS = b"-ERR Background save already in progress\r\n"
# What is said of a backup that was written: its path, and of which moment it is.
WRITTEN = re.compile(
    r"silt: (.*): a backup is written, of the store as it was when this server had accepted "
    r"(\d+) (commands?)"
)
# What is said if none was written: its path, and why.
NONE_WRITTEN = re.compile(r"silt: (.*): no backup was written: (.*)")
OWN = "it is a file of the served store"
ENDS = "the server ends"
NO_LINK = "it is no link to PATH.a or PATH.b, so no backup of a set takes its place"
NO_FOLDER = "PATH.a or PATH.b, where its files are to go, is no folder"
OTHER_FILES = "the folder PATH.a or PATH.b, where its files are to go, holds other files"
FAILED = "the store has failed"
DAMAGED = "the store's device is damaged, or the copy was changed"
# Two hundred rows are a log: of a thousand puts there are rows, hash stores and entries.
FILLED = "100 64 200 3 4 4000"
# A server that is told so ends within so many seconds.
SOON = 5


# The number of the care's thread in servers of so many shards.
_cares = {None: CARE}


def key_of(name):
    """The key of a name, in digits."""
    return key_bytes(f"={name}").hex()


class BackupCase(ServedCase):
    """A server of `store` that writes backups to `backup`."""

    options = ("--backup", "backup", *ServedCase.patient)
    count = None

    def setUp(self):
        super().setUp()
        self.noted = 0

    def set_options(self):
        return () if self.count is None else ("--shards", self.count)

    @property
    def backup(self):
        """The name of the backup: of a set, that of its files in the folder that `backup` names."""
        return "backup" if self.count is None else "backup/set"

    def serve_store(self, *options, **how):
        self.noted = 0
        return self.serve(*self.set_options(), *options, **how)

    @property
    def care(self):
        """The number of the care's thread, by the order of the starts. In a server of a set the
        threads that open the shards come first."""
        if self.count not in _cares:
            _cares[self.count] = self.find_care()
        return _cares[self.count]

    def find_care(self):
        """The same of a small set, which has a backup. Each thread before the care makes calls."""
        self.silt("format", "probe", *SMALL.split(), *self.set_options())
        words = ("probe", 0, *self.set_options(), "--backup", "probed")
        server = self.begin(*words, env=watching(self, log="probe record")).listen()
        self.assertEqual(self.client(server).ask("backup"), [BEGUN])
        self.wait_until(server.errors, "the note")
        server.kill()
        calls = read_record(self.path("probe record"))
        (care,) = {it.thread for it in calls if it.name == "rename"}
        return 1 + len({it.thread for it in calls if server.process.pid < it.thread < care})

    def resp_client(self, server):
        client = RespClient(server.port)
        self.addCleanup(client.close)
        return client

    def order(self, client):
        """Orders a backup. One whose note came may not have ended yet."""
        for _ in self.turns("the end of the backup before"):
            (reply,) = client.ask("backup")
            if reply == BEGUN:
                return
            self.assertEqual(reply, UNDER_WAY)

    def note(self, server, limit=TIME_LIMIT):
        """The next line on standard error."""
        notes = []

        def is_there():
            notes[:] = server.errors().split("\n")[:-1]
            return len(notes) > self.noted

        self.wait_until(is_there, f"a note behind {server.errors()!r}", limit)
        self.noted += 1
        return notes[self.noted - 1]

    def written(self, server, name="backup"):
        """Waits until a backup was written. Returns how many commands its note says."""
        note = self.note(server)
        found = WRITTEN.fullmatch(note)
        self.assertTrue(found, note)
        path, number, noun = found.groups()
        self.assertEqual((path, noun), (name, "command" if number == "1" else "commands"))
        return int(number)

    def not_written(self, server, why=None, name="backup"):
        """Waits until it is said that no backup was written. Returns why."""
        note = self.note(server)
        found = NONE_WRITTEN.fullmatch(note)
        self.assertTrue(found, note)
        self.assertEqual(found[1], name)
        if why is not None:
            self.assertEqual(found[2], why)
        return found[2]

    def back_up(self, server, client=None):
        """Has a backup written."""
        client = client or self.client(server)
        self.order(client)
        return self.written(server)

    def counts(self, client):
        """What the line `info` says."""
        client.send("info")
        return {name: int(number) for name, number in map(str.split, iter(client.reply, "end"))}

    def held(self, name=None):
        """What a store or a set has, by key. It is sound."""
        name = name or self.backup
        checked = self.silt("check", name, *self.set_options())
        self.assertEqual(checked.status, 0, checked)
        dumped = self.silt("dump", name, *self.set_options(), limit=2 * TIME_LIMIT)
        self.assertEqual((dumped.status, dumped.err), (0, ""), dumped.err)
        return dict(it.split()[1:] for it in dumped.lines)

    def check_holds(self, values, name=None):
        """A store has these values, by the names of their keys."""
        self.assertEqual(self.held(name), {key_of(it): values[it] for it in values})

    def files(self):
        """The names of all files there that belong to backups."""
        return sorted(it.name for it in self.folder.iterdir() if it.name.startswith("backup"))

    def check_alone(self, name="backup"):
        """Nothing else is left of backups. That of a set is a link to one of two folders, which has
        its files alone."""
        if self.count is None:
            self.assertEqual(self.files(), [name])
            return
        link = os.readlink(self.path(name))
        self.assertIn(link, (f"{name}.a", f"{name}.b"))
        self.assertEqual(self.files(), [name, link])
        within = sorted(it.name for it in self.path(link).iterdir())
        self.assertEqual(within, sorted(f"set.{it}" for it in range(self.count)))

    def image(self):
        """The bytes of the backup."""
        if self.count is None:
            return self.path("backup").read_bytes()
        return [self.path(f"{self.backup}.{it}").read_bytes() for it in range(self.count)]

    def calls_of_care(self):
        """The recorded calls of the thread that renames."""
        calls = read_record(self.path("record"))
        (thread,) = {it.thread for it in calls if it.name == "rename"}
        return [it for it in calls if it.thread == thread]

    def put_all(self, client, values):
        replies = client.ask(*(f"put ={it} {values[it]}" for it in values))
        self.assertEqual({it.split()[0] for it in replies} | {"accepted"}, {"accepted"})
