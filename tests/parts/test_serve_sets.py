"""A server of a set: each line goes to the shard of its key, and a flush to all of them."""
import hashlib
import itertools
import os
import threading
import time

from harness import Ended, scaled
from model import Geometry, examine
from resp import NULL, OK, RespClient, array, command, number, string
from served import ServedCase
from watch import read_record, watching

# The six numbers of each shard: one log takes all rows of a test.
WIDE = "4 256 1024 8 8 20000"
# Stores for some dozen keys each.
SMALL = "4 16 56 3 4 2000"
# Logs of eight rows and few regions, so that freezes, conversions and merges go on all the time.
BUSY = "4 4 8 4 3 200"
# Logs of four rows, and hash stores of eight slots.
TINY = "2 2 4 4 4 40"
GEOMETRY = "refused 2 BadGeometry\n"
IO = "Input/output error (os error 5)"


def key_of(name):
    """The key of a name, in digits."""
    return hashlib.sha1(name.encode()).hexdigest()


def shard_of(name, count):
    """The shard of a name: the second four bytes of its key, modulo the number of shards."""
    return int(key_of(name)[8:16], 16) % count


def names_of(shard, count, how_many):
    """So many names whose keys are this shard's."""
    names = (f"n{it}" for it in range(10_000))
    return [it for it in names if shard_of(it, count) == shard][:how_many]


def ended_by_loss(run):
    """Runs a client until its connection breaks."""
    try:
        run()
    except OSError:
        pass


class SetCase(ServedCase):
    count = 4
    geometry = WIDE

    def setUp(self):
        super().setUp()
        self.format()

    def format(self, *options):
        made = self.silt(
            "format", "store", *self.geometry.split(), "--shards", self.count, *options
        )
        self.assertEqual(made.status, 0, made)

    def serve_set(self, *options, **how):
        return self.serve("--shards", self.count, *options, **how)

    def held(self):
        """What all files hold, by key. Each key is in the file of its shard."""
        held = {}
        for shard in range(self.count):
            dumped = self.silt("dump", f"store.{shard}")
            self.assertEqual(dumped.status, 0, dumped)
            for line in dumped.lines:
                _, key, value = line.split()
                self.assertEqual(int(key[8:16], 16) % self.count, shard, line)
                held[key] = value
        return held


class Lines(SetCase):
    def next_line(self, held, counts):
        """A line, and the reply to it. The map and the count of its shard are those after it."""
        name = f"k{self.random.randrange(40)}"
        shard = shard_of(name, self.count)
        kind = self.random.choice("ppdsg")
        now, new = held.get(name), f"{self.random.randrange(2 ** 32):08x}"
        if kind == "g":
            return f"get ={name}", "absent" if now is None else f"value {now}"
        if kind == "s" and self.random.randrange(3) == 0:
            old = new if now is None else f"{int(now, 16) ^ 1:08x}"
            return f"swap ={name} {old} {new}", "differs"
        counts[shard] += 1
        if kind == "d":
            held.pop(name, None)
            return f"delete ={name}", f"accepted {counts[shard]}"
        held[name] = new
        line = f"swap ={name} {now or '-'} {new}" if kind == "s" else f"put ={name} {new}"
        return line, f"accepted {counts[shard]}"

    def test_replies_come_in_the_order_of_the_lines(self):
        """Against a plain map, with each shard's own count."""
        for options in ((), ("--pipeline",)):
            with self.subTest(options):
                self.format("--force")
                server = self.serve_set(*options)
                client = self.client(server)
                held, counts = {}, [0] * self.count
                for _ in range(scaled(30)):
                    burst = self.random.randrange(1, 60)
                    lines, due = zip(*(self.next_line(held, counts) for _ in range(burst)))
                    self.assertEqual(client.ask(*lines), list(due), lines)
                    self.assertEqual(client.ask("flush"), [f"acknowledged {sum(counts)}"])
                server.kill()
                self.assertEqual(self.held(), {key_of(it): held[it] for it in held})

    def test_calls_are_those_of_all_shards(self):
        """A put has a flush of its shard, and a line `flush` one of each shard. One call of get is
        none of the record."""
        server = self.serve_set("--sessions", 1)
        client = self.client(server)
        for name in ("a", "b", "c"):
            self.assertEqual(client.ask(f"put ={name} 00000001")[0].split()[0], "accepted")
        self.assertEqual(client.ask("get =a", "flush"), ["value 00000001", "acknowledged 3"])
        client.close()
        self.check_calls(server.ended(), 3 * 2 + self.count)

    def test_steps_are_not_served(self):
        client = self.client(self.serve_set())
        self.assertEqual(client.ask("convert", "merge"), ["refused 20 BadLine"] * 2)

    def test_facts_are_the_sums(self):
        client = self.client(self.serve_set())
        replies = client.ask("put =a 00000001", "put =b 00000002", "put =a 00000003")
        self.assertEqual({it.split()[0] for it in replies}, {"accepted"})
        client.send("info")
        told = dict(it.split() for it in iter(client.reply, "end"))
        want = {"stores": 4, "failed": 0, "commands": 3, "charge": 3, "capacity": 4 * 20_000}
        self.assertEqual({it: int(told[it]) for it in want}, want)

    def test_a_record_is_not_kept(self):
        served = self.silt("serve", "store", 0, "--shards", self.count, "--audit", 9)
        self.assertEqual((served.status, served.out), (2, "usage\n"))

    def test_other_numbers_of_shards(self):
        for count in (0, 1, 65):
            served = self.silt("serve", "store", 0, "--shards", count)
            self.assertEqual((served.status, served.out), (2, "usage\n"), count)


class Files(SetCase):
    """A set whose files are not all of one set, in their order, is not served."""

    def assert_refused(self, err, out=GEOMETRY):
        served = self.silt("serve", "store", 0, "--shards", self.count)
        self.assertEqual(served, Ended(1, out, err))

    def test_two_that_changed_places(self):
        self.path("store.2").rename(self.path("kept"))
        self.path("store.1").rename(self.path("store.2"))
        self.path("kept").rename(self.path("store.1"))
        self.assert_refused("silt: store.1: it is shard 2 of 4, and shard 1 is due\n")

    def test_one_that_is_missing(self):
        self.path("store.3").unlink()
        self.assert_refused(
            "silt: store.3: No such file or directory (os error 2)\n", "refused 5 Device\n"
        )

    def test_one_that_is_a_store_of_its_own(self):
        self.store(WIDE, name="store.1")
        served = self.silt("serve", "store", 0, "--shards", self.count)
        self.assertEqual((served.status, served.out), (1, GEOMETRY))
        self.assertIn("store.1", served.err)

    def test_one_that_is_in_use(self):
        with self.start("run", "store", "--shards", self.count) as running:
            self.assertEqual(running.stdout.readline(), b"opened\n")
            served = self.silt("serve", "store", 0, "--shards", self.count)
            self.assertEqual((served.status, served.out), (1, "refused 5 Device\n"))
            self.assertIn("store.0", served.err)
            self.finish(running)


class ManyShards(SetCase):
    count = 64
    geometry = SMALL

    def test_all_shards_serve(self):
        server = self.serve_set("--pipeline", "--sessions", 1)
        client = self.client(server)
        names = [f"name{it}" for it in range(1000)]
        values = {name: f"{it:08x}" for it, name in enumerate(names)}
        replies = client.ask(*(f"put ={it} {values[it]}" for it in names))
        self.assertEqual({it.split()[0] for it in replies}, {"accepted"})
        self.assertEqual(client.ask("flush"), ["acknowledged 1000"])
        self.assertEqual(
            client.ask(*(f"get ={it}" for it in names)), [f"value {values[it]}" for it in names]
        )
        client.close()
        self.assertEqual(server.ended().status, 0)
        self.assertEqual(self.held(), {key_of(it): values[it] for it in names})


class Work(SetCase):
    """The workers of each shard convert and merge."""

    count = 3
    geometry = BUSY

    def test_all_work_is_done_at_last(self):
        server = self.serve_set("--merge-at", 1, "--pipeline", *self.patient)
        client = self.client(server)
        values = {f"k{it % 90}": f"{it:08x}" for it in range(600)}
        replies = client.ask(*(f"put =k{it % 90} {it:08x}" for it in range(600)))
        self.assertEqual({it.split()[0] for it in replies}, {"accepted"})

        def is_done():
            client.send("info")
            told = dict(it.split() for it in iter(client.reply, "end"))
            return told["frozen_logs"] == told["hash_stores"] == "0"

        self.wait_until(is_done, "the merges of all shards")
        self.assertEqual(
            client.ask(*(f"get ={it}" for it in values)), [f"value {it}" for it in values.values()]
        )
        server.kill()
        self.assertEqual(self.held(), {key_of(it): values[it] for it in values})


class Mergers(SetCase):
    """How many shards are merged at a time."""

    # Logs of two hundred rows, and entries of which a merge writes many pieces.
    geometry = "400 64 200 3 4 20000"

    def merges(self, calls):
        """The first and the last call of each merge, as places in the record. A merger alone reads the
        hash regions of an open store. Its merge ends with the write of a slot of the manifest."""
        geometry = Geometry(*map(int, self.geometry.split()))
        begun, ended = {}, []
        for place, call in enumerate(calls):
            if call.name == "pread" and geometry.hash_at(0) <= call.at < geometry.sorted_at(0):
                begun.setdefault(call.thread, place)
            if call.name == "pwrite" and call.at < geometry.commits_at(0) and call.thread in begun:
                ended.append((begun.pop(call.thread), place))
        return ended

    def most_at_once(self, *options):
        """How many shards were merged at once at most, of a set that was loaded with these options. Slow
        syncs make each merge long."""
        server = self.serve_set(
            "--merge-at", 1, "--sessions", 1, "--pipeline", *options, *self.patient,
            env=watching(self, log="record", slow="fdatasync:9+:10"),
        )
        client = self.client(server)
        for first in range(0, 4000, 200):
            lines = [f"put =k{it} {it:0800x}" for it in range(first, first + 200)]
            self.assertEqual({it.split()[0] for it in client.ask(*lines)}, {"accepted"})
        client.close()
        self.assertEqual(server.ended().status, 0)
        merges = self.merges(read_record(self.path("record")))
        self.assertGreater(len(merges), 2 * self.count)
        steps = sorted([(first, 1) for first, _ in merges] + [(last, -1) for _, last in merges])
        return max(itertools.accumulate(step for _, step in steps))

    def test_as_many_as_are_asked_for(self):
        for most in (1, 2):
            with self.subTest(most=most):
                self.assertLessEqual(self.most_at_once("--mergers", most), most)

    def test_several_at_once(self):
        self.assertGreater(self.most_at_once(), 1)
        self.assertGreater(self.most_at_once("--mergers", 64), 1)


class Faults(SetCase):
    count = 2

    def test_a_failed_sync_fails_one_shard(self):
        """Each opening makes one sync, and the put of the first shard has the next."""
        server = self.serve_set(
            "--sessions", 1, "--stay", env=watching(self, fail="fdatasync:3:EIO")
        )
        client = self.client(server)
        first, second = names_of(0, 2, 3), names_of(1, 2, 20)
        self.assertEqual(client.ask(f"put ={first[0]} 00000001"), ["unsettled 1"])
        note = f"silt: shard 0: a sync: {IO}; it takes nothing more until it is opened again\n"
        self.wait_until(lambda: server.errors(), "a note of the failure")
        self.assertEqual(server.errors(), note)
        self.assertEqual(
            client.ask(f"put ={first[1]} 00000001", f"get ={first[1]}", f"delete ={first[0]}"),
            ["refused 9 Failed"] * 3,
        )
        self.assertEqual(
            client.ask(*(f"put ={it} 00000002" for it in second)),
            [f"accepted {it + 1}" for it in range(len(second))],
        )
        self.assertEqual(client.ask("flush"), ["refused 9 Failed"])
        self.assertEqual(client.ask(f"get ={second[0]}"), ["value 00000002"])
        client.send("info")
        self.assertEqual(list(iter(client.reply, "end"))[:2], ["stores 2", "failed 1"])
        client.close()
        ended = server.ended()
        self.assertEqual((ended.status, ended.err), (1, note + f"silt: store.0: a sync: {IO}\n"))
        self.assertEqual(
            {it: "00000002" for it in map(key_of, second)},
            {key: value for key, value in self.held().items() if key != key_of(first[0])},
        )

    def test_shards_flush_side_by_side(self):
        """The requests of one write are handed to all shards before the reply of one is awaited: a
        slow sync of each does not add up."""
        env = watching(self, log="record", slow="fdatasync:3+:300")
        client = self.client(self.serve_set("--pipeline", env=env))
        names = names_of(0, 2, 1) + names_of(1, 2, 1)
        replies = client.ask(*(f"put ={it} 00000001" for it in names))
        self.assertEqual(replies, ["accepted 1"] * 2)
        # Each shard writes its row and then its commit byte, each behind a slow sync.
        calls = read_record(self.path("record"))
        files = [it.file[-1] for it in calls if it.name == "pwrite"]
        self.assertEqual(sorted(files), ["0", "0", "1", "1"])
        self.assertEqual(sorted(files[:2]), ["0", "1"])


class Damage(SetCase):
    """A byte that changes under an open set, whose mergers begin when there are two hash stores."""

    count = 2
    geometry = TINY

    def with_stores(self, names):
        """Thirteen puts leave each shard eight sorted entries, one hash store, and a row."""
        lines = [f"put ={name} {it:04x}" for of_shard in names for it, name in enumerate(of_shard)]
        text = "\n".join([*lines, "flush", ""])
        ran = self.silt("run", "store", "--shards", 2, "--tend", "--merge-at", 2, text=text)
        self.assertEqual((ran.status, ran.lines[-1]), (0, "acknowledged 26"), ran)

    def flip(self, file, at):
        """Changes one byte of a file."""
        with open(self.path(file), "r+b", buffering=0) as store:
            store.seek(at)
            byte = store.read(1)
            store.seek(at)
            store.write(bytes([byte[0] ^ 0x20]))

    def test_a_merge_of_one_shard_is_refused(self):
        """Four more puts freeze a log of each shard. Its rows become a second hash store, and the
        merge of both finds the byte. The rest of the set goes on."""
        names = [names_of(shard, self.count, 19) for shard in range(self.count)]
        self.with_stores([it[:13] for it in names])
        server = self.serve_set("--merge-at", 2, "--sessions", 1)
        client = self.client(server)
        self.assertEqual(client.ask(f"get ={names[1][12]}"), ["value 000c"])
        (hash_store,) = examine(self.path("store.1").read_bytes()).hashes
        at = Geometry(*map(int, self.geometry.split())).hash_at(hash_store.region)
        self.flip("store.1", at + 1)
        for of_shard in names:
            replies = client.ask(*(f"put ={it} 00ff" for it in of_shard[13:18]))
            self.assertEqual({it.split()[0] for it in replies}, {"accepted"})
        self.wait_until(server.errors, "the note")
        note = (
            f"silt: store.1: a merge is refused 3 Damaged hash {hash_store.region} digest: "
            f"a hash store has another digest than the manifest says, at byte {at}\n"
        )
        self.assertEqual(server.errors(), note)
        for of_shard in names:
            lines = [f"put ={of_shard[18]} 0102", f"get ={of_shard[18]}", f"get ={of_shard[0]}"]
            self.assertEqual(client.ask(*lines)[1:], ["value 0102", "value 0000"])
        client.end_input()
        self.assertEqual(client.rest(), [])
        ended = server.ended()
        self.assertEqual((ended.status, ended.err), (1, note), ended)


class Kills(SetCase):
    def test_each_accepted_command_is_there(self):
        """Killed under load, plain and pipelined: of each key the last acknowledged value, or a
        later one."""
        for options in ((), ("--pipeline",)):
            for _ in range(scaled(5)):
                server = self.serve_set(*options)
                client = self.client(server)
                sent, told = {}, {}
                for _ in range(self.random.randrange(5, 40)):
                    batch = []
                    for _ in range(20):
                        name = f"k{self.random.randrange(30)}"
                        values = sent.setdefault(name, [])
                        values.append(f"{self.random.randrange(2 ** 31):08x}")
                        batch.append((name, len(values) - 1))
                    client.send(*(f"put ={name} {sent[name][it]}" for name, it in batch))
                    for (name, place), reply in zip(batch, client.replies(20), strict=True):
                        self.assertEqual(reply.split()[0], "accepted")
                        told[name] = place
                client.send(*(f"put =k{it} ffffffff" for it in range(30)))
                server.kill()
                held = self.held()
                for name, place in told.items():
                    self.assertIn(held[key_of(name)], sent[name][place:] + ["ffffffff"], name)

    def test_no_copy_is_kept_without_its_source(self):
        """A client copies what a get shows it to a key of another shard. What a get shows, a crash
        keeps: so no copy is newer than its source."""
        source, copy = names_of(0, self.count, 1)[0], names_of(1, self.count, 1)[0]
        for _ in range(scaled(10)):
            self.format("--force")
            server = self.serve_set("--pipeline")
            writer, copier = self.clients(server, 2)

            def write():
                for it in range(1, 10**6):
                    if writer.ask(f"put ={source} {it:08x}") == [None]:
                        return

            def copy_on():
                while (reply := copier.ask(f"get ={source}")[0]) is not None:
                    if reply != "absent":
                        copier.ask(f"put ={copy} {reply.split()[1]}")

            threads = [
                threading.Thread(target=ended_by_loss, args=(it,)) for it in (write, copy_on)
            ]
            for it in threads:
                it.start()
            time.sleep(0.05 + 0.2 * self.random.random())
            server.kill()
            for it in threads:
                it.join()
            held = self.held()
            self.assertLessEqual(held.get(key_of(copy), ""), held.get(key_of(source), ""))


class Resp(SetCase):
    def test_commands_of_redis_clients(self):
        server = self.serve_set("--resp")
        client = RespClient(server.port)
        self.addCleanup(client.close)
        names = [f"r{it}" for it in range(50)]
        client.send(b"".join(command("SET", it, "v") for it in names))
        self.assertEqual(client.replies(50), [OK] * 50)
        client.send(b"".join(command("GET", it) for it in names))
        self.assertEqual(client.replies(50), [string("v")] * 50)
        self.assertEqual(
            client.ask("MGET", *names[:3], "none"), array(*[string("v")] * 3, NULL)
        )
        self.assertEqual(client.ask("DEL", *names), number(50))
        self.assertEqual(client.ask("EXISTS", *names), number(0))
        self.assertEqual(client.ask("SET", "r1", "w", "NX"), OK)
        self.assertEqual(client.ask("SET", "r1", "x", "NX"), NULL)
