"""`serve --scrub HOURS`: the bytes of the stores are read while they are served, and compared with
their digests."""
import time
import unittest

from harness import TIME_LIMIT
from served import ServedCase
from test_merge_damage import NUMBERS, DamageCase
from watch import read_record, watching

# When the first pass begins, in seconds, and how much later it has ended on a loaded machine.
BEGINS = 10
LATER = TIME_LIMIT


class ScrubCase(DamageCase, ServedCase):
    def counts(self, client):
        """What the line `info` says."""
        client.send("info")
        found = {}
        while (line := client.reply()) != "end":
            name, number = line.split(" ")
            found[name] = int(number)
        return found

    def scrubbed(self, client, passes=1):
        """The counts once so many passes have ended."""
        for _ in self.turns("a scrub", BEGINS + LATER):
            counts = self.counts(client)
            if counts["scrubs"] >= passes:
                return counts
            time.sleep(0.2)

    def served(self, *options, **how):
        return self.serve("--scrub", 1, "--merge-at", 4, *options, **how)


class Scrubs(ScrubCase):
    def test_a_sound_store(self):
        self.with_stores(3)
        server = self.served()
        client = self.client(server)
        began = time.monotonic()
        counts = self.scrubbed(client)
        self.assertGreater(time.monotonic() - began, BEGINS - 3)
        self.assertEqual((counts["scrubs"], counts["findings"]), (1, 0))
        self.assertEqual(server.errors(), "")

    def check_finds(self, place, says, hashes=3):
        self.with_stores(hashes)
        server = self.served()
        client = self.client(server)
        flipped = self.flip(place)
        counts = self.scrubbed(client)
        self.assertEqual((counts["scrubs"], counts["findings"]), (1, 1), server.errors())
        self.assertEqual(server.errors(), says)
        # The server goes on.
        self.assertEqual(client.ask("put =more 0102", "get =more"), ["accepted 1", "value 0102"])
        client.close()
        self.put_back(flipped)

    def test_a_hash_store(self):
        place = self.hash_places(1)[2]
        self.check_finds(
            place,
            "silt: store: a scrub is refused 3 Damaged hash 1 digest: a hash store has another digest than"
            f" the manifest says, at byte {self.geometry.hash_at(1)}\n",
        )

    def test_the_entries(self):
        place = self.sorted_places()[2]
        self.check_finds(
            place,
            "silt: store: a scrub is refused 3 Damaged sorted digest: the sorted store has another digest than"
            f" the manifest says, at byte {self.geometry.sorted_at(1)}\n",
        )

    def test_a_read_that_fails(self):
        self.with_stores(3)
        server = self.served(env=watching(self, log="record"))
        reads = sum(it.name == "pread" for it in read_record(self.path("record")))
        self.client(server).send("shutdown")
        self.assertEqual(server.ended().status, 0)
        server = self.served(env=watching(self, fail=f"pread:{reads + 1}:EIO"))
        client = self.client(server)
        counts = self.scrubbed(client)
        self.assertEqual((counts["scrubs"], counts["findings"]), (1, 1))
        self.assertEqual(server.errors(), f"silt: store: a scrub cannot read hash region 0, at byte {self.geometry.hash_at(0)}\n")
        self.assertEqual(client.ask("put =more 0102", "get =more"), ["accepted 1", "value 0102"])

    def test_under_load(self):
        """Puts and merges go on. No finding comes of a region that a merge freed."""
        self.store("8 64 256 8 8 8000")
        server = self.serve("--scrub", 1, "--merge-at", 1)
        client = self.client(server)
        loader = self.client(server)
        value = "00" * 8
        by, number = time.monotonic() + BEGINS + LATER, 0
        while self.counts(client)["scrubs"] == 0:
            self.assertLess(time.monotonic(), by, "no scrub ended")
            lines = [f"put =key/{(number + it) % 3000} {value}" for it in range(200)]
            self.assertTrue(all(it.startswith("accepted") for it in loader.ask(*lines)))
            number += 200
        self.assertEqual(self.counts(client)["findings"], 0, server.errors())
        self.assertEqual(server.errors(), "")

    def test_ends_with_the_server(self):
        self.with_stores(1)
        server = self.served()
        self.client(server).send("shutdown")
        began = time.monotonic()
        self.assertEqual(server.ended().status, 0)
        self.assertLess(time.monotonic() - began, 5)


class Sets(ScrubCase):
    def test_a_shard(self):
        self.silt("format", "set", *NUMBERS.split(), "--shards", 2)
        lines = [f"put =key/{it} {it:04x}" for it in range(20)]
        ran = self.silt("run", "set", "--shards", 2, "--tend", text="\n".join([*lines, "flush", ""]))
        self.assertEqual(ran.status, 0, ran)
        server = self.serve("--shards", 2, "--scrub", 1, name="set")
        client = self.client(server)
        counts = self.scrubbed(client)
        self.assertEqual((counts["scrubs"] >= 1, counts["findings"]), (True, 0))


if __name__ == "__main__":
    unittest.main()
