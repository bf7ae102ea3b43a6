"""The line `info`: the numbers of a store, of a set, of a served store and of one that has failed."""
import unittest

from harness import PROVED
from served import SMALL, ServedCase
from watch import watching

# The names in the order of their lines.
NAMES = (
    "stores",
    "failed",
    "commands",
    "charge",
    "capacity",
    "generation",
    "frozen_logs",
    "hash_stores",
    "sorted_entries",
    "converted_slots",
    "merge_steps",
)
# What a server counts besides, in the order of the lines.
TIMES = ("128us", "256us", "512us", "1ms", "2ms", "4ms", "8ms", "16ms", "32ms", "65ms", "131ms", "262ms", "longer")
COUNTS = (
    "uptime",
    "connections",
    "open_connections",
    "refused_connections",
    "gets",
    "puts",
    "deletes",
    "swaps",
    "flushes",
    *(f"refused_{it}" for it in range(1, 12)),
    "batches",
    *(f"batches_{it}" for it in TIMES),
    "last_failure",
    "findings",
    "scrubs",
    "backups",
)
# A store of SMALL that holds nothing. Its S is 8.
EMPTY = dict.fromkeys(NAMES, 0) | {"stores": 1, "capacity": 8}
# What a connection reads for which a server of two clients has no place.
BUSY_OF_2 = "busy: 2 connections are served already"
# Four rows fill a log. The fifth put freezes it.
FIVE = [f"put =key/{it} {it:04x}" for it in range(5)]
# A table of two buckets has eight slots. A step writes one, and the last step names the hash store.
CONVERTS = 9


def lines_of(facts):
    return [f"{name} {facts[name]}" for name in NAMES] + ["end"]


class Runs(ServedCase):
    def info_after(self, *lines, name="store", options=(), **how):
        """The facts behind these lines, in a run."""
        ran = self.silt("run", name, *options, text="\n".join((*lines, "info", "")), **how)
        self.assertEqual(ran.lines[-1], "end", ran)
        found = [it.split() for it in ran.lines[-len(NAMES) - 1 : -1]]
        self.assertEqual([it[0] for it in found], list(NAMES), ran)
        return {name: int(number) for name, number in found}

    def test_an_empty_store(self):
        self.store(SMALL)
        ran = self.silt("run", "store", text="info\n")
        self.assertEqual((ran.status, ran.lines, ran.err), (0, ["opened", *lines_of(EMPTY)], ""))

    def test_carriage_return_and_words_behind(self):
        self.store(SMALL)
        ran = self.silt("run", "store", text="info\r\ninfo x\n info\nINFO\n")
        refused = ["refused 20 BadLine"] * 3
        self.assertEqual(ran.lines, ["opened", *lines_of(EMPTY), *refused], ran)

    def test_facts_are_those_between_the_lines_before_and_behind(self):
        self.store(SMALL)
        ran = self.silt("run", "store", text="put =a 0001\ninfo\nput =a 0002\ndelete =b\ninfo\n")
        first = lines_of(EMPTY | {"commands": 1, "charge": 1})
        second = lines_of(EMPTY | {"commands": 3, "charge": 2})
        want = ["opened", "accepted 1", *first, "accepted 2", "accepted 3", *second]
        self.assertEqual(ran.lines, want, ran)

    def test_commands_are_those_of_this_opening(self):
        self.store(SMALL)
        self.info_after("put =a 0001", "flush")
        self.assertEqual(self.info_after(), EMPTY | {"charge": 1})

    def test_background_work(self):
        self.store(SMALL)
        served = EMPTY | {"commands": 5, "charge": 5, "generation": 1}
        self.assertEqual(self.info_after(*FIVE, "flush"), served | {"frozen_logs": 1})
        again = served | {"commands": 0}
        # Each run begins the conversion anew: its work does not outlive it.
        for steps in (1, 3):
            self.assertEqual(
                self.info_after(*["convert"] * steps),
                again | {"frozen_logs": 1, "converted_slots": steps},
            )
        converted = again | {"generation": 2, "hash_stores": 1}
        self.assertEqual(self.info_after(*["convert"] * CONVERTS), converted)
        self.assertEqual(self.info_after("merge"), converted | {"merge_steps": 1})
        ran = self.silt("tend", "store")
        self.assertEqual(ran.status, 0, ran)
        merged = again | {"generation": 3, "sorted_entries": 4}
        self.assertEqual(self.info_after(), merged)

    def test_a_set_has_the_sums(self):
        self.silt("format", "set", *SMALL.split(), "--shards", 3)
        facts = self.info_after(*FIVE, name="set", options=("--shards", 3))
        want = EMPTY | {"stores": 3, "capacity": 24, "commands": 5, "charge": 5}
        self.assertEqual({it: facts[it] for it in want if it not in ("generation", "frozen_logs")},
                         {it: want[it] for it in want if it not in ("generation", "frozen_logs")})
        self.assertEqual(facts["generation"], facts["frozen_logs"])

    def test_a_failed_store_still_says_so(self):
        self.store(SMALL)
        # The opening syncs once, and the flush then fails.
        env = watching(self, fail="fdatasync:2:EIO")
        self.assertEqual(
            self.info_after("put =a 0001", "flush", "put =b 0002", env=env),
            EMPTY | {"failed": 1, "commands": 1, "charge": 1},
        )

    def test_a_script_has_none(self):
        ran = self.silt("script", *SMALL.split(), text="info\n")
        self.assertIn("refused 20 BadLine", ran.lines, ran)


class Served(ServedCase):
    def info(self, client):
        """The facts and the counts that the next replies of a served store say."""
        lines = list(iter(client.reply, "end"))
        self.assertEqual([it.split()[0] for it in lines], [*NAMES, *COUNTS])
        said = {name: int(number) for name, number in map(str.split, lines)}
        return {it: said[it] for it in NAMES}, {it: said[it] for it in COUNTS}

    def test_before_and_behind_commands(self):
        self.store(SMALL)
        for options in ((), ("--pipeline",)):
            with self.subTest(options):
                self.silt("format", "store", *SMALL.split(), "--force")
                server = self.serve("--sessions", 1, *options)
                client = self.client(server)
                client.send("put =a 0001", "info", "put =b 0002", "get =a", "info")
                self.assertEqual(client.reply(), "accepted 1")
                self.assertEqual(self.info(client)[0], EMPTY | {"commands": 1, "charge": 1})
                self.assertEqual(client.replies(2), ["accepted 2", "value 0001"])
                facts, counts = self.info(client)
                self.assertEqual(facts, EMPTY | {"commands": 2, "charge": 2})
                self.assertEqual((counts["puts"], counts["gets"], counts["batches"]), (2, 1, 2))
                self.assertEqual(sum(counts[f"batches_{it}"] for it in TIMES), 2)
                client.close()
                self.assertEqual(server.ended().status, 0)

    def test_all_work_is_done_at_last(self):
        self.store(SMALL)
        server = self.serve("--merge-at", 1, *self.patient)
        client = self.client(server)
        self.assertEqual(client.ask(*FIVE)[-1], "accepted 5")
        want = EMPTY | {"commands": 5, "charge": 5, "generation": 3, "sorted_entries": 4}

        def is_merged():
            client.send("info")
            return self.info(client)[0] == want

        self.wait_until(is_merged, "the merge")

    def test_a_failed_store_still_says_so(self):
        self.store(SMALL)
        server = self.serve("--stay", env=watching(self, fail="fdatasync:2:EIO"))
        client = self.client(server)
        replies = client.ask("put =a 0001", "put =b 0002")
        self.assertEqual(replies, ["unsettled 1", "refused 9 Failed"])
        client.send("info")
        facts, counts = self.info(client)
        self.assertEqual((facts["failed"], counts["refused_9"]), (1, 1))
        self.assertGreaterEqual(counts["last_failure"], 1)

    def test_what_it_counts(self):
        self.store(SMALL)
        server = self.serve("--pipeline", "--clients", 2)
        client = self.client(server)
        lines = ["put =a 0001", "get =a", "swap =a 0001 0002", "swap =a 0001 0003", "delete =a"]
        client.ask(*lines, "delete =b", "get =b", "get =c", "flush", "convert", "bad")
        other = self.served_client(server)
        self.wait_until(lambda: self.client(server).rest() == [BUSY_OF_2], "a connection too many")
        client.send("info")
        counts = self.info(client)[1]
        want = {"puts": 1, "gets": 4, "swaps": 2, "deletes": 2, "flushes": 1, "last_failure": 0}
        self.assertEqual({it: counts[it] for it in want}, want)
        self.assertEqual((counts["connections"], counts["open_connections"]), (2, 2))
        self.assertGreaterEqual(counts["refused_connections"], 1)
        other.close()

        def is_closed():
            client.send("info")
            return self.info(client)[1]["open_connections"] == 1

        self.wait_until(is_closed, "the end of a session")


if __name__ == "__main__":
    unittest.main()
