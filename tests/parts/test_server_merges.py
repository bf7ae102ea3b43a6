"""When a merge begins, of a server and of background work without one: with how many hash
stores."""
from harness import Ended
from model import Geometry
from served import ServedCase
from watch import read_record, watching

# Logs of four rows. So each further put of a key of its own freezes a log after four.
EIGHT = "2 2 4 4 8 400"
ONE = "2 2 4 2 1 400"


class Merges(ServedCase):
    """After the last session the workers do what is due. So a store has at least as many hash
    stores as a merge takes, or it has merged. A put may wait longer than a slow machine needs."""

    options = ServedCase.patient

    def served(self, logs, *options):
        """The lines of a check, after a server got rows for so many frozen logs, and one row
        more."""
        server = self.serve("--sessions", 1, *options)
        client = self.client(server)
        lines = [f"put =key/{it} {it:04x}" for it in range(4 * logs + 1)]
        replies = client.exchange(lines)
        ended = server.ended()
        due = [f"accepted {it + 1}" for it in range(len(lines))]
        self.assertEqual((replies, ended.status, ended.err), (due, 0, ""), ended)
        checked = self.check_report("store")
        self.assertEqual(checked.status, 0, checked)
        hashes, entries = (it.split() for it in checked.lines[3:5])
        self.assertEqual(
            (hashes[:2], entries[:2]), (["hash", "stores"], ["sorted", "entries"]), checked
        )
        return int(hashes[2]), int(entries[2])

    def test_waits_for_half_of_the_regions(self):
        self.store(EIGHT)
        self.assertEqual(self.served(3), (3, 0))

    def test_merges_half_of_the_regions(self):
        self.store(EIGHT)
        self.assertEqual(self.served(4), (0, 16))

    def test_waits_for_as_many_as_are_asked_for(self):
        self.store(EIGHT)
        self.assertEqual(self.served(6, "--merge-at", 7), (6, 0))

    def test_merges_as_many_as_are_asked_for(self):
        for stores in (1, 2, 8):
            with self.subTest(stores=stores):
                self.path("store").unlink(missing_ok=True)
                self.store(EIGHT)
                self.assertEqual(self.served(stores, "--merge-at", stores), (0, 4 * stores))

    def test_merges_the_one_store_of_one_region(self):
        self.store(ONE)
        self.assertEqual(self.served(1), (0, 4))

    def test_no_put_waits_for_a_store_that_never_comes(self):
        """There are rows for three times as many hash stores as there are regions."""
        for at in (1, 5, 8):
            with self.subTest(at=at):
                self.path("store").unlink(missing_ok=True)
                self.store(EIGHT)
                hashes, entries = self.served(24, "--merge-at", at)
                self.assertLess(hashes, at)
                self.assertGreater(entries, 4 * 8)


class EarlySyncs(ServedCase):
    """A merger syncs what it wrote, with no lock held, and once more before its last step: so the
    sync of that step, under the store's lock, finds only what the buffers held."""

    # Long values, and a log whose rows are fourteen million bytes.
    NUMBERS = "4096 1024 3500 2 2 6000"
    # The most that a merge writes between two syncs, and what the buffers of a disk hold.
    BYTES, BUFFERS = 8 << 20, 3 << 16

    def test_no_sync_of_a_merge_has_much_to_write(self):
        self.store(self.NUMBERS)
        server = self.serve(
            "--merge-at", 1, "--pipeline", "--sessions", 1, env=watching(self, log="record")
        )
        client = self.client(server)
        value = "5a" * 4096
        for first in range(0, 3502, 103):
            lines = [f"put =key/{it} {value}" for it in range(first, first + 103)]
            self.assertEqual({it.split()[0] for it in client.ask(*lines)}, {"accepted"})
        client.close()
        self.assertEqual(server.ended().status, 0)
        geometry = Geometry(*map(int, self.NUMBERS.split()))

        def writes_entries(call):
            return call.name == "pwrite" and call.at >= geometry.sorted_at(0)

        calls = read_record(self.path("record"))
        merger = next(it.thread for it in calls if writes_entries(it))
        of_merger = [it for it in calls if it.thread == merger]
        self.assertGreater(
            sum(it.result for it in of_merger if writes_entries(it)), 3000 * geometry.entry_length
        )
        own = next(it.fd for it in of_merger if writes_entries(it))
        written, most, last = 0, 0, 0
        for call in of_merger:
            if call.name == "fdatasync":
                last = max(last, written if call.fd == own else 0)
                written = 0
            elif writes_entries(call):
                written += call.result
            most = max(most, written)
        self.assertLessEqual(most, self.BYTES + self.BUFFERS)
        self.assertLessEqual(last, self.BUFFERS, "the sync of the last step")


class Tends(ServedCase):
    """`run --tend --merge-at K` and `tend --merge-at K`."""

    def stores(self):
        """How many hash stores and entries a store has."""
        checked = self.check_report("store")
        self.assertEqual(checked.status, 0, checked)
        return int(checked.lines[3].split()[2]), int(checked.lines[4].split()[2])

    def run_logs(self, logs, *options):
        """Rows for so many frozen logs, and one row more. The background work that the last put
        makes due is done before the flush."""
        self.path("store").unlink(missing_ok=True)
        self.store(EIGHT)
        lines = [f"put =key/{it} {it:04x}" for it in range(4 * logs + 1)]
        ended = self.silt(
            "run", "store", "--tend", *options, text="".join(f"{it}\n" for it in [*lines, "flush"])
        )
        replies = [f"accepted {it + 1}" for it in range(len(lines))]
        self.assertEqual(
            (ended.status, ended.lines, ended.err),
            (0, ["opened", *replies, f"acknowledged {len(lines)}"], ""),
            ended,
        )
        return self.stores()

    def test_a_run_merges_when_no_region_is_free(self):
        for logs, left in ((8, (8, 0)), (9, (1, 32)), (16, (8, 32)), (17, (1, 64))):
            with self.subTest(logs=logs):
                self.assertEqual(self.run_logs(logs), left)

    def test_a_run_merges_as_many_as_are_asked_for(self):
        for at in (1, 3, 8):
            for logs in (at - 1, at, at + 1, 2 * at):
                with self.subTest(at=at, logs=logs):
                    self.assertEqual(
                        self.run_logs(logs, "--merge-at", at), (logs % at, logs // at * at * 4)
                    )

    def test_tend_merges_whatever_there_is(self):
        self.run_logs(3, "--merge-at", 8)
        self.assert_tended(3, 0)

    def test_tend_merges_as_many_as_are_asked_for(self):
        for at, left in ((2, (0, 12)), (3, (0, 12)), (4, (3, 0)), (8, (3, 0))):
            with self.subTest(at=at):
                self.run_logs(3, "--merge-at", 8)
                self.assert_tended(3, 0 if left[1] else 3, "--merge-at", at)
                self.assertEqual(self.stores(), left)
                self.assertEqual(
                    self.silt("tend", "store", "--merge-at", at).out,
                    "opened\nconverted 0 steps, merged 0 steps\n",
                )

    def assert_tended(self, stores, left, *options):
        """It merges all of these stores, four rows each in eight slots, or none of them."""
        steps = 0 if left else 8 * stores + 4 * stores + 1
        ended = self.silt("tend", "store", *options)
        self.assertEqual(ended, Ended(0, f"opened\nconverted 0 steps, merged {steps} steps\n", ""))

    def test_tend_merges_fewer_where_a_log_waits(self):
        """There is one hash region, and it is full when a second log is frozen."""
        self.store(
            ONE,
            [f"put =key/{it} {it:04x}" for it in range(5)] + ["convert"] * 9 + [
                f"put =key/{it} {it:04x}" for it in range(5, 9)
            ] + ["flush"],
        )
        ended = self.silt("tend", "store", "--merge-at", 1)
        self.assertEqual(ended, Ended(0, "opened\nconverted 9 steps, merged 30 steps\n", ""))
        self.assertEqual(self.stores(), (0, 8))


class Refusals(ServedCase):
    """Numbers of hash stores that no merge can be of."""

    JOBS = (("serve", "store", 0), ("run", "store", "--tend"), ("tend", "store"))

    def test_none_names_no_job(self):
        self.store(EIGHT)
        for job in self.JOBS:
            with self.subTest(job=job):
                ended = self.silt(*job, "--merge-at", 0)
                self.assertEqual((ended.status, ended.lines), (2, ["usage"]), ended)
                self.assertIn(
                    "silt: --merge-at cannot be '0': a merge is of at least one hash store\n",
                    ended.err,
                )

    def test_no_number_names_no_job(self):
        for job in self.JOBS:
            for word in ("", "half", "-1", "4294967296"):
                with self.subTest(job=job, word=word):
                    ended = self.silt(*job, f"--merge-at={word}")
                    self.assertEqual((ended.status, ended.lines), (2, ["usage"]), ended)

    def test_more_than_there_are_regions(self):
        self.store(EIGHT)
        before = self.path("store").read_bytes()
        for job in self.JOBS:
            with self.subTest(job=job):
                ended = self.silt(*job, "--merge-at", 9, text="put =a 0102\n")
                self.assertEqual((ended.status, ended.lines), (1, ["refused 2 BadGeometry"]), ended)
                self.assertEqual(
                    ended.err,
                    "silt: --merge-at: store has 8 hash regions, and no more hash stores\n",
                )
                self.assertEqual(self.path("store").read_bytes(), before)

    def test_a_damaged_store_is_refused_first(self):
        self.store(EIGHT)
        data = bytearray(self.path("store").read_bytes())
        data[0] ^= 1
        self.path("store").write_bytes(data)
        for job in self.JOBS:
            with self.subTest(job=job):
                ended = self.silt(*job, "--merge-at", 9)
                self.assertEqual(ended.status, 1)
                self.assertTrue(ended.lines[0].startswith("refused "), ended)
                self.assertNotIn("--merge-at", ended.err)
