"""A server that is killed under load: each command that it accepted is there in the next run."""
import signal
import time
import unittest

from harness import PROVED, scaled
from writers import KillCase, Writer

# Logs that have room for all commands of a round, so that none is refused. Some rounds freeze a
# log.
WIDE = "4 256 1024 8 8 30000"
ROUNDS = 20


class Kills(KillCase):
    def test_killed_under_load(self):
        most = 600 if PROVED else 100
        generation, numbers = self.check_rounds(scaled(ROUNDS), most, signal.SIGKILL)
        # Each freeze, and each end of a conversion or a merge, makes a generation.
        self.assertGreater(generation, ROUNDS * 3)
        self.assertGreater(numbers["sorted entries"], 0)

    def test_terminated_under_load(self):
        self.check_rounds(scaled(3), 200, signal.SIGTERM)
        self.check_rounds(scaled(3), 200, signal.SIGINT)

    def test_killed_while_it_opens(self):
        self.load_and_end(300, signal.SIGKILL)
        begun = time.monotonic()
        self.serve().kill()
        opening = time.monotonic() - begun
        for _ in range(scaled(20)):
            server = self.begin("store", 0)
            time.sleep(self.random.random() * opening)
            server.kill()
        self.check_whole()
        self.check_kept()

    def test_served_again_and_again(self):
        """The next server serves what the killed one kept, with no run between them."""
        for _ in range(5):
            self.load_and_end(100, signal.SIGKILL)
            server = self.serve()
            keys = [key for it in self.writers for key in it.values]
            replies = self.client(server).ask(*(f"get {key}" for key in keys))
            self.check_found(dict(zip(keys, replies, strict=True)))
            server.kill()


class PipelinedKills(KillCase):
    """Each client has many commands under way. What is there is a beginning of what it sent."""

    geometry = WIDE
    options = ("--pipeline",)
    burst, ahead = 25, 75

    def test_killed_under_load(self):
        most = 2000 if PROVED else 800
        generation, _ = self.check_rounds(scaled(ROUNDS), most, signal.SIGKILL)
        self.assertGreater(generation, ROUNDS // 4)


class Judging(unittest.TestCase):
    """What a writer says of the values that a run found."""

    def writer(self):
        """A writer whose first command has its reply, and whose next two have none."""
        writer = Writer(0, None)
        self.keys = list(writer.values)[:3]
        writer.pending = [
            ("accepted", key, f"value {number}") for number, key in enumerate(self.keys)
        ]
        writer.take("accepted 1")
        return writer

    def judged(self, *there):
        """Whether these values may be there, for the first keys."""
        writer = self.writer()
        return not writer.find({**writer.values, **dict(zip(self.keys, there))})

    def test_a_beginning_is_found(self):
        for there in (["value 0"], ["value 0", "value 1"], ["value 0", "value 1", "value 2"]):
            self.assertTrue(self.judged(*there), there)

    def test_another_end_is_refused(self):
        for there in (
            ["absent"],
            ["value 0", "absent", "value 2"],
            ["absent", "value 1"],
            ["value 1"],
        ):
            self.assertFalse(self.judged(*there), there)

    def test_another_reply_is_wrong(self):
        for reply in ("differs", "unsettled 1", "refused 9 Failed"):
            writer = Writer(0, None)
            writer.pending = [("accepted", "=client/0/0", "value 0")]
            writer.take(reply)
            self.assertEqual((writer.wrong, writer.values["=client/0/0"]), ([reply], "absent"))


if __name__ == "__main__":
    unittest.main()
