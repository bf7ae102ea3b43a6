"""What a server says at once of a failed store, and what a run does not."""
from harness import Ended
from served import ServedCase
from watch import watching

WRITE = "a write at 16384: Bad file descriptor (os error 9)"


class FailedStores(ServedCase):
    """Each write to the file fails."""

    def setUp(self):
        super().setUp()
        self.store("2 2 4 2 2 8")
        self.env = watching(self, fail="pwrite:1+:EBADF")

    def test_a_server_says_so_once(self):
        """The first failed write is reported as soon as it fails, and the last one at the end."""
        server = self.serve("--sessions", 1, "--stay", env=self.env)
        client = self.client(server)
        self.assertEqual(client.ask("put =a 0102"), ["unsettled 1"])
        note = f"silt: {WRITE}; the store takes nothing more until it is opened again\n"
        self.wait_until(lambda: server.errors(), "a note of the failure")
        self.assertEqual(client.ask("put =b 0102", "flush"), ["refused 9 Failed"] * 2)
        self.assertEqual(server.errors(), note)
        client.close()
        ended = server.ended()
        self.assertEqual((ended.status, ended.err), (1, note + f"silt: store: {WRITE}\n"))

    def test_a_run_says_so_at_its_end(self):
        ended = self.silt("run", "store", text="put =a 0102\nflush\nflush\n", env=self.env)
        err = (
            "silt: 1 line refused 5 Device, first line 2\n"
            "silt: 1 line refused 9 Failed, first line 3; an earlier write or sync failed, and "
            "running again opens the "
            f"store anew\nsilt: store: {WRITE}\n"
        )
        self.assertEqual(
            ended, Ended(0, "opened\naccepted 1\nrefused 5 Device\nrefused 9 Failed\n", err)
        )
