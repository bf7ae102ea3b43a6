"""Swaps of many clients at a server.

A counter: they read it and swap in the next number, and no count is lost. A lock: they take it by a
swap from no value and release it by a swap to none, and it never has two holders. A set of keys:
they all insert each of them by a swap from no value, and one of them does.
"""
import collections
import math
import signal
import threading
import time
import unittest

from harness import PROVED, scaled
from served import ServedCase

# Room for each count's row, and logs that freeze now and then.
COUNTED = "4 16 64 8 16 8000"
CLIENTS = 16
# How often each client counts, and how many counts there are at most before a kill.
EACH = 200
KILLS = 6
BEFORE_A_KILL = 800 if PROVED else 200
# How often each client takes the lock and releases it, and how often all do before a kill, at most.
LOCKED = 100 if PROVED else 25
LOCKED_BEFORE_A_KILL = 2 * LOCKED
# Room for each key's row. So many clients insert so many keys, and send so many lines in one write.
INSERTED = "4 512 1024 8 16 12000"
INSERTERS = 8
KEYS = 10_000 if PROVED else 1_000
BURST = 100
# What a store refuses until the background work makes room.
NO_ROOM = ("refused 7 StoreFull", "refused 8 NoRoom")


class Swapper:
    """A client that swaps. `wrong` has what no store replies."""

    def __init__(self):
        self.wrong = []

    def ask(self, client, line):
        """The reply to a line. None if the connection is broken."""
        try:
            return client.ask(line)[0]
        except OSError:
            return None

    def note(self, is_right, words):
        if not is_right:
            self.wrong.append(words)


class Counter(Swapper):
    """A client that counts up. `accepted` has the numbers whose swap was accepted, and `cut` the
    one whose swap had no reply when the connection broke."""

    def __init__(self):
        super().__init__()
        self.accepted = []
        self.cut = None

    def run(self, client, count):
        """Counts until so many swaps are accepted, or until the connection breaks."""
        least = 0
        while len(self.accepted) < count:
            found = self.ask(client, "get =counter")
            if found is None or not found.startswith("value "):
                return self.note(found is None, found)
            now = int(found.split()[1], 16)
            self.note(now >= least, f"{found} behind {least}")
            self.cut = now + 1
            reply = self.ask(client, f"swap =counter {now:08x} {now + 1:08x}")
            if reply is None:
                return
            self.cut = None
            least = self.take(reply, now)

    def take(self, reply, now):
        """Notes the reply to a swap of this number. What the counter is at least, from then on."""
        if reply.startswith("accepted "):
            self.accepted.append(now + 1)
            return now + 1
        if reply in NO_ROOM:
            time.sleep(0.01)  # the background work makes room
            return now
        self.note(reply == "differs", reply)
        return now + (reply == "differs")


class SwapCase(ServedCase):
    def load(self, server, swappers, *words):
        """Runs each of these clients in a thread of its own. The threads."""
        threads = [
            threading.Thread(target=it.run, args=(self.client(server), *words)) for it in swappers
        ]
        for thread in threads:
            thread.start()
        return threads

    def join_all(self, threads, swappers):
        """Waits for all clients, which got no wrong reply."""
        for thread in threads:
            thread.join()
        self.assertEqual([it.wrong for it in swappers], [[]] * len(swappers))

    def kill(self, server):
        """Ends a server as a crash of the process does."""
        server.send_signal(signal.SIGKILL)
        self.assertEqual(server.ended().status, -signal.SIGKILL)


class Counts(SwapCase):
    def setUp(self):
        super().setUp()
        self.store(COUNTED, ["put =counter 00000000", "flush"])

    def counted(self):
        """The number that a new run finds."""
        return int(self.found("=counter")[0].removeprefix("value "), 16)

    def accepted(self, counters):
        """All numbers whose swap was accepted. Each was swapped in once."""
        numbers = sorted(number for it in counters for number in it.accepted)
        self.assertEqual(len(numbers), len(set(numbers)), numbers)
        return numbers

    def count_all(self, begin, each):
        """Each client counts so often, from this number on."""
        server = self.serve()
        end = begin + CLIENTS * each
        counters = [Counter() for _ in range(CLIENTS)]
        self.join_all(self.load(server, counters, each), counters)
        self.assertEqual(self.accepted(counters), list(range(begin + 1, end + 1)))
        self.assertEqual(self.client(server).ask("get =counter"), [f"value {end:08x}"])
        server.kill()
        self.assertEqual(self.counted(), end)

    def test_counts_side_by_side(self):
        self.count_all(0, EACH)

    def count_and_kill(self, begin):
        """A server is killed while its clients count from this number on. The next number."""
        server = self.serve()
        counters = [Counter() for _ in range(CLIENTS)]
        threads = self.load(server, counters, BEFORE_A_KILL)
        least = self.random.randrange(1, BEFORE_A_KILL)
        self.wait_until(
            lambda: sum(len(it.accepted) for it in counters) >= least, f"{least} counts"
        )
        self.kill(server)
        self.join_all(threads, counters)
        self.check_whole()
        return self.judge(begin, self.counted(), counters)

    def judge(self, begin, end, counters):
        """The file has each number whose swap was accepted. Any other is one whose swap had no
        reply, so at most one more for each client."""
        accepted = self.accepted(counters)
        cut = {it.cut for it in counters}
        counted = set(range(begin + 1, end + 1))
        self.assertLessEqual(set(accepted), counted)
        self.assertLessEqual(counted - set(accepted), cut)
        return end

    def test_a_wrong_count_is_refused(self):
        """The judge sees a count that is lost, one that nobody made, and one that was made
        twice."""
        def counters(*accepted, cut=None):
            made = [Counter() for _ in range(CLIENTS)]
            for counter, numbers in zip(made, accepted):
                counter.accepted = list(numbers)
            made[-1].cut = cut
            return made

        self.assertEqual(self.judge(0, 3, counters([1, 3], [2])), 3)
        self.assertEqual(self.judge(0, 3, counters([1, 2], cut=3)), 3)
        for end, made in (
            (2, counters([1, 3], [2])),
            (4, counters([1, 2], cut=3)),
            (3, counters([1, 2], [2, 3])),
        ):
            with self.assertRaises(AssertionError):
                self.judge(0, end, made)

    def test_counts_across_kills(self):
        count = 0
        for _ in range(scaled(KILLS)):
            count = self.count_and_kill(count)
        self.count_all(count, 10)


class Holders:
    """Who holds the lock, as the clients know it: at most one of them."""

    def __init__(self):
        self.guard = threading.Lock()
        self.holding = []
        self.most = 0

    def enter(self, number):
        with self.guard:
            self.holding.append(number)
            self.most = max(self.most, len(self.holding))

    def leave(self, number):
        with self.guard:
            self.holding.remove(number)


class Locker(Swapper):
    """A client that takes the lock and releases it. Its value is its own. It enters the list of the
    holders behind the reply to its swap, and leaves the list before it sends the other one."""

    def __init__(self, number, holders):
        super().__init__()
        self.number = number
        self.value = f"{number:08x}"
        self.holders = holders
        self.released = 0

    def run(self, client, count):
        """Takes and releases until it has released so often, or until the connection breaks."""
        last = self.released + count
        found = self.ask(client, "get =lock")
        if found is None:
            return
        if self.is_held(found == f"value {self.value}") and not self.release(client):
            return
        while self.released < last and self.take(client) and self.release(client):
            pass

    def is_held(self, is_mine):
        """Whether this client has the lock, as a new connection finds it. A swap may have been done
        that had no reply. One that had a reply was done."""
        if self.number in self.holders.holding:
            self.note(is_mine, "the lock is lost")
        elif is_mine:
            self.holders.enter(self.number)
        return is_mine

    def take(self, client):
        """Tries until it has the lock. Returns whether it has."""
        while reply := self.ask(client, f"swap =lock - {self.value}"):
            if reply.startswith("accepted "):
                self.holders.enter(self.number)
                return True
            self.note(reply == "differs" or reply in NO_ROOM, reply)
            time.sleep(0.001)
        return False

    def release(self, client):
        """Tries until it has released the lock. Returns whether it has."""
        self.holders.leave(self.number)
        while reply := self.ask(client, f"swap =lock {self.value} -"):
            if reply.startswith("accepted "):
                self.released += 1
                return True
            self.note(reply in NO_ROOM, reply)
            time.sleep(0.01)
        return False


class Locks(SwapCase):
    def setUp(self):
        super().setUp()
        self.store(COUNTED)
        self.holders = Holders()

    def lockers(self):
        return [Locker(it, self.holders) for it in range(1, CLIENTS + 1)]

    def lock_all(self, lockers):
        """Each client takes the lock and releases it so often. Then nobody has it."""
        server = self.serve()
        due = [it.released + LOCKED for it in lockers]
        self.join_all(self.load(server, lockers, LOCKED), lockers)
        self.assertEqual([it.released for it in lockers], due)
        self.assertEqual(self.client(server).ask("get =lock"), ["absent"])
        server.kill()
        self.assertEqual(
            (self.holders.most, self.holders.holding, self.found("=lock")), (1, [], ["absent"])
        )

    def lock_and_kill(self, lockers):
        """A server is killed while its clients take and release, and no client has an end of its
        own."""
        server = self.serve()
        least = sum(it.released for it in lockers) + self.random.randrange(1, LOCKED_BEFORE_A_KILL)
        threads = self.load(server, lockers, math.inf)
        self.wait_until(lambda: sum(it.released for it in lockers) >= least, "locks")
        self.kill(server)
        self.join_all(threads, lockers)
        self.check_whole()
        self.assertLessEqual(self.holders.most, 1)

    def test_one_holder_across_kills(self):
        lockers = self.lockers()
        for _ in range(scaled(KILLS)):
            self.lock_and_kill(lockers)
        self.lock_all(lockers)

    def test_a_second_holder_is_seen(self):
        """The judge sees a lock that two clients have, one that is lost, and one that no client
        took."""
        for first, second in ((1, 2), (2, 1)):
            self.holders.enter(first)
            self.holders.enter(second)
            self.assertEqual(self.holders.most, 2)
            self.holders.leave(first)
            self.holders.leave(second)
        number = 1
        locker = Locker(number, self.holders)
        self.assertFalse(locker.is_held(False))
        self.assertTrue(locker.is_held(True))
        self.assertEqual((self.holders.holding, locker.wrong), ([number], []))
        self.assertFalse(locker.is_held(False))
        self.assertEqual(locker.wrong, ["the lock is lost"])


class Inserter(Swapper):
    """A client that inserts keys with its number as their value. `accepted` has those whose swap
    was accepted."""

    def __init__(self, number, keys):
        super().__init__()
        self.value = f"{number:08x}"
        self.keys = keys
        self.accepted = []

    def run(self, client):
        while self.keys:
            some = self.keys[:BURST]
            self.keys = self.keys[BURST:]
            for key, reply in zip(
                some, client.ask(*(f"swap {key} - {self.value}" for key in some)), strict=True
            ):
                self.take(key, reply or "nothing")

    def take(self, key, reply):
        """A key for which there is no room is tried again."""
        if reply in NO_ROOM:
            self.keys.append(key)
        elif reply.startswith("accepted "):
            self.accepted.append(key)
        else:
            self.note(reply == "differs", reply)


class Inserts(SwapCase):
    def setUp(self):
        super().setUp()
        self.store(INSERTED)

    def judge(self, keys, inserters):
        """Each key was inserted once, and has the value of the client that did."""
        values = {key: f"value {it.value}" for it in inserters for key in it.accepted}
        counts = collections.Counter(key for it in inserters for key in it.accepted)
        self.assertEqual(counts, dict.fromkeys(keys, 1))
        self.assertEqual(self.found(*keys), [values[key] for key in keys])

    def test_each_key_is_inserted_once(self):
        keys = [f"=key/{it}" for it in range(KEYS)]
        inserters = [Inserter(it, self.random.sample(keys, KEYS)) for it in range(INSERTERS)]
        server = self.serve()
        self.join_all(self.load(server, inserters), inserters)
        server.kill()
        self.judge(keys, inserters)

    def test_a_key_that_is_inserted_twice_is_refused(self):
        """The judge sees that, and a key that nobody inserted."""
        self.silt("run", "store", text="swap =a - 00000001\nswap =b - 00000002\nflush\n")
        first = Inserter(1, [])
        second = Inserter(2, [])
        first.accepted = ["=a"]
        second.accepted = ["=b"]
        self.judge(["=a", "=b"], [first, second])
        for accepted in (["=a", "=b"], [], ["=c"]):
            second.accepted = accepted
            with self.assertRaises(AssertionError):
                self.judge(["=a", "=b"], [first, second])


if __name__ == "__main__":
    unittest.main()
