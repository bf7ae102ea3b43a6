#!/usr/bin/env python3
"""Measures how much memory a load takes: the resident memory of `silt run --tend` over time.

    bench/measure_memory.py PROGRAM KEYS TABLE [STORE [K]]
    bench/measure_memory.py --plot TABLE PLOT

It makes the store that `plan KEYS 100` gives, puts so many new keys with values of 100 bytes, as a run with --tend takes
them, and reads the run's resident memory 20 times a second. TABLE gets a row for each second: how many rows were put by
then, and the most memory since the row before. The last line on standard output has the greatest and the last memory.
STORE is where the store's file is made (one in the system's folder for such files, if left out). With K a merge begins at K
hash stores (--merge-at). The second form draws a table: memory over the rows that were put.
"""
import os
import subprocess
import sys
import tempfile
import threading
import time

from draw import plot

VALUE = 100
# How many points a plot has.
POINTS = 120
# Memory that is freed goes back to the system.
ENV = {**os.environ, "MALLOC_TRIM_THRESHOLD_": "131072"}


def resident(pid):
    """The resident memory of a process in bytes. None if it has ended."""
    try:
        with open(f"/proc/{pid}/statm") as it:
            return int(it.read().split()[1]) * os.sysconf("SC_PAGE_SIZE")
    except (OSError, IndexError):
        return None


class Samples:
    """The most resident memory in each second of a run."""

    def __init__(self, run):
        self.run, self.rows, self.put, self.begun = run, [], 0, time.monotonic()
        self.thread = threading.Thread(target=self.sample)
        self.thread.start()

    def sample(self):
        most, by = 0, 1
        while (now := resident(self.run.pid)) is not None and self.run.poll() is None:
            most = max(most, now)
            if time.monotonic() - self.begun >= by:
                self.rows.append((by, self.put, most))
                most, by = now, by + 1
            time.sleep(0.05)


def put_all(run, keys, samples):
    """Puts all keys, the run's input in large writes."""
    digits = "5a" * (VALUE - 4)
    for first in range(0, keys, 1000):
        count = min(1000, keys - first)
        lines = (f"put =key/{it} {it:08x}{digits}\n" for it in range(first, first + count))
        run.stdin.write("".join(lines).encode())
        samples.put = first + count
    run.stdin.write(b"flush\n")
    run.stdin.close()


def measure(program, keys, table, store, options=()):
    plan = subprocess.run([program, "plan", str(keys), str(VALUE)], capture_output=True, text=True, check=True)
    subprocess.run([program, "format", store, *plan.stdout.splitlines()[0].split(), "--force"], check=True, stdout=subprocess.DEVNULL)
    with open(os.devnull, "wb") as nothing:
        run = subprocess.Popen([program, "run", store, "--tend", *options], stdin=subprocess.PIPE, stdout=nothing, env=ENV, bufsize=1 << 20)
        samples = Samples(run)
        put_all(run, keys, samples)
        status = run.wait()
        samples.thread.join()
    with open(table, "w") as out:
        out.write("seconds\trows\tbytes\n")
        out.writelines(f"{second}\t{rows}\t{most}\n" for second, rows, most in samples.rows)
    print(f"status {status}, {keys} keys in {time.monotonic() - samples.begun:.0f} s, at most {max(it[2] for it in samples.rows)} bytes, "
          f"at the end {samples.rows[-1][2]}")
    return status


def draw(table, picture):
    """Draws a table: the most memory in each of some parts of the load."""
    with open(table) as it:
        rows = [tuple(map(int, line.split("\t"))) for line in it.read().splitlines()[1:]]
    size = -(-len(rows) // POINTS)
    parts = [rows[first:first + size] for first in range(0, len(rows), size)]
    line = [(part[-1][1], max(it[2] for it in part) / 1e6) for part in parts]
    with open(picture, "w") as out:
        out.write(plot("Resident memory of a load", "rows put", "MB", [("run --tend", line)], across_by_powers=False))
    return 0


def main():
    if len(sys.argv) == 4 and sys.argv[1] == "--plot":
        return draw(*sys.argv[2:])
    if len(sys.argv) not in (4, 5, 6):
        sys.exit(__doc__)
    program, keys, table = sys.argv[1], int(sys.argv[2]), sys.argv[3]
    if len(sys.argv) > 4:
        options = [it for number in sys.argv[5:] for it in ("--merge-at", number)]
        return measure(program, keys, table, sys.argv[4], options)
    with tempfile.TemporaryDirectory() as folder:
        return measure(program, keys, table, f"{folder}/store.silt")


if __name__ == "__main__":
    sys.exit(main())
