#!/usr/bin/env python3
"""Measures a served set of shards: a load by pipelined clients, its memory, gets, and the next opening.

    bench/measure_served_set.py [--program PATH] [--folder FOLDER] [--keys N] [--value V] [--shards N,N,..] [--mergers N,N,..]

For each number of shards and of mergers it makes the set that `plan` gives (1 is one store), serves it with `--pipeline`, and puts all
keys by as many connections as there are processors, 1,000 lines a batch. The time ends when the workers have no step to do. Then as many
connections get all keys, or the first million. The server is killed, and the set is opened once more. It prints a table. The clients run
on the same machine. It wants a C compiler, and nothing else is to run.
"""
import argparse
import os
import pathlib
import socket
import subprocess
import tempfile
import time

TOP = pathlib.Path(__file__).resolve().parent.parent
BATCH = 1000
GETS = 1_000_000
# How many seconds the workers rest before all work is taken for done.
REST = 0.5
# How many seconds a put waits for room at most.
PATIENCE = "600"
HEADS = ["shards", "mergers", "puts/s", "puts/s to the end of all work", "gets/s", "opening, ms", "resident at most", "behind the load",
         "behind an opening", "bytes on disk a key"]


def compiled(folder):
    """The clients' program."""
    words = ["cc", "-O2", "-pthread", "-o", folder / "load", TOP / "bench/load.c"]
    subprocess.run(words, check=True)
    return folder / "load"


def free_port():
    with socket.create_server(("127.0.0.1", 0)) as listener:
        return listener.getsockname()[1]


class Served:
    """A server, from its start to the line `listening`."""

    def __init__(self, program, path, options):
        self.port, start = free_port(), time.monotonic()
        self.process = subprocess.Popen(
            [program, "serve", path, str(self.port), "--pipeline", "--wait", PATIENCE, *options], stdout=subprocess.PIPE, text=True
        )
        while not (line := self.process.stdout.readline()).startswith("listening"):
            if not line:
                raise SystemExit("it does not listen")
        self.opening = time.monotonic() - start

    def facts(self):
        """The numbers of `info`, by name."""
        with socket.create_connection(("127.0.0.1", self.port)) as asking:
            asking.sendall(b"info\n")
            asking.shutdown(socket.SHUT_WR)
            said = asking.makefile().readlines()
        return {name: int(number) for name, number in (it.split() for it in said[:-1])}

    def memory(self, name):
        """A number of bytes that the system reports of the process."""
        status = pathlib.Path(f"/proc/{self.process.pid}/status").read_text()
        return next(int(it.split()[1]) * 1024 for it in status.splitlines() if it.startswith(f"{name}:"))

    def wait(self):
        """Waits until the workers have rested for a while."""
        worked = time.monotonic()
        while time.monotonic() < worked + REST:
            facts = self.facts()
            if facts["frozen_logs"] or facts["converted_slots"] or facts["merge_steps"]:
                worked = time.monotonic()
            time.sleep(0.05)

    def kill(self):
        self.process.kill()
        self.process.wait()


def options_of(shards, mergers):
    of_set = ["--shards", str(shards)] if shards > 1 else []
    return of_set, [*of_set, *(["--mergers", str(mergers)] if mergers and shards > 1 else [])]


def loaded(load, server, kind, keys, words):
    """Replies a second."""
    shape = [server.port, kind, words.connections, keys, words.value, BATCH]
    return float(subprocess.run([load, *map(str, shape)], check=True, stdout=subprocess.PIPE, text=True).stdout)


def measured(load, words, folder, shards, mergers):
    """A row of the table."""
    path = folder / "set.silt"
    of_set, served = options_of(shards, mergers)
    plan = [words.program, "plan", str(words.keys), str(words.value), *of_set]
    numbers = subprocess.run(plan, check=True, capture_output=True, text=True).stdout.splitlines()[0].split()
    subprocess.run([words.program, "format", path, *numbers, "--sparse", *of_set], check=True, stdout=subprocess.DEVNULL)
    server = Served(words.program, path, served)
    start = time.monotonic()
    puts = loaded(load, server, "put", words.keys, words)
    server.wait()
    to_end = words.keys / (time.monotonic() - start - REST)
    gets = loaded(load, server, "get", min(words.keys, GETS), words)
    peak, rest = server.memory("VmHWM"), server.memory("VmRSS")
    server.kill()
    again = Served(words.program, path, served)
    opening, opened = again.opening, again.memory("VmRSS")
    again.kill()
    disk = sum(it.stat().st_blocks * 512 for it in folder.glob("set.silt*"))
    for made in folder.glob("set.silt*"):
        made.unlink()
    memory = [f"{it / 1e6:,.1f} MB, {it / words.keys:.2f} B a key" for it in (peak, rest, opened)]
    return [shards, mergers or "all", *(f"{it:,.0f}" for it in (puts, to_end, gets, opening * 1000)), *memory, f"{disk / words.keys:.0f}"]


def main():
    words = argparse.ArgumentParser(description=__doc__, formatter_class=argparse.RawDescriptionHelpFormatter)
    words.add_argument("--program", default=TOP / "crates/silt/out/silt")
    words.add_argument("--folder")
    words.add_argument("--keys", type=int, default=1_000_000)
    words.add_argument("--value", type=int, default=100)
    words.add_argument("--connections", type=int, default=os.cpu_count())
    words.add_argument("--shards", default=f"1,{os.cpu_count()},{2 * os.cpu_count()}")
    words.add_argument("--mergers", default="0", help="0 is all of them")
    words = words.parse_args()
    print(f"| {' | '.join(HEADS)} |", "|---" * len(HEADS) + "|", sep="\n")
    with tempfile.TemporaryDirectory(dir=words.folder) as folder:
        folder = pathlib.Path(folder)
        load = compiled(folder)
        for shards in map(int, words.shards.split(",")):
            for mergers in map(int, words.mergers.split(",")):
                print(f"| {' | '.join(map(str, measured(load, words, folder, shards, mergers)))} |", flush=True)


if __name__ == "__main__":
    main()
