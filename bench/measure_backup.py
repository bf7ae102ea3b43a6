#!/usr/bin/env python3
"""Measures puts and gets of a served store beside backups, and without them.

usage: bench/measure_backup.py PROGRAM KEYS FOLDER [--pause SECONDS] [--remove]

Makes a store for so many keys of 100 bytes in the folder, which must be empty, serves it, and puts all keys. Then three clients
go on, each with one request after the other: one puts a key, one gets a key, and one puts 200 keys in one write, with a pause
between two of its requests. In four turns nothing else happens for eight seconds, and then a backup is written. With `--remove` the
last backup is removed when a turn begins, so that the next one takes the place of none.
"""
import argparse
import hashlib
import pathlib
import socket
import statistics
import subprocess
import sys
import threading
import time

PORT = 7301
TURNS, QUIET = 4, 8
KINDS = ("put", "get", "200 puts")


class Client:
    def __init__(self):
        self.file = socket.create_connection(("127.0.0.1", PORT)).makefile("rwb")

    def ask(self, *lines):
        self.file.write("".join(f"{it}\n" for it in lines).encode())
        self.file.flush()
        return [self.file.readline() for _ in lines]


def put(number):
    return f"put {hashlib.sha1(b'%d' % number).hexdigest()} {number:0200x}"


def get(number):
    return f"get {hashlib.sha1(b'%d' % number).hexdigest()}"


class Load:
    """Clients that go on until they are stopped. Of each request it keeps the beginning, how long it took, and its kind."""

    def __init__(self, keys, pause):
        self.keys, self.pause, self.rows, self.stops = keys, pause, [], threading.Event()
        self.threads = [threading.Thread(target=self.run, args=(it, seed)) for seed, it in enumerate(KINDS, 1)]

    def run(self, kind, number):
        client = Client()
        while not self.stops.is_set():
            lines = []
            for _ in range(200 if kind == "200 puts" else 1):
                number = (number * 1_103_515_245 + 12_345) % self.keys
                lines.append(get(number) if kind == "get" else put(number))
            time.sleep(self.pause if len(lines) > 1 else 0)
            begun = time.monotonic()
            client.ask(*lines)
            self.rows.append((begun, time.monotonic() - begun, kind))

    def print_within(self, spans):
        for kind in KINDS:
            each = [[took for begun, took, it in self.rows if it == kind and first <= begun <= last] for first, last in spans]
            took, longest = sorted(sum(each, [])), [f"{1000 * max(it, default=0):.0f}" for it in each]
            rate = len(took) / sum(last - first for first, last in spans)
            middle, high = statistics.median(took), took[len(took) * 99 // 100]
            print(f"  {kind}: {rate:.0f} a second, half within {1000 * middle:.2f} ms, 99 of 100 within {1000 * high:.1f} ms, "
                  f"longest of each turn {' '.join(longest)} ms")


def back_up(client, notes):
    """Has a backup written, and returns when it began and ended."""
    begun, before = time.monotonic(), notes.read_text().count("backup")
    client.ask("backup")
    while notes.read_text().count("backup") == before:
        time.sleep(0.02)
    return begun, time.monotonic()


def measure(client, keys, notes, pause, removes):
    for first in range(0, keys, 1000):
        client.ask(*(put(it) for it in range(first, min(first + 1000, keys))))
    load = Load(keys, pause)
    for it in load.threads:
        it.start()
    quiet, backups = [], []
    for _ in range(TURNS):
        begun = time.monotonic()
        if removes:
            (notes.parent / "b.silt").unlink(missing_ok=True)
        time.sleep(QUIET)
        quiet.append((begun, time.monotonic()))
        backups.append(back_up(client, notes))
    load.stops.set()
    for it in load.threads:
        it.join()
    print("without a backup")
    load.print_within(quiet)
    print("beside a backup of", " ".join(f"{last - first:.2f}" for first, last in backups), "s")
    load.print_within(backups)


def main():
    words = argparse.ArgumentParser(description=__doc__, formatter_class=argparse.RawDescriptionHelpFormatter)
    words.add_argument("program", type=pathlib.Path)
    words.add_argument("keys", type=int)
    words.add_argument("folder", type=pathlib.Path)
    words.add_argument("--pause", type=float, default=0.05)
    words.add_argument("--remove", action="store_true")
    asked = words.parse_args()
    program, notes = asked.program.resolve(), asked.folder / "notes"
    asked.folder.mkdir(exist_ok=True)
    planned = subprocess.run([program, "plan", str(asked.keys), "100"], check=True, capture_output=True, text=True).stdout
    numbers = planned.splitlines()[0].split()
    subprocess.run([program, "format", "a.silt", *numbers], check=True, capture_output=True, cwd=asked.folder)
    with open(notes, "w") as errors:
        serve = [program, "serve", "a.silt", str(PORT), "--pipeline", "--backup", "b.silt"]
        with subprocess.Popen(serve, cwd=asked.folder, stdout=subprocess.PIPE, stderr=errors, text=True) as server:
            print("numbers", *numbers, server.stdout.readline().strip(), server.stdout.readline().strip())
            client = Client()
            try:
                measure(client, asked.keys, notes, asked.pause, asked.remove)
            finally:
                client.ask("shutdown")
    return subprocess.run([program, "check", "b.silt"], cwd=asked.folder).returncode


if __name__ == "__main__":
    sys.exit(main())
