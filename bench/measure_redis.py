#!/usr/bin/env python3
"""Measures silt beside redis with redis-benchmark, and prints a table for docs/performance.md.

    bench/measure_redis.py [--program PATH] [--folder FOLDER] [--proxy]

There are four stores of silt: the one that `plan` gives for the names, one with larger logs, and a set of four shards of each
kind. redis appends each command to its file and syncs it before the reply (appendfsync always), as silt does. All set and get 64
bytes under 100,000 names. Of each row three runs are made by turns, and the middle one is printed. With --proxy each server is
behind a nutcracker of its own. On Debian it wants redis-server, redis-tools and, with --proxy, nutcracker. Nothing else is to run
meanwhile.
"""
import argparse
import contextlib
import pathlib
import socket
import statistics
import subprocess
import sys
import tempfile
import time

TOP = pathlib.Path(__file__).resolve().parent.parent
NAMES = 100_000
LENGTH = 64
VALUE_LEN = LENGTH + 2
# A plan with this has eight times as large logs. Its store takes 9 MB of memory at most, and so does a set of four.
LARGE = ["--merge-writes", "1"]
# Connections, commands that each sends at once, and commands in all.
LOADS = [(1, 1, 1_500), (8, 1, 8_000), (64, 1, 50_000), (8, 50, 200_000), (64, 50, 300_000)]
RUNS = 3
# Twice as many as redis-benchmark has: it opens the next ones while those of the last load are being closed.
CLIENTS = "130"
SHARDS = ["--shards", "4"]
# What is asked of `plan` for each store, and what of `format` and `serve`.
STORES = {
    "planned": ([], []),
    "large logs": (LARGE, []),
    "4 shards": (SHARDS, SHARDS),
    "4 shards, large logs": ([*LARGE, *SHARDS], SHARDS),
}
SERVERS = [*STORES, "redis"]
# The configuration of a proxy before one server.
PROXY = """one:
  listen: 127.0.0.1:{front}
  redis: true
  hash: md5
  distribution: ketama
  auto_eject_hosts: false
  timeout: 20000
  servers:
    - 127.0.0.1:{port}:1 one
"""


def free_port():
    with socket.create_server(("127.0.0.1", 0)) as listener:
        return listener.getsockname()[1]


def planned(program, *options):
    """The six numbers that `plan` gives."""
    words = [program, "plan", str(NAMES), str(VALUE_LEN), *options]
    said = subprocess.run(words, capture_output=True, text=True, check=True).stdout
    return said.splitlines()[0].split()


def silt_words(program, path, numbers, port, *options):
    """The words that serve a new store."""
    subprocess.run([program, "format", path, *map(str, numbers), *options], check=True, stdout=subprocess.DEVNULL)
    return [program, "serve", path, str(port), "--resp", "--clients", CLIENTS, *options]


def redis_words(folder, port):
    options = {"port": port, "dir": folder, "save": "", "appendonly": "yes", "appendfsync": "always"}
    return ["redis-server", *(it for name, value in options.items() for it in (f"--{name}", str(value)))]


@contextlib.contextmanager
def serving(words, port):
    """A server that listens."""
    with subprocess.Popen(words, stdout=subprocess.DEVNULL) as running:
        try:
            for _ in range(200):
                with contextlib.suppress(OSError), socket.create_connection(("127.0.0.1", port)):
                    break
                time.sleep(0.05)
            yield
        finally:
            running.terminate()


@contextlib.contextmanager
def fronted(folder, port, has_proxy):
    """The port at which clients reach the server of a port: its own, or that of a proxy before it."""
    if not has_proxy:
        yield port
        return
    front = free_port()
    path = folder / f"proxy-{front}.yml"
    path.write_text(PROXY.format(front=front, port=port))
    with serving(["nutcracker", "-c", path, "-o", "/dev/null", "-s", str(free_port())], front):
        yield front


def measured(port, load):
    """SETs and GETs a second."""
    connections, at_once, count = load
    words = ["redis-benchmark", "-p", port, "-t", "set,get", "-n", count, "-r", NAMES, "-d", LENGTH]
    words += ["-c", connections, "-P", at_once, "--csv"]
    done = subprocess.run(list(map(str, words)), capture_output=True, text=True)
    if done.returncode != 0:
        sys.exit(f"redis-benchmark: {done.stderr}")
    rows = [it.replace('"', "").split(",") for it in done.stdout.splitlines()[1:]]
    return [float(row[1]) for row in rows]


def main():
    words = argparse.ArgumentParser(description=__doc__, formatter_class=argparse.RawDescriptionHelpFormatter)
    words.add_argument("--program", default=TOP / "crates/silt/out/silt")
    words.add_argument("--folder")
    words.add_argument("--proxy", action="store_true")
    words = words.parse_args()
    heads = [f"{kind}/s {it}" for kind in ("SET", "GET") for it in (*SERVERS, "each to redis")]
    print(f"| connections | at once | {' | '.join(heads)} |")
    print("|---" * (2 + len(heads)) + "|")
    with tempfile.TemporaryDirectory(dir=words.folder) as folder:
        folder = pathlib.Path(folder)
        ports = [free_port() for _ in SERVERS]
        servers = [
            silt_words(words.program, folder / name, planned(words.program, *asked), port, *options)
            for port, (name, (asked, options)) in zip(ports, STORES.items())
        ]
        servers.append(redis_words(folder, ports[-1]))
        with contextlib.ExitStack() as running:
            for server, port in zip(servers, ports):
                running.enter_context(serving(server, port))
            ports = [running.enter_context(fronted(folder, port, words.proxy)) for port in ports]
            for load in LOADS:
                runs = [[measured(port, load) for port in ports] for _ in range(RUNS)]
                row = [load[0], load[1]]
                for kind in range(2):
                    rates = [statistics.median(run[server][kind] for run in runs) for server in range(len(SERVERS))]
                    row += [f"{it:,.0f}" for it in rates]
                    row.append(", ".join(f"{it / rates[-1]:.2f}" for it in rates[:-1]))
                print(f"| {' | '.join(map(str, row))} |", flush=True)


if __name__ == "__main__":
    main()
