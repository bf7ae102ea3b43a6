#!/usr/bin/env python3
"""Measures sets of shards beside one store, RocksDB and LevelDB, and prints a table of what came out.

    bench/measure_sets.py PROGRAM ANCHORS FOLDER KEYS [--shards N,N,..] [--value BYTES] [--work turns|workers] [--only silt|others]

PROGRAM is silt_bench and ANCHORS the bench of the other stores, as bench/run builds them. For each number of shards (1 is one store,
without routing) it puts KEYS keys, each shard in a thread of its own, with a sync after each 1,000 puts of a shard, and all background
work to its end. The other stores take the same keys by one thread and by four. FOLDER is where the files are made. Nothing else is to run.
"""
import argparse
import os
from pathlib import Path

from stores import call, geometry, rows_of, table

GROUP, STORES, GETS = 1000, 4, 1_000_000
HASHES = {"turns": 8, "workers": 16}
COLUMNS = ["store", "puts/s", "gets/s 1 thread", "gets/s 4 threads", "absent/s 4 threads", "open ms", "rss bytes a key", "peak bytes a key",
           "bytes on disk a key", "put p99.9 us", "put longest us"]


def blocks(folder, name):
    """how many bytes of the disk the files of this beginning have"""
    return sum(path.stat().st_blocks * 512 for path in folder.glob(f"{name}*"))


def shape(keys, shards, words):
    """V B CAP NL NH S of one shard, with a sixteenth more than its share: keys are spread as dice are"""
    each = keys if shards == 1 else keys // shards + keys // shards // 16 + 64
    return [words.value, *geometry(each, HASHES[words.work])[1:]]


def measure_silt(words, shards):
    path = words.folder / "set.silt"
    what = ["store" if shards == 1 else "set", path, words.work, *shape(words.keys, shards, words), words.keys, GROUP, GETS, STORES]
    row = rows_of(call([words.program, *what, *([] if shards == 1 else [shards])]))[0]
    row["bytes on disk a key"] = f"{blocks(words.folder, 'set.silt') / words.keys:.1f}"
    for made in words.folder.glob("set.silt*"):
        made.unlink()
    return {**row, "store": "silt, one store" if shards == 1 else f"silt, {shards} shards"}


def measure_other(words, name, threads):
    row = rows_of(call([words.anchors, name, words.folder, words.keys, words.value, GROUP, GETS, threads]))[0]
    return {**row, "store": f"{name}, {threads} thread{'s' * (threads > 1)}"}


def with_bytes(row, keys):
    """a row with its memory as bytes a key"""
    return {**row, **{f"{name} bytes a key": f"{float(row[f'{name} KiB']) * 1024 / keys:.1f}" for name in ("rss", "peak")}}


def main():
    words = argparse.ArgumentParser(description=__doc__, formatter_class=argparse.RawDescriptionHelpFormatter)
    words.add_argument("program", type=Path)
    words.add_argument("anchors", type=Path)
    words.add_argument("folder", type=Path)
    words.add_argument("keys", type=int)
    words.add_argument("--shards", default=f"1,2,{os.cpu_count()},{2 * os.cpu_count()}")
    words.add_argument("--value", type=int, default=100)
    words.add_argument("--work", choices=HASHES, default="turns")
    words.add_argument("--only", choices=["silt", "others"])
    words = words.parse_args()
    rows = []
    if words.only != "others":
        rows += [measure_silt(words, int(shards)) for shards in words.shards.split(",")]
    if words.only != "silt":
        rows += [measure_other(words, name, threads) for name in ("rocksdb", "leveldb") for threads in (1, 4)]
    print(table([with_bytes(row, words.keys) for row in rows], COLUMNS))


if __name__ == "__main__":
    main()
