"""What the scripts that measure stores share: a store's geometry, a program's tables, and the pages that show them."""
import os
import re
import subprocess
import sys

VALUE = 100
# Memory that is freed goes back to the system, for each of the programs.
MEMORY = {"MALLOC_TRIM_THRESHOLD_": "131072"}


def geometry(keys, hashes):
    """V B CAP NL NH S for so many keys: all of them fill 9 to 18 logs, as long as logs can be so large"""
    buckets = 64
    while buckets < 32_768 and keys > 62 * buckets:
        buckets *= 2
    rows = buckets * 7 // 2
    return [VALUE, buckets, rows, 3, hashes, min(keys + (3 + hashes) * rows, 16_777_216)]


def call(words):
    """what a program prints"""
    done = subprocess.run([str(word) for word in words], stdout=subprocess.PIPE, text=True, env={**os.environ, **MEMORY})
    if done.returncode != 0:
        sys.exit(f"bench: {' '.join(map(str, words))}: status {done.returncode}")
    return done.stdout


def rows_of(text):
    """the rows of a table with its names in the first line"""
    lines = [line.split("\t") for line in text.strip().split("\n")]
    return [dict(zip(lines[0], line)) for line in lines[1:]]


def spelled(text):
    """a number as a table shows it"""
    try:
        number = float(text)
    except ValueError:
        return text
    return f"{number:,.0f}" if number >= 1000 else text


def table(rows, columns):
    lines = ["| " + " | ".join(columns) + " |", "|" + "---|" * len(columns)]
    return "\n".join(lines + ["| " + " | ".join(spelled(row.get(c, "") or "") for c in columns) + " |" for row in rows])


def put_between(path, name, text):
    """writes a text between the marks of a name"""
    marks = re.compile(rf"(<!-- {name} -->\n).*?(<!-- end -->)", re.S)
    page = path.read_text()
    if not marks.search(page):
        sys.exit(f"bench: {path} has no marks for {name}")
    path.write_text(marks.sub(lambda found: found.group(1) + text + "\n" + found.group(2), page))
