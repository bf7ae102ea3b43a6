"""What was dear in the last `rt check` of a crate, by what it keeps.

usage: python3 tools/check_costs.py CRATE [LEAST]

Two lists, the dearest first: the goals that a search closed in at least so many million steps (1, if nothing is given; a million takes about
a second), and the modules that took at least so many seconds. A goal leaves the first list by an answer in `proofs/FUNCTION/Answers.antt`; a module
`FUNCTION.Proof` is all its searches, `FUNCTION.Answers` what that file says, `FUNCTION.Lts` the steps of the function itself.

What is kept of an earlier check is listed too, and is not checked again: first remove `crates/CRATE/out`, and let no other copy of the
repository have one; then check with `--jobs 1`.
"""
import os
import re
import sys

STEPS = re.compile(r'"name":"?([^",]+)"?[^{}]*?"steps":\[(\d+)')


def kept_files(folder):
    """The times, the folders and the names of all files below a folder, by time."""
    found = []
    for at, _, names in os.walk(folder):
        found += [(os.stat(f"{at}/{name}").st_mtime, at, name) for name in names]
    return sorted(found)


def goals_in(files):
    """The steps, the function and the name of each goal that a search closed."""
    for _, at, name in files:
        if name.endswith(".Proof.decls.oantt"):
            with open(f"{at}/{name}", encoding="utf-8", errors="replace") as file:
                for goal, steps in STEPS.findall(file.read()):
                    yield int(steps) / 1e6, name.removesuffix(".Proof.decls.oantt"), goal


def modules_in(files):
    """The seconds and the name of each module, from the file kept before it."""
    for before, after in zip(files, files[1:]):
        yield after[0] - before[0], after[2].split(".decls")[0].removesuffix(".oantt"), ""


def main(crate, least="1"):
    files = kept_files(f"crates/{crate}/out/incremental")
    for title, rows in ("million steps", goals_in(files)), ("seconds", modules_in(files)):
        print(title)
        for much, name, goal in sorted(rows, reverse=True):
            if much >= float(least):
                print(f"{much:7.1f} {name} {goal}")


if __name__ == "__main__":
    main(*sys.argv[1:])
