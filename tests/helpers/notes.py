"""What a run says on standard error of its lines: how many were refused, and whether the last one
lacks its end."""
import re

from model import NAMES
from watch import IN

HELP = {
    7: (
        "merging drops what was overwritten or deleted (run with --tend, or silt tend), and more "
        "keys need a larger S"
    ),
    8: "background work makes room: run with --tend, or silt tend",
    9: "an earlier write or sync failed, and running again opens the store anew",
    22: "a value has {digits} hexadecimal digits here (V is {length})",
}
# A swap of no value for none, and what is said of it.
EMPTY_SWAP = re.compile(rb"swap (=[!-~]{1,8000}|[0-9a-fA-F]{40}) - -\r?")
HYPHENS = "OLD and NEW of a swap are not both a hyphen"


def notes_of_lines(data, out, length=2):
    """What a run says that read these bytes and printed this text, if it printed `opened`. Its
    store has values of this length."""
    *lines, rest = data.split(b"\n")
    numbers = [number for number, line in enumerate(lines, 1) if line not in (b"", b"\r")]
    replies = out.split("\n")[1:-1]
    refused = {}
    for number, reply in zip(numbers, replies):
        if reply.startswith("refused "):
            refused.setdefault(int(reply.split()[1]), []).append(number)
    hyphens = sum(EMPTY_SWAP.fullmatch(line) is not None for line in lines)
    notes = [
        notes_of_refusals(kind, refused[kind], length, hyphens if kind == 22 else 0)
        for kind in sorted(refused)
    ]
    return "".join(
        notes + ["silt: the last line has no line feed, and is not answered\n"] * (rest != b"")
    )


def notes_of_refusals(kind, lines, length, hyphens):
    """What it says of lines with these numbers that were refused for one reason. So many lines are
    swaps of no value for none."""
    noun = "line" if len(lines) == 1 else "lines"
    help_words = f"; {HELP[kind]}" if kind in HELP else ""
    help_words = help_words.format(digits=2 * length, length=length)
    if hyphens:
        help_words = f"; {HYPHENS}" if hyphens >= len(lines) else f"{help_words}, and {HYPHENS}"
    return (
        f"silt: {len(lines)} {noun} refused {kind} {NAMES[kind]}, first line "
        f"{lines[0]}{help_words}\n"
    )


def input_of(calls):
    """The bytes that a recorded run read of its standard input."""
    return b"".join(it.data for it in calls if it.name in IN and it.file == "standard input")
