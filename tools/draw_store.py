#!/usr/bin/env python3
"""Draws what a store's file consists of, as an SVG: its regions, which of them are named, and how full they are.

    draw_store.py STORE PICTURE

It reads the file by docs/layout.md, and changes nothing. Draw a store that no job has open, or a copy of it. A file that is no store
is refused with one line on standard error, and status 1. What is damaged in a region is drawn, in red.
"""
import mmap
import sys
from html import escape

SECTOR = 4096
HEADER_LEN = 37
OPEN = 0xA7
VERSIONS = (1, 2)
BODY_LEN = 120
# The highest bit of a generation's field says that digests follow the body.
LONG_FORM = 1 << 63
LIMITS = {"V": (1, 4096), "B": (2, 32768), "CAP": (1, 131072), "NL": (2, 8), "NH": (1, 16), "S": (1, 16777216)}

PUT, DELETE, BAD, EMPTY, BORDER, TEXT, FAINT = "#2f7d59", "#d08a2c", "#c0392b", "#eef1ee", "#8a948e", "#1d2421", "#6b756f"
LEFT, BAR, WIDTH, BAR_HEIGHT, STEP, TOP = 215, 470, 1000, 22, 34, 150
MOST_CELLS = BAR // 2


class NoStore(Exception):
    """The file is no store that can be drawn, and why."""


def number(data, at, length=4):
    return int.from_bytes(data[at:at + length], "big")


def sectors(length):
    return -(-length // SECTOR) * SECTOR


class Shape:
    """The version and the six numbers of a store, and where its regions lie."""

    def __init__(self, version, numbers):
        self.version = version
        self.numbers = dict(zip(LIMITS, numbers))
        for name, (least, most) in LIMITS.items():
            if not least <= self.numbers[name] <= most:
                raise NoStore(f"the header's {name} is {self.numbers[name]}, and its limits are {least} and {most}")
        self.V, self.B, self.CAP, self.NL, self.NH, self.S = numbers
        if self.B & (self.B - 1) or self.CAP > 4 * self.B:
            raise NoStore("the header's B is no power of two, or its CAP is above 4 times B")
        self.row, self.entry = 21 + self.V, 20 + self.V
        self.log = sectors(self.CAP) + sectors(self.CAP * self.row)
        self.hash = sectors(4 * self.B * self.row)
        self.sorted = sectors(self.S * self.entry)

    def log_at(self, region):
        return 3 * SECTOR + region * self.log

    def hash_at(self, region):
        return self.log_at(self.NL) + region * self.hash

    def sorted_at(self, region):
        return self.hash_at(self.NH) + region * self.sorted

    def length(self):
        return self.sorted_at(2)


class Body:
    """What a manifest slot names. The digests behind it are not looked at: `silt check` compares them."""

    def __init__(self, data, slot, shape):
        self.slot = slot
        has_digests, self.generation = divmod(number(data, 0, 8), LONG_FORM)
        self.active = number(data, 8)
        self.frozen = [number(data, 16 + 4 * i) for i in range(min(number(data, 12), 7))]
        self.hashed = [number(data, 48 + 4 * i) for i in range(min(number(data, 44), 16))]
        self.sorted, self.count = number(data, 112), number(data, 116)
        logs = [self.active, *self.frozen]
        is_sound = (
            (has_digests or shape.version == 1) and self.generation % 2 == slot
            and number(data, 12) < shape.NL and number(data, 44) <= shape.NH
            and len(set(logs)) == len(logs) and max(logs) < shape.NL
            and len(set(self.hashed)) == len(self.hashed) and all(it < shape.NH for it in self.hashed)
            and self.sorted < 2 and self.count <= shape.S
        )
        if not is_sound:
            raise NoStore(f"manifest slot {slot} is open, and its body is not well formed")


class Region:
    """A region: its name, its part in the store (none where it is free), where it lies, and the kind at each of its places."""

    def __init__(self, name, part, at, length, kinds):
        self.name, self.part, self.at, self.length, self.kinds = name, part, at, length, kinds

    def used(self):
        return len(self.kinds) - self.kinds.count(0)

    def said(self):
        if not self.part:
            return "free"
        return f"{self.part}: {self.used():,} of {len(self.kinds):,}"


def read_shape(data):
    if len(data) < HEADER_LEN:
        raise NoStore(f"it has {len(data)} bytes, and a header has {HEADER_LEN}")
    if data[0] != OPEN or data[1:9] != b"SILTFLSH":
        raise NoStore("it does not begin with a store's header")
    if number(data, 9) not in VERSIONS:
        raise NoStore(f"its layout is version {number(data, 9)}, and this draws versions 1 and 2")
    shape = Shape(number(data, 9), [number(data, 13 + 4 * i) for i in range(6)])
    if len(data) != shape.length():
        raise NoStore(f"it has {len(data)} bytes, and a store of these numbers has {shape.length()}")
    return shape


def read_body(data, shape):
    """The current body: of the open slots the one of greater generation."""
    places = {slot: SECTOR * (1 + slot) for slot in (0, 1)}
    bodies = [Body(data[at + 1:at + 1 + BODY_LEN], slot, shape) for slot, at in places.items() if data[at] == OPEN]
    if not bodies:
        raise NoStore("neither of its manifest slots is open")
    return max(bodies, key=lambda body: body.generation)


def log_kinds(data, shape, region):
    """The kinds of a log's rows, which end at its first closed gate, and zeros behind them."""
    at = shape.log_at(region)
    gates = data[at:at + shape.CAP]
    rows = next((i for i, gate in enumerate(gates) if gate != OPEN), shape.CAP)
    bodies = at + sectors(shape.CAP)
    kinds = bytes(kind or 255 for kind in data[bodies:bodies + rows * shape.row:shape.row])
    return kinds + bytes(shape.CAP - rows)


def hash_kinds(data, shape, region):
    at = shape.hash_at(region)
    return bytes(data[at:at + 4 * shape.B * shape.row:shape.row])


def part_of(region, regions, name):
    """Which store of a list, the newest first, has this region: none has a free one."""
    if region not in regions:
        return ""
    return name if len(regions) == 1 else f"{name} {regions.index(region) + 1} of {len(regions)}"


def read_regions(data, shape, body):
    regions = []
    for i in range(shape.NL):
        part = "active log" if i == body.active else part_of(i, body.frozen, "frozen log")
        kinds = log_kinds(data, shape, i) if part else bytes(shape.CAP)
        regions.append(Region(f"log region {i}", part, shape.log_at(i), shape.log, kinds))
    for i in range(shape.NH):
        part = part_of(i, body.hashed, "hash store")
        kinds = hash_kinds(data, shape, i) if part else bytes(4 * shape.B)
        regions.append(Region(f"hash region {i}", part, shape.hash_at(i), shape.hash, kinds))
    for i in range(2):
        part = "sorted store" if i == body.sorted else ""
        kinds = bytes([1]) * body.count + bytes(shape.S - body.count) if part else bytes(shape.S)
        regions.append(Region(f"sorted region {i}", part, shape.sorted_at(i), shape.sorted, kinds))
    return regions


def rect(x, y, width, height, fill, more=""):
    return f'<rect x="{x:.2f}" y="{y:.2f}" width="{width:.2f}" height="{height:.2f}" fill="{fill}"{more}/>'


def words(x, y, said, size=13, fill=TEXT, more=""):
    return f'<text x="{x:.2f}" y="{y:.2f}" font-size="{size}" fill="{fill}"{more}>{escape(said)}</text>'


def cells(kinds):
    """The region's places in cells of like width: in each the shares of puts, deletes and unknown kinds, with the cells that are alike as one."""
    count = min(len(kinds), MOST_CELLS)
    runs = []
    for i in range(count):
        cell = kinds[i * len(kinds) // count:(i + 1) * len(kinds) // count]
        puts, deletes, none = cell.count(1), cell.count(2), cell.count(0)
        shares = tuple(n / len(cell) for n in (puts, deletes, len(cell) - puts - deletes - none))
        if runs and runs[-1][2] == shares:
            runs[-1][1] = i + 1
        else:
            runs.append([i, i + 1, shares])
    return [(first / count, last / count, shares) for first, last, shares in runs]


def draw_bar(region, y):
    dash = "" if region.part else ' stroke-dasharray="3 3"'
    drawn = [rect(LEFT, y, BAR, BAR_HEIGHT, EMPTY if region.part else "none", f' stroke="{BORDER}"{dash}')]
    for first, last, shares in cells(region.kinds) if region.part else []:
        foot = y + BAR_HEIGHT
        for share, fill in zip(shares, (PUT, DELETE, BAD)):
            if share:
                foot -= share * BAR_HEIGHT
                drawn.append(rect(LEFT + first * BAR, foot, (last - first) * BAR, share * BAR_HEIGHT, fill))
    return drawn


def draw_device(regions, length):
    """The whole device as one strip, to scale."""
    wide = WIDTH - 40
    drawn = [rect(20, 78, wide, 16, EMPTY, f' stroke="{BORDER}"')]
    for region in regions:
        share = region.used() / len(region.kinds)
        x, width = 20 + region.at / length * wide, region.length / length * wide
        drawn.append(rect(x, 78, share * width, 16, PUT))
        drawn.append(rect(x, 78, width, 16, "none", f' stroke="{BORDER}"'))
    drawn.append(words(20, 110, "the device from its first byte to its last, to scale; below, stores of a kind are numbered from the newest", 11, FAINT))
    return drawn


def draw_legend(y):
    drawn, x = [], LEFT
    for fill, said in ((PUT, "puts and entries"), (DELETE, "deletes"), (EMPTY, "empty"), ("none", "free region"), (BAD, "damaged")):
        dash = ' stroke-dasharray="3 3"' if fill == "none" else ""
        drawn += [rect(x, y, 12, 12, fill, f' stroke="{BORDER}"{dash}'), words(x + 17, y + 10.5, said, 11, FAINT)]
        x += 40 + 7 * len(said)
    return drawn


def draw(name, data):
    shape = read_shape(data)
    body = read_body(data, shape)
    regions = read_regions(data, shape, body)
    charge = sum(region.kinds.count(1) for region in regions)
    numbers = ", ".join(f"{key} {value:,}" for key, value in shape.numbers.items())
    drawn = [
        words(20, 34, name, 20, TEXT, ' font-weight="600"'),
        words(20, 58, f"{len(data):,} bytes; {numbers}; generation {body.generation:,} (slot {body.slot}); charge {charge:,} of {shape.S:,}"),
        *draw_device(regions, len(data)),
    ]
    y = TOP
    drawn.append(words(LEFT - 12, y - 10, "at byte", 11, FAINT, ' text-anchor="end"'))
    for i, region in enumerate(regions):
        y += STEP + (12 if i in (shape.NL, shape.NL + shape.NH) else 0) if i else 0
        drawn += draw_bar(region, y)
        drawn.append(words(20, y + 15, region.name))
        drawn.append(words(LEFT - 12, y + 15, f"{region.at:,}", 11, FAINT, ' text-anchor="end"'))
        drawn.append(words(LEFT + BAR + 14, y + 15, region.said(), 13, TEXT if region.part else FAINT))
    height = y + STEP + 34
    drawn += draw_legend(y + STEP + 4)
    head = f'<svg xmlns="http://www.w3.org/2000/svg" viewBox="0 0 {WIDTH} {height}" font-family="sans-serif">'
    return "\n".join([head, rect(0, 0, WIDTH, height, "#ffffff"), *drawn, "</svg>", ""])


def main(arguments):
    if len(arguments) != 2:
        print(__doc__.strip(), file=sys.stderr)
        return 2
    store, picture = arguments
    try:
        with open(store, "rb") as file:
            is_empty = file.seek(0, 2) == 0
            data = b"" if is_empty else mmap.mmap(file.fileno(), 0, access=mmap.ACCESS_READ)
            text = draw(store.rpartition("/")[2], data)
        with open(picture, "w", encoding="utf-8") as file:
            file.write(text)
    except NoStore as why:
        print(f"draw_store: {store} is no store: {why}", file=sys.stderr)
        return 1
    except OSError as error:
        print(f"draw_store: {error.filename}: {error.strerror}", file=sys.stderr)
        return 1
    return 0


if __name__ == "__main__":
    sys.exit(main(sys.argv[1:]))
