"""Random geometries, keys and lines, weighted so that tables crowd and stores run full often."""
import model


def join_lines(lines):
    return b"".join(line + b"\n" for line in lines)


def make_geometry(random, full_tables=False):
    """A small geometry. With full tables a log has as many rows as its table has slots."""
    b = random.choice([2, 2, 2, 4, 4, 8])
    return model.Geometry(
        v=random.randint(1, 4),
        b=b,
        cap=4 * b if full_tables else random.randint(1, 8),
        nl=random.randint(2, 4),
        nh=random.randint(1, 4),
        s=random.randint(20, 80) if full_tables else random.choice([random.randint(1, 16), 16]),
    )


def make_keys(random, geometry, full_tables):
    """A few words for keys. In all but full tables many keys share their buckets."""
    kind = "any" if full_tables else random.choice(["one pair", "two buckets", "any", "names"])
    count = random.randint(2, geometry.cap + 6) + (geometry.slots if full_tables else 0)
    if kind == "names":
        return [b"=" + random.choice([b"a", b"key-", b"~!"]) + b"%d" % i for i in range(count)]
    few = [random.randrange(geometry.b) for _ in range(1 if kind == "one pair" else 2)]
    return [
        make_key(random, geometry, few if kind != "any" else range(geometry.b))
        for _ in range(count)
    ]


def make_key(random, geometry, buckets):
    """A key whose two buckets are among the given ones."""
    halves = [random.choice(buckets) + geometry.b * random.randrange(3) for _ in range(2)]
    head = b"".join(it.to_bytes(2, "big") for it in halves)
    return (
        head + bytes([random.randrange(256)]) + bytes(14) + bytes([random.randrange(3)])
    ).hex().encode()


def make_value(random, v):
    return bytes(random.randrange(256) for _ in range(v)).hex().encode()


class Maker:
    """Makes lines for a store of one geometry. To fill tables it puts its keys in turn."""

    def __init__(self, random, geometry, full_tables=False):
        self.random = random
        self.geometry = geometry
        self.full_tables = full_tables
        self.keys = make_keys(random, geometry, full_tables)
        # The last values that were put or swapped in and not taken away, by the keys' words.
        self.latest = {}
        self.turn = 0
        # A list of the kinds of line with their weights: each script has its own.
        self.kinds = ["put", "delete", "swap", "get", "flush", "convert", "merge", "round", "bad"]
        some = [random.choice([2, 10, 25]), random.choice([0, 8, 30]), 15, 8]
        self.weights = [40, *some, *(random.choice([0, 2, 6]) for _ in range(3)), 3]

    def lines(self, count):
        """About so many lines, as bytes without line ends. Steps in the background come in
        bursts."""
        made = []
        while len(made) < count:
            kind = self.random.choices(self.kinds, self.weights)[0]
            made += getattr(self, f"make_{kind}")()
        return made

    def make_put(self):
        self.turn += 1
        key = (
            self.keys[self.turn % len(self.keys)]
            if self.full_tables
            else self.random.choice(self.keys)
        )
        return [b"put " + self.cased(key) + b" " + self.new_value(key)]

    def make_swap(self):
        """A swap, for the most part of the value that the key has if the commands before were
        taken, or of none."""
        key = self.random.choice(self.keys)
        other = make_value(self.random, self.geometry.v)
        old = (
            self.latest.get(key, b"-")
            if self.random.random() < 0.8
            else self.random.choice([other, b"-"])
        )
        is_last = old != b"-" and self.random.random() < 0.2
        new = self.no_value(key) if is_last else self.new_value(key)
        return [b"swap " + self.cased(key) + b" " + self.cased(old) + b" " + new]

    def new_value(self, key):
        self.latest[key] = make_value(self.random, self.geometry.v)
        return self.cased(self.latest[key])

    def no_value(self, key):
        self.latest.pop(key, None)
        return b"-"

    def make_delete(self):
        key = self.random.choice(self.keys)
        self.no_value(key)
        return [b"delete " + self.cased(key)]

    def make_get(self):
        return [b"get " + self.cased_key()]

    def make_flush(self):
        return [b"flush" + self.random.choice([b"", b"", b"\r"])]

    def make_convert(self):
        whole = self.geometry.slots + 1
        return [b"convert"] * self.random.choice(
            [1, 3, whole, whole, self.random.randint(1, 2 * whole)]
        )

    def make_merge(self):
        whole = (
            self.geometry.slots * self.random.randint(1, self.geometry.nh)
            + self.random.randint(1, 12)
        )
        return [b"merge"] * self.random.choice(
            [1, 5, whole, whole, self.random.randint(1, 2 * whole)]
        )

    def make_round(self):
        """As many puts as freeze a log, a whole conversion, and perhaps a merge."""
        puts = [self.make_put()[0] for _ in range(self.geometry.cap + 1)]
        made = puts + [b"convert"] * (self.geometry.slots + 1)
        return made + (self.make_merge() if self.random.random() < 0.3 else [])

    def make_bad(self):
        return [self.random.choice(odd_lines(self.random, self.keys[0], self.geometry.v))]

    def cased_key(self):
        return self.cased(self.random.choice(self.keys))

    def cased(self, word):
        """A word of digits, which may be written in either case. A name stands as it is."""
        return word.upper() if word[:1] != b"=" and self.random.random() < 0.1 else word


def odd_lines(random, key, v):
    """Lines that are not good, and some good ones in an unusual form."""
    value = make_value(random, v)
    word = random.choice(
        [b"put", b"delete", b"swap", b"get", b"flush", b"convert", b"merge", b"stop"]
    )
    noise = bytes(random.choice(b"abget 0=\r\t\x00\xff") for _ in range(random.randint(1, 12)))
    return [
        b"",
        b"\r",
        b" ",
        b"\r\r",
        noise,
        word,
        word.upper(),
        word + b" ",
        b" " + word,
        word + b"  " + key,
        word + b" " + key + b" " + key,
        b"put " + key + b" " + value + b" ",
        b"put  " + key + b" " + value,
        b"put " + key,
        b"flush " + key,
        b"put " + key + b"\t" + value,
        b"get " + key + b"\r",
        b"get " + b"0" * 39,
        b"get " + b"0" * 41,
        b"get " + b"0" * 39 + b"g",
        b"get ",
        b"get =",
        b"get =\x7f",
        b"get =a\xc3\xa4",
        b"get =" + b"a" * 8000,
        b"get =" + b"a" * 8001,
        b"delete 0x" + b"0" * 38,
        b"put " + key + b" " + value[1:],
        b"put " + key + b" " + value + b"0",
        b"put " + key + b" " + value + b"00",
        b"put " + key + b" ",
        b"put " + key + b" g" + value[1:],
        b"put 0 0",
        b"put =b -" + value[1:],
        b"swap " + key + b" " + value,
        b"swap " + key + b" " + value + b" " + value + b" " + value,
        b"swap " + key + b"  " + value,
        b"swap " + key + b" " + value + b" " + value + b"\r",
        b"swap " + key + b" " + value + b" " + value[1:],
        b"swap " + key + b" " + value[1:] + b" " + value,
        b"swap 0 0 0",
        b"swap " + key + b" - -",
        b"swap " + key + b" - " + value,
        b"swap " + key + b" " + value + b" -\r",
        b"swap = - -",
        b"swap " + key + b" - " + value[1:],
        b"swap " + key + b" -- " + value,
        b"swap " + key + b" -",
        b"swap " + key + b" - ",
        b"put " + key + b" -",
        b"put - " + value,
        b"get -",
        b"delete -",
        b"-",
        b"x" * 16600,
        b"x" * 16601,
        b"x" * 16600 + b"\r",
        b"x" * 40000,
        b"get =" + b"a" * 16596,
        b"stop 0 " + b"o" * 17000,
        b"stop 0 olds",
        b"stop 0 OLD",
        b"stop -1 old",
        b"stop 4294967296 old",
        b"stop 00000000001 old",
        b"stop 1 old old",
        b"stop 1",
        b"stop  old",
        b"stop x new",
        b"stop +1 new",
    ]


def make_stop(random, device):
    """A stop line for a life that, stopped by nothing, ends with this device.

    Most stop one of its calls, and some tear a write over several commit bytes.
    """
    calls = len(device.calls)
    torn = [
        i
        for i, it in enumerate(device.calls, 1)
        if it and len(it[1]) > 1 and set(it[1]) == {model.OPEN}
    ]
    if torn and random.random() < 0.3:
        return f"stop {random.choice(torn)} {random.choice(['mix', 'mix', 'new', 'ones'])}".encode()
    late = max(random.randint(1, calls) for _ in range(2)) if calls else 1
    call = random.choice([0, calls + 1, 4294967295] + [late] * 9)
    word = f"{call:010}" if random.random() < 0.05 else str(call)
    return f"stop {word} {random.choice(model.FILLS)}".encode()
