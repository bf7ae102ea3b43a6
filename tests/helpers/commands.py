"""Random lines for a store, and the maps that its commands make."""
import itertools

# What stands for no value in a swap.
NONE = "-"


def names(count):
    """So many key words of lines."""
    return [
        "=" + "".join(it) for it in itertools.islice(itertools.product("abcdefgh", repeat=2), count)
    ]


def value_of(number, length):
    """A value that holds the number of its command."""
    return (number.to_bytes(2, "big") * (length // 2 + 1))[-length:].hex()


class Commands:
    """Random lines on these keys. The values of two commands differ, up to 65,536 commands.

    Steps in the background come in bursts, of at most so many."""

    def __init__(self, random, keys, length, burst=0):
        self.random = random
        self.keys = keys
        self.length = length
        self.burst = burst
        self.number = random.randrange(1000)
        # The last values that were put or swapped in and not taken away.
        self.latest = {}

    def new_value(self, key):
        self.number += 1
        self.latest[key] = value_of(self.number, self.length)
        return self.latest[key]

    def no_value(self, key):
        self.latest.pop(key, None)
        return NONE

    def put(self):
        key = self.random.choice(self.keys)
        return f"put {key} {self.new_value(key)}"

    def swap(self):
        """A swap, for the most part of the value that the key has if the commands before were
        accepted, or of none."""
        key = self.random.choice(self.keys)
        other = value_of(self.random.randrange(1 << 16), self.length)
        old = (
            self.latest.get(key, NONE)
            if self.random.random() < 0.8
            else self.random.choice((other, NONE))
        )
        is_last = old != NONE and self.random.random() < 0.2
        return f"swap {key} {old} {self.no_value(key) if is_last else self.new_value(key)}"

    def delete(self):
        key = self.random.choice(self.keys)
        self.no_value(key)
        return f"delete {key}"

    def lines(self, count):
        """At least this many lines."""
        made = []
        while len(made) < count:
            kind = self.random.random()
            if kind < 0.30:
                made.append(self.put())
            elif kind < 0.45:
                made.append(self.swap())
            elif kind < 0.55:
                made.append(self.delete())
            elif kind < 0.70:
                made.append("flush")
            elif kind < 0.78 or not self.burst:
                made.append(f"get {self.random.choice(self.keys)}")
            else:
                made += [self.random.choice(("convert", "merge"))] * self.random.randint(
                    1, self.burst
                )
        return made


def is_command(line):
    return line.startswith(("put ", "delete ", "swap "))


def differs(values, line):
    """Whether this is a swap, and its key has another value than the old one. No value is one of
    them."""
    word, *words = line.split()
    return word == "swap" and values.get(words[0], NONE) != words[1]


def done(values, command):
    """The map after an accepted command, as a new one."""
    assert not differs(values, command), f"{command} is accepted, and the map is {values}"
    _, key, *words = command.split()
    rest = {its: it for its, it in values.items() if its != key}
    return {**rest, key: words[-1]} if words and words[-1] != NONE else rest


def tried(values, command):
    """The map after a command that is accepted if it does not differ."""
    return values if differs(values, command) else done(values, command)


def maps_after(values, commands):
    """The maps after none of these accepted commands, the first, the first two, and so on."""
    return list(itertools.accumulate(commands, done, initial=values))


def answer(values, key):
    """What `get` of this key answers."""
    return f"value {values[key]}" if key in values else "absent"
