"""Files that are compared with the model, and rich stores of both versions in which damage is
planted."""
import itertools

import model
from harness import Case
from lines import Maker, join_lines

# The versions of rich stores: new devices, old ones, and old ones to which manifests were written
# since.
VERSIONS = ("new", "old", "changed")


class FileCase(Case):
    """A test that compares a file with the model's device."""

    def image(self, name="store"):
        return self.path(name).read_bytes()

    def compare_bytes(self, device, note):
        """Each settled byte has to be in the file. At a pending place either byte may be."""
        image = self.image()
        self.assertEqual(len(image), len(device.shown), note)
        if image == device.settled:
            return
        pending = device.pending_places()
        for place, byte in enumerate(image):
            allowed = {device.settled[place]} | (
                {device.shown[place]} if place in pending else set()
            )
            if byte not in allowed:
                self.fail(f"{note}: byte {place} of the file is {byte:#04x}, and not of {allowed}")

    def compare_run(self, data, note):
        """Runs lines on the file, and compares replies and bytes with the model's."""
        said, device, _ = model.run_life(self.image(), list(model.split_lines(data)))
        ran = self.silt("run", "store", text=data)
        self.assertEqual(ran.lines, said, note)
        self.assertEqual(ran.status, 0 if said[0] == "opened" else 1, note)
        self.compare_bytes(device, note)

    def compare_check(self, note):
        """Checks the file. The report is the model's, and no byte is changed."""
        before = self.image()
        said, status = model.check(before)
        ran = self.check_report()
        self.assertEqual((ran.lines, ran.status), (said, status), note)
        self.assertEqual(self.image(), before, f"{note}: a check changed the file")


def make_rich_geometry(random):
    """A geometry with room for all kinds of stores at once."""
    b = random.choice([2, 2, 4, 8])
    cap = random.choice([random.randint(2, 8), random.randint(5, 8), min(4 * b, 10)])
    nl = random.randint(2, 4)
    nh = random.randint(1, 3)
    return model.Geometry(
        random.randint(1, 4), b, cap, nl, nh, 6 * cap + nl * cap + random.randint(0, 9)
    )


def rich_lines(random, geometry):
    """Lines after which the store has entries, hash stores, frozen logs, and rows in its log. They
    come in two parts: what follows the last conversion is a part of its own."""
    maker = Maker(random, geometry, full_tables=True)
    maker.keys = [b"=%d" % i for i in range(5 * geometry.cap)]
    convert = [b"convert"] * (geometry.slots + 1)

    def commands(count):
        return [
            (maker.make_put() if random.random() < 0.8 else maker.make_delete())[0]
            for _ in range(count)
        ]

    lines = commands(geometry.cap + 1) + convert
    lines += [b"merge"] * (geometry.slots + geometry.cap + 1)
    for _ in range(min(geometry.nh, 2)):
        lines += commands(geometry.cap) + convert
    return [*lines, b"flush"], [*commands((geometry.nl - 1) * geometry.cap), b"flush"]


def changed(image, *changes):
    """An image with these bytes in place: (offset, hexadecimal digits)."""
    made = bytearray(image)
    for at, digits in changes:
        data = bytes.fromhex(digits)
        made[at : at + len(data)] = data
    return made


class DamageCase(FileCase):
    def setUp(self):
        super().setUp()
        self.versions = itertools.cycle(VERSIONS)

    def make_rich_store(self):
        """Makes a store, and returns its bytes and what the model finds there. The versions take
        turns."""
        geometry = make_rich_geometry(self.random)
        version = next(self.versions)
        self.path("store").unlink(missing_ok=True)
        self.store(geometry.words)
        first, second = rich_lines(self.random, geometry)
        self.compare_run(join_lines(first), geometry.words)
        if version == "changed":
            self.make_old()
        self.compare_run(join_lines(second), geometry.words)
        if version == "old":
            self.make_old()
        return self.image(), model.examine(self.image())

    def assert_refused(self, image, expected, note):
        """Check and run give this refusal of an image, and leave the file as it was."""
        self.path("store").write_bytes(image)
        self.assertEqual(model.check(image), ([expected], 1), f"the model, {note}")
        for call, text in (("check", ""), ("run", "get =a\nput =a 00\nflush\n")):
            ran = self.silt(call, "store", text=text)
            self.assertEqual((ran.out, ran.status), (expected + "\n", 1), f"{call}, {note}")
            self.assertEqual(
                self.image(), bytes(image), f"{note}: a refused {call} changed the file"
            )
