"""Random scripts, and what the program and the model print of them."""
import collections

import model
from harness import Case
from lines import Maker, join_lines, make_geometry, make_stop


def make_script(random, lives, length, full_tables=False):
    """A geometry and the bytes of a script. A stop is placed by the calls that the model makes."""
    geometry = make_geometry(random, full_tables)
    maker = Maker(random, geometry, full_tables)
    image = model.formatted_image(geometry)
    text = b""
    for _ in range(lives - 1):
        data = join_lines(maker.lines(random.randint(0, length)))
        lines = list(model.split_lines(data))
        _, whole, _ = model.run_life(image, lines)
        stop = make_stop(random, whole)
        call, fill = model.read_stop(stop, len(stop))
        _, device, _ = model.run_life(image, lines, call)
        image = device.left_by_stop(fill)
        text += data + stop + random.choice([b"\n", b"\n", b"\r\n"])
    text += join_lines(maker.lines(random.randint(1, length)))
    return geometry, text + random.choice([b"", b"", b"flush", b"stop 0 old"])


def count_words(counts, printed):
    for line in printed:
        words = line.split()
        counts[" ".join(words[:2]) if words[0] == "refused" else words[0]] += 1


def count_swaps(counts, text, printed):
    """Counts the accepted swaps of a script of one life, in which each line has one reply."""
    lines = [
        line for line, length in model.split_lines(text) if line or length > model.LONGEST_LINE
    ]
    if len(printed) == len(lines) + 1:
        pairs = zip(lines, printed[1:])
        for line, reply in pairs:
            if line.startswith(b"swap") and reply.startswith("accepted"):
                old, new = line.split(b" ")[2:]
                counts["from none" if old == b"-" else "to none" if new == b"-" else "swapped"] += 1


class ScriptCase(Case):
    def compare(self, count, lives, length, full_tables=False):
        """Runs so many scripts, and returns how often each reply came."""
        counts = collections.Counter()
        for number in range(count):
            geometry, text = make_script(
                self.random, self.random.choice(lives), length, full_tables
            )
            expected = model.run_script(geometry, text)
            ran = self.silt("script", *geometry.numbers, text=text)
            if ran.lines != expected or ran.status or ran.err:
                self.show_difference(number, geometry, text, expected, ran)
            count_words(counts, expected)
            count_swaps(counts, text, expected)
        return counts

    def assert_printed(self, geometry, text):
        """Runs one script, and returns what it prints, which is what the model prints."""
        expected = model.run_script(geometry, text)
        ran = self.silt("script", *geometry.numbers, text=text)
        if ran.lines != expected or ran.status or ran.err:
            self.show_difference(0, geometry, text, expected, ran)
        return expected

    def show_difference(self, number, geometry, text, expected, ran):
        pairs = zip([*expected, None], [*ran.lines, None])
        first = next((i for i, (one, other) in enumerate(pairs) if one != other), len(expected))
        self.fail(
            f"script {number}, silt script {geometry.words}: status {ran.status}, {ran.err!r}\n"
            f"reply {first}: expected {expected[first:first + 3]}, "
            f"got {ran.lines[first:first + 3]}\n"
            f"the script: {text!r}"
        )
