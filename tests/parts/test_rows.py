"""The worked rows: what each prints, letter for letter. A row is a file of lines and one of output.

rows/NAME.txt begins with lines `# CALL V B CAP NL NH S`, where CALL is `script`, `run` (on a file
that `format` made) or `format`. Each is a test of the row. A line `# each WORD A B ..` makes a test
for each of A, B .., in which `$WORD` stands for it. All other lines are the standard input.
rows/NAME.out is the standard output. rows/NAME.report, if it is there, is what `check` prints after
the run, and rows/NAME.status the status, if it is not 0. Files of rows have three short forms:

    01..        forty digits: these ones, and zeros
    moved x 8   this line eight times
    {a*300}     300 letters a; `{\\r*1}` is a carriage return, `{\\x7f*1}` a delete character, and
                `{ *1}` a space at a line's end
"""
import itertools
import re
from dataclasses import dataclass

import model
from harness import TESTS, Case

ROWS = TESTS / "rows"
# Characters that a row's file cannot show.
ESCAPED = {r"\r": "\r", r"\x7f": "\x7f"}


def spell_out(text):
    """The bytes that a row's text stands for."""
    made = []
    for line in text.splitlines():
        line, times = re.fullmatch(r"(.*?)(?: x (\d+))?", line).groups()
        line = re.sub(r"\b([0-9a-f]+)\.\.", lambda it: it[1].ljust(40, "0"), line)
        line = re.sub(
            r"\{(\\\w+|.)\*(\d+)\}", lambda it: ESCAPED.get(it[1], it[1]) * int(it[2]), line
        )
        made += [line + "\n"] * int(times or 1)
    return "".join(made).encode()


@dataclass
class Row:
    """A row with its words chosen: the call, the geometry, the input, and what is expected."""

    name: str
    call: str
    geometry: str
    text: bytes
    out: str
    report: str
    status: int


def read_optional(path):
    return path.read_text() if path.exists() else ""


def read_rows(path):
    """The rows of one file: for each of its calls, with each choice of its words."""
    lines = path.read_text().splitlines()
    heads = [it.split()[1:] for it in lines if it.startswith("# ")]
    text = "\n".join(it for it in lines if not it.startswith("# "))
    out, report = (
        spell_out(read_optional(path.with_suffix(it))).decode() for it in (".out", ".report")
    )
    status = int(read_optional(path.with_suffix(".status")) or 0)
    choices = [[(it[1], value) for value in it[2:]] for it in heads if it[0] == "each"]
    for chosen in itertools.product(*choices):
        one = text
        for word, value in chosen:
            one = one.replace(f"${word}", value)
        for call, *numbers in (it for it in heads if it[0] != "each"):
            name = "_".join([path.stem, "by", call, *(value for _, value in chosen)])
            yield Row(name, call, " ".join(numbers), spell_out(one), out, report, status)


def geometry_of(row):
    return model.Geometry(*map(int, row.geometry.split()))


class RowCase(Case):
    """A row, run by the program."""

    def check_ended(self, row, ended):
        self.assertEqual(ended.out, row.out)
        self.assertEqual(ended.status, row.status)

    def do_script(self, row):
        self.check_ended(row, self.silt("script", *row.geometry.split(), text=row.text))

    def do_format(self, row):
        self.check_ended(row, self.silt("format", "made", *row.geometry.split()))
        if row.status:
            self.assertFalse(self.path("made").exists())
        else:
            self.assertEqual(self.path("made").stat().st_size, int(row.out.split()[1]))

    def do_run(self, row):
        self.store(row.geometry)
        self.check_ended(row, self.silt("run", "store", text=row.text))
        if row.report:
            self.assertEqual(self.check_report().out, self.due_report(row))

    def due_report(self, row):
        """A run that writes no manifest leaves a device of version 1 without digests."""
        has_none = self.version == 1 and row.report.startswith("generation 0\n")
        return row.report.replace("layout 2", "layout 1") if has_none else row.report


class Rows(RowCase):
    """Each row."""


class RowsOfVersion1(RowCase):
    """Each row of a run, on a device of version 1."""

    version = 1


class RowsOfTheModel(Case):
    """Each row, run by the model, so that no wrong model agrees with a wrong program."""

    def do_script(self, row):
        self.assertEqual(model.run_script(geometry_of(row), row.text), row.out.splitlines())

    def do_format(self, row):
        geometry = geometry_of(row)
        if not geometry.in_limits():
            self.assertEqual(row.out, "refused 2 BadGeometry\n")
            return
        self.assertEqual(row.out, f"formatted {geometry.size}\n")

    def do_run(self, row):
        image = model.formatted_image(geometry_of(row))
        said, device, _ = model.run_life(image, list(model.split_lines(row.text)))
        self.assertEqual(said, row.out.splitlines())
        if row.report:
            self.assertEqual(model.check(device.shown), (row.report.splitlines(), 0))


def add_test(row):
    for kind in (Rows, RowsOfTheModel, *[RowsOfVersion1] * (row.call == "run")):
        setattr(
            kind, f"test_{row.name}", lambda self, row=row: getattr(self, f"do_{row.call}")(row)
        )


for file in sorted(ROWS.glob("*.txt")):
    for one_row in read_rows(file):
        add_test(one_row)
