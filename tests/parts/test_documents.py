"""The documents and the examples: each command that they show runs, and prints what they show.

The commands are in the fenced blocks that name no language, or a shell's:

- A line that begins with `$ ` is a command. Lines that begin with `> ` continue it. The lines from
  there to the next command are its output, standard error included. A line `..` means any lines.
- A command without output has to end well. It may print anything, but a script of the examples
  prints the text of the file beside it.
- A block without commands is the output of the last such command above it, if that one has none
  and is under the same heading.
- Without such a line, a block of a shell's language is one command without output. So is each line
  of a block whose first line begins with `./silt `.

All commands of a document run in one shell. Its folder is like the top of the repository: `./silt`
is the program, and examples/, tools/ and tests/ are there. If a document uses a store that it
does not make, the test makes one. Ports are replaced by free ones.
"""
import itertools
import os
import re
import shutil
import signal
import subprocess
import sys
import unittest
from dataclasses import dataclass, field

from harness import PROGRAM, TIME_LIMIT, TOP, Case, without_notes
from served import free_port

SHELLS = ("sh", "bash", "shell")
LANGUAGES = ("", "console", "text", *SHELLS)
# Commands that are not run, and why.
LEFT_OUT = {
    r"^rt\b|^\./build\b|\brt (check|test|try|ci)\b": "builds and proves, which takes long",
    r"^(nice .*)?tests/run\b|^\./gate\b": "runs this suite",
    r"\bstrace\b": "needs the system's trace, and the document shortens its lines",
    r"\bbench/run\b|measure_(server|redis|sets|served_set)\b": "measures how fast something is",
    r"_tests_tests\b": "needs the test programs of crates",
    r"--bind 10\.": "needs an address of a network",
    r"^git\b": "works on the repository",
    r"^tests/(power|unit)\b": "runs virtual machines",
    r"^apt-get\b": "installs packages",
}
for tool, package in {"redis-cli": "redis-tools", "curl": "curl"}.items():
    if not shutil.which(tool):
        LEFT_OUT[rf"\b{tool}\b"] = f"needs Debian's package {package}"
# The status of a command whose pipe was closed by the next one.
CLOSED_PIPE = str(128 + signal.SIGPIPE)
# The shell's part in front of a document's commands.
PROLOGUE = r"""
lines_come() { for _ in $(seq 300); do [ "$(wc -l <"$1")" -lt "$2" ] || return 0; sleep 0.1; done; }
"""
# A netcat of our own: there are several, with different words.
NETCAT = """#!{python}
import shutil, socket, sys
connection = socket.create_connection((sys.argv[-2], int(sys.argv[-1])))
connection.sendall(sys.stdin.buffer.read())
connection.shutdown(socket.SHUT_WR)
shutil.copyfileobj(connection.makefile("rb"), sys.stdout.buffer)
"""


@dataclass
class Block:
    """A fenced block, where it is, and the number of the heading above it."""

    place: str
    section: int
    language: str
    lines: list = field(default_factory=list)


@dataclass
class Command:
    """A command, where it is, and the output that the document shows, if any."""

    place: str
    section: int
    text: str
    shown: list = field(default_factory=list)
    may_be_shown_below: bool = True

    @property
    def why_left_out(self):
        return next((why for words, why in LEFT_OUT.items() if re.search(words, self.text)), None)


def blocks_of(document):
    """The fenced blocks of a document."""
    blocks = []
    open_block = None
    section = 0
    for number, line in enumerate(document.read_text().splitlines(), 1):
        if line.startswith("```"):
            if open_block:
                blocks.append(open_block)
                open_block = None
            else:
                open_block = Block(
                    f"{document.relative_to(TOP)}:{number}", section, line.strip("`").strip()
                )
        elif open_block:
            open_block.lines.append(line)
        elif line.startswith("#"):
            section += 1
    return blocks


def commands_in(block):
    """The commands of one block."""
    if not any(line.startswith("$ ") for line in block.lines):
        return [
            Command(block.place, block.section, it, may_be_shown_below=False)
            for it in bare_commands_in(block)
        ]
    commands = []
    for line in block.lines:
        if line.startswith("$ "):
            commands.append(Command(block.place, block.section, line[2:]))
        elif commands and line.startswith("> ") and not commands[-1].shown:
            commands[-1].text += "\n" + line[2:]
        elif commands:
            commands[-1].shown.append(line)
    return commands


def bare_commands_in(block):
    """The commands of a block that has none with a `$`."""
    if block.language in SHELLS:
        return ["\n".join(block.lines)]
    if block.lines and block.lines[0].startswith("./silt "):
        return [line for line in block.lines if line]
    return []


def commands_of(document):
    """The commands of a document, in order."""
    commands = []
    for block in blocks_of(document):
        if block.language not in LANGUAGES:
            continue
        found = commands_in(block)
        if not found and commands and shows_below(commands[-1], block):
            commands[-1].shown = block.lines
        commands += found
    return commands


def shows_below(command, block):
    """Whether a block without commands is the output of this command."""
    return command.may_be_shown_below and not command.shown and command.section == block.section


def pattern_of(lines):
    """A regular expression of the output that these lines show."""
    return "".join(
        r"(?:.*\n)*" if line in ("..", "...") else re.escape(line) + r"\n" for line in lines
    )


def end_group(number):
    """Ends the processes that a shell left running, if any."""
    try:
        os.killpg(number, signal.SIGKILL)
    except ProcessLookupError:
        pass


class Shell(Case):
    """A test in whose folder a reader's commands run as at the top of the repository."""

    def setUp(self):
        super().setUp()
        self.path("silt").symlink_to(PROGRAM)
        self.path("crates/silt/out").mkdir(parents=True)
        self.path("crates/silt/out/silt").symlink_to(PROGRAM)
        for folder in ("examples", "tools", "tests"):
            ignored = shutil.ignore_patterns("out")
            shutil.copytree(TOP / folder, self.path(folder), ignore=ignored)
        self.path("bin").mkdir()
        self.path("bin/nc").write_text(NETCAT.format(python=sys.executable))
        self.path("bin/nc").chmod(0o755)

    def shell(self, script, limit=TIME_LIMIT):
        """Runs a script in the test's folder. Returns its standard output."""
        env = {**os.environ, "PATH": f"{self.path('bin')}:{os.environ['PATH']}", "LC_ALL": "C"}
        self.path("script").write_text(script)
        how = {"stdin": subprocess.DEVNULL, "stdout": subprocess.PIPE, "stderr": subprocess.DEVNULL}
        with subprocess.Popen(
            ["bash", "script"], cwd=self.folder, env=env, start_new_session=True, **how
        ) as running:
            try:
                return running.communicate(timeout=limit)[0].decode(errors="replace")
            except subprocess.TimeoutExpired:
                self.fail(f"not done in {limit} seconds:\n{script}")
            finally:
                end_group(running.pid)


class Documents(Shell):
    """The commands of the documents."""

    def with_free_ports(self, commands):
        """The same commands, with a free port in place of each port of a server and of its page."""
        ports = {
            it
            for command in commands
            for it in re.findall(r"(?:\bserve \S+|--metrics) ([1-9]\d*)", command.text)
        }
        for port in ports:
            free = str(free_port())
            for command in commands:
                command.text = re.sub(rf"\b{port}\b", free, command.text)
                command.shown = [re.sub(rf"\b{port}\b", free, line) for line in command.shown]
        return commands

    def stores_to_make(self, commands):
        """Commands that make the stores which the document uses and does not make."""
        known = set()
        making = []
        for command in commands:
            for name in re.findall(r"\b\w+\.silt\b", command.text):
                if name not in known and f"format {name}" not in command.text:
                    making.append(f"./silt format {name} 2 64 224 2 2 1000 >made")
                known.add(name)
        return making

    def script_of(self, commands):
        """A script that runs these commands, each with its output and statuses in its own files."""
        script = [PROLOGUE, *self.stores_to_make(commands)]
        for number, command in enumerate(commands):
            script.append(
                f"{{ {command.text}\n"
                f"echo ${{PIPESTATUS[*]}} >status.{number}\n"
                f"}} >out.{number} 2>&1"
            )
            if command.text.endswith("&"):
                script.append(f"lines_come out.{number} {len(command.shown)}")
        return "\n".join([*script, "kill $(jobs -p) 2>/dev/null", "true"])

    def due(self, command):
        """A regular expression of a command's output. A server that a later command ends prints its
        calls then."""
        example = re.search(r"< (examples/\w+)\.txt$", command.text)
        if not command.shown and example:
            return re.escape(self.path(example.group(1) + ".out").read_text())
        last = r"(?:calls \d+\n)?" if command.text.endswith("&") else ""
        return pattern_of(command.shown) + last if command.shown else r"(?s:.*)"

    def check_document(self, name):
        """Runs the commands of a document. Returns how many were run."""
        commands = [it for it in commands_of(TOP / name) if not it.why_left_out]
        commands = self.with_free_ports(commands)
        self.shell(self.script_of(commands))
        for number, command in enumerate(commands):
            printed = without_notes(self.path(f"out.{number}").read_text(errors="replace"))
            what = f"{command.place}: {command.text}"
            if not re.fullmatch(self.due(command), printed):
                self.assertEqual(printed.splitlines(), command.shown, what)
                self.fail(f"{what} printed\n{printed}")
            statuses = self.path(f"status.{number}").read_text().split()
            if not command.shown:
                self.assertLessEqual(
                    set(statuses), {"0", CLOSED_PIPE}, f"{what} printed\n{printed}"
                )
        return len(commands)

    def test_readme(self):
        self.assertGreaterEqual(self.check_document("README.md"), 4)

    def test_docs(self):
        for document in sorted((TOP / "docs").glob("*.md")):
            count = self.check_document(document.relative_to(TOP))
            self.assertGreaterEqual(count, 7 if document.name == "program.md" else 0)
            for made in itertools.chain(self.folder.glob("*.silt"), self.folder.glob("out.*")):
                made.unlink()

    def test_readme_of_the_examples(self):
        self.check_document("examples/README.md")


class Examples(Shell):
    """Each example prints the text of the file beside it."""

    def calls(self):
        """The call of each example, by its name."""
        text = (TOP / "examples/README.md").read_text()
        return {
            name: call for call, name in re.findall(r"`([^`\n]*examples/(\w+)\.(?:txt|sh))`", text)
        }

    def test_all_are_listed(self):
        names = {it.stem for it in (TOP / "examples").iterdir() if it.suffix in (".txt", ".sh")}
        self.assertEqual(set(self.calls()), names)
        self.assertEqual({it.stem for it in (TOP / "examples").glob("*.out")}, names)

    def test_each(self):
        for name, call in self.calls().items():
            printed = self.shell(f"set -e\n{call}")
            self.assertEqual(printed, (TOP / f"examples/{name}.out").read_text(), call)

    def test_the_comparison_of_all(self):
        blocks = [
            it
            for it in blocks_of(TOP / "examples/README.md")
            if any(".out" in line for line in it.lines)
        ]
        self.assertEqual(len(blocks), 1)
        printed = self.shell("\n".join(blocks[0].lines))
        self.assertEqual(sorted(printed.splitlines()), sorted(f"{it} ok" for it in self.calls()))


class Library(unittest.TestCase):
    """The program that shows how the library is used is the source of a crate, which is proved."""

    def test_its_program(self):
        shown = next(it for it in blocks_of(TOP / "docs/library.md") if it.language == "rust")
        self.assertEqual(
            "\n".join([*shown.lines, ""]), (TOP / "crates/silt_example/src/main.rt").read_text()
        )


class Parsing(unittest.TestCase):
    """How a document is read."""

    def test_commands_and_their_output(self):
        lines = ["$ one", "a", "..", "$ two \\", "> more", "$ three &", "b"]
        commands = commands_in(Block("here", 0, "", lines))
        self.assertEqual([it.text for it in commands], ["one", "two \\\nmore", "three &"])
        self.assertEqual([it.shown for it in commands], [["a", ".."], [], ["b"]])

    def test_blocks_without_a_dollar(self):
        for language, lines, commands in (
            ("sh", ["if a; then", "  b", "fi"], ["if a; then\n  b\nfi"]),
            ("", ["./silt one", "", "./silt two"], ["./silt one", "./silt two"]),
            ("", ["opened", "./silt two"], []),
        ):
            self.assertEqual(
                [it.text for it in commands_in(Block("here", 0, language, lines))], commands
            )

    def test_lines_that_are_left_out(self):
        shown = pattern_of(["a.", "..", "d"])
        self.assertTrue(re.fullmatch(shown, "a.\nb\nc\nd\n") and re.fullmatch(shown, "a.\nd\n"))
        self.assertFalse(re.fullmatch(shown, "ab\nd\n") or re.fullmatch(shown, "a.\nb\n"))

    def test_documents_show_commands(self):
        self.assertGreaterEqual(len(commands_of(TOP / "docs/program.md")), 7)


if __name__ == "__main__":
    unittest.main()
