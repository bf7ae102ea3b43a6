"""Tries the mutants: the prover has to refuse each wrong body that a crate's `must-fail/` describes.

usage: python3 tools/try_mutants.py [CRATE..]
       python3 tools/try_mutants.py --follow    of the crates that standard input names, a line each, as they are proved; it runs
                                                one check at a time until standard input ends

All mutants of a crate are planted in one copy of it, and one check is asked for the functions that they change: what a function
is proved to do depends on the contracts of those that it calls, not on their bodies. A mutant is refused if the check says that its
function is not proved and blames no other function for that. The mutants that are left are planted once more without those. One that
these checks do not settle is planted alone, and the whole crate is checked: if that is proved, or is no crate, the mutant fails.

The libraries below a crate must be built, as `rt ci` leaves them in `crates/CRATE/out/rlib`. It also has to have proved the crate itself.
The last line is `N passed, M failed`. The status is 0 where none failed.
"""
import concurrent.futures
import dataclasses
import pathlib
import re
import shutil
import signal
import subprocess
import sys
import tempfile
import threading
import time

if __name__ == "__main__":
    sys.path.insert(0, str(pathlib.Path(__file__).resolve().parent.parent))

from tools.machine import jobs

TOP = pathlib.Path(__file__).resolve().parent.parent
# The line that ends a check of a whole crate that is refused.
REFUSED = re.compile(r"^logic=not-proved", re.M)
# The line that ends a check of some functions.
ENDED = re.compile(r"^only=\d+ (proved|holes)=\d+$", re.M)
# What an error says where a proof cites something that is not there, maybe since another proof failed.
LACKS = re.compile(r"was not admitted|is not in scope|has no field|has no `")
# How a line begins that stands outside of functions, or goes on with a constant table.
OUTSIDE = re.compile(r"(pub )?(const|static) |    \"")
# How long one check may take, in seconds.
CHECK_SECONDS = 3600


# The head of a function, of a trait, and of an implementation, whose generics, trait and type stand in it.
FUNCTION = re.compile(r" *(?:pub(?:\([^)]*\))? )?(?:const |unsafe )*fn (\w+)")
TRAIT = re.compile(r"(?:pub(?:\([^)]*\))? )?trait (\w+)")


class BadMutant(Exception):
    """Why a mutant cannot be planted, or cannot be tried."""


def indent_of(line):
    return len(line) - len(line.lstrip())


def without_generics(head):
    """A head with all that stands in angle brackets left out."""
    found, depth = "", 0
    for before, sign in zip(" " + head, head):
        depth -= sign == ">" and before != "-" and depth > 0
        found += sign if not depth and sign not in "<>" else ""
        depth += sign == "<"
    return found


def last_name(path):
    return path.split("::")[-1].strip("& ")


def owner_of(lines):
    """The name that rattle gives to the trait or the implementation that begins last in these lines: `Type` of `impl Type`, and
    `TypeTraitOther` of `impl Trait<Other> for Type`."""
    first = max(row for row, line in enumerate(lines) if line.startswith("impl") or TRAIT.match(line))
    if trait := TRAIT.match(lines[first]):
        return trait[1]
    head = " ".join(map(str.strip, lines[first:])).partition("{")[0].partition(" where ")[0]
    trait, joins, kind = without_generics(head).removeprefix("impl").partition(" for ")
    if not joins:
        return last_name(trait)
    of = re.search(rf"\b{last_name(trait)}<(\w+)", head)
    return last_name(kind) + last_name(trait) + (of[1] if of else "")


def function_at(path, text, place):
    """The end of the name of the function around this place in a file, or None: `module::function` or `Owner::function`. rt fmt has
    indented the file."""
    lines = text.split("\n")
    row = text.count("\n", 0, place)
    heads = (it for it in range(row, -1, -1) if FUNCTION.match(lines[it]) and (it == row or indent_of(lines[it]) < indent_of(lines[row])))
    head = next(heads, None)
    if head is None:
        return None
    modules = [it for it in path.removeprefix("src/").removesuffix(".rt").split("/") if it not in ("lib", "main")]
    around = [owner_of(lines[:head])] if indent_of(lines[head]) else modules
    return "::".join([*around, FUNCTION.match(lines[head])[1]])


@dataclasses.dataclass(frozen=True)
class Mutant:
    """A wrong body: its name, the function that must be refused, and its changes, each a file, an old text and a new one."""

    name: str
    function: str
    changes: tuple

    def is_alone(self):
        """Whether it changes more than a body, so that other functions may be refused for it."""
        return any(OUTSIDE.match(old) for _, old, _ in self.changes)

    def goes_with(self, others):
        """Whether it can be planted beside these."""
        return not others or not self.is_alone() and not any(it.is_alone() or it.function == self.function for it in others)


def mutants_of(crate):
    """The folder of a crate's mutants. The gate puts them aside while it proves the crates."""
    aside = TOP / "out/must-fail" / crate
    return aside if aside.is_dir() else TOP / f"crates/{crate}/must-fail"


def read_mutant(path, crate):
    """The mutant of a crate that a file describes: `file: src/FILE`, pairs of `old: TEXT` and `new: TEXT`, and `fn: FUNCTION` if they stand
    in none."""
    found, changes = {}, []
    for line in path.read_text(encoding="utf-8").splitlines():
        word, _, text = line.partition(":")
        if word not in ("fn", "file", "old", "new"):
            raise BadMutant(f"{path.name}: a line is none of fn, file, old and new: {line[:60]}")
        found[word] = text.removeprefix(" ")
        if word == "new":
            changes.append((found["file"], found["old"], found["new"]))
    functions = {found.get("fn") or function_of(TOP / f"crates/{crate}", *it) for it in changes}
    if len(functions) != 1 or None in functions:
        raise BadMutant(f"{path.name}: it changes not one function but these: {functions}")
    return Mutant(path.stem, *functions, tuple(changes))


def function_of(crate, file, old, new):
    """The function around a text of a crate's file, or None."""
    text = (crate / file).read_text(encoding="utf-8")
    return function_at(file, text, text.index(old)) if old in text else None


def plant(mutants, folder):
    """Makes the changes of these mutants in the copy of a crate. Each old text has to occur once in the crate as it is, and no two may
    overlap."""
    places = {}
    for mutant in mutants:
        for file, old, new in mutant.changes:
            text = (folder / file).read_text(encoding="utf-8")
            if text.count(old) != 1:
                raise BadMutant(f"{mutant.name}: its old text occurs {text.count(old)} times in {file}")
            places.setdefault(file, []).append((text.index(old), mutant.name, old, new))
    for file, found in places.items():
        (folder / file).write_text(with_changes((folder / file).read_text(encoding="utf-8"), found), encoding="utf-8")


def with_changes(text, found):
    """A text with the old text at each of these places changed to the new one."""
    parts, end = [], 0
    for place, name, old, new in sorted(found):
        if place < end:
            raise BadMutant(f"{name}: its old text overlaps that of another mutant")
        parts += [text[end:place], new]
        end = place + len(old)
    return "".join([*parts, text[end:]])


class Workspace:
    """The crates of crates.txt, and the toolchain."""

    def __init__(self):
        lines = [it.partition("#")[0].partition(":") for it in (TOP / "crates.txt").read_text().splitlines()]
        self.uses = {name.split()[0]: rest.split() for name, colon, rest in lines if colon}
        page = subprocess.run(["rt", "doc"], stdout=subprocess.PIPE, text=True, check=True).stdout
        self.kit = pathlib.Path(page.split()[0]).parent

    def below(self, name):
        """The crates of the workspace that this one uses, and those that they use."""
        found = {}
        for used in self.uses[name]:
            if used in self.uses:
                found |= {used: None, **self.below(used)}
        return found

    def words(self, name):
        """The words that check a crate in the current folder over the libraries below it as they are built."""
        root = "main" if (TOP / f"crates/{name}/src/main.rt").exists() else "lib"
        words = [self.kit / "bin/rattle", "check", "--crate-name", name, f"src/{root}.rt", "-L", f"dependency={self.kit}/rlibs"]
        for used in ["std", *self.uses[name]]:
            folder = TOP / f"crates/{used}/out/rlib" if used in self.uses else self.kit / "rlibs"
            words += ["--extern", f"{used}={folder}/{used}.rlib"]
        for used in self.below(name):
            words += ["-L", f"dependency={TOP}/crates/{used}/out/rlib"]
        words += ["--antt-project", self.kit / "rattle/logic/antt-project.json"]
        return [*words, "--logic-built", self.kit / "logic_built"]

    def check(self, name, mutants, kept, whole=False):
        """What a check says of the functions of these mutants, or of the whole crate, when all are planted."""
        with tempfile.TemporaryDirectory(prefix="silt-mutants-") as folder:
            for part in ("src", "specs", "proofs"):
                if (TOP / f"crates/{name}/{part}").is_dir():
                    shutil.copytree(TOP / f"crates/{name}/{part}", f"{folder}/{part}")
            plant(mutants, pathlib.Path(folder))
            functions = dict.fromkeys(it.function for it in mutants)
            words = [*self.words(name), "--incremental", kept, *(f"--only={it}" for it in functions if not whole)]
            for _ in range(2):
                ran = subprocess.run(words, cwd=folder, stdin=subprocess.DEVNULL, stdout=subprocess.PIPE,
                                     stderr=subprocess.STDOUT, text=True, errors="replace", timeout=CHECK_SECONDS)
                if ran.returncode != -signal.SIGKILL:
                    break
            return ran.stdout


def is_for_itself(said, name, verdict):
    """Whether a function is refused for itself, and not only for want of a proof of one that it calls."""
    own = re.findall(rf"^\./proofs/{re.escape(name).replace('::', '/')}/\w+\.antt:\d+:\d+: error: (.*)$", said, re.M)
    return "it calls `" not in verdict or any(not LACKS.search(it) for it in own)


def verdict_of(said, crate, function):
    """What a check says of a function and its closures: whether they are proved, or None where they may lack only the proofs of functions
    that they call."""
    lines = re.findall(rf"^fn {crate}::((?:\w+::)*{re.escape(function)}): (.*)$", said, re.M)
    if len(lines) != 1:
        return None
    owner = re.search(r"([A-Z][\w+]*::)?\w+$", function)[0]
    lines += re.findall(rf"^fn {crate}::((?:\w+::)*fn::{re.escape(owner)}::\S+): (.*)$", said, re.M)
    refused = [it for it in lines if not it[1].startswith("proved")]
    if not refused:
        return True
    return False if any(is_for_itself(said, *it) for it in refused) else None


def try_together(workspace, crate, mutants, kept):
    """Tries these mutants in one check. Returns the refused ones, those whose function is proved, and in rounds those that it does not
    settle."""
    said = workspace.check(crate, mutants, kept)
    if not ENDED.search(said):
        half = len(mutants) // 2
        return [], [], [it for it in (mutants[:half], mutants[half:]) if it]
    found = {False: [], True: [], None: []}
    for mutant in mutants:
        found[verdict_of(said, crate, mutant.function)].append(mutant)
    ready = ready_among(said, crate, found[None])
    return found[False], found[True], [it for it in (ready, [it for it in found[None] if it not in ready]) if it]


def blamed_by(said, crate):
    """The functions that each function lacks the proofs of, as a check says."""
    lines = re.findall(rf"^fn {crate}::(\S+): (.*)$", said, re.M)
    return {name: re.findall(rf"`{crate}::([^`]+)`", verdict) for name, verdict in lines}


def ready_among(said, crate, mutants):
    """Those of these mutants whose functions lack the proof of none that another one changes. They come first."""
    blames, own = blamed_by(said, crate), {}
    for mutant in mutants:
        own[mutant] = next((it for it in blames if re.fullmatch(rf"(\w+::)*{re.escape(mutant.function)}", it)), None)

    def reached(name, seen):
        for it in blames.get(name, ()):
            if it not in seen:
                seen.add(it)
                reached(it, seen)
        return seen

    changed = {mutant: {name for other, name in own.items() if other is not mutant} for mutant in mutants}
    return [it for it in mutants if not reached(own[it], set()) & changed[it]] or mutants


def is_refused_alone(workspace, crate, mutant, kept):
    """Whether the crate with this mutant is refused, by whichever function."""
    return bool(REFUSED.search(workspace.check(crate, [mutant], kept, whole=True)))


def rounds_of(mutants):
    """These mutants in rounds, in each of which no two change one function, and none a constant beside others."""
    rounds = []
    for mutant in mutants:
        into = next((it for it in rounds if mutant.goes_with(it)), None)
        if into is None:
            rounds.append(into := [])
        into.append(mutant)
    return rounds


def try_crate(workspace, crate):
    """Tries all mutants of a crate, and returns how many were refused, and what failed."""
    begun, failures, refused, alone = time.monotonic(), [], [], []
    with tempfile.TemporaryDirectory(prefix="silt-kept-") as kept:
        try:
            mutants = [read_mutant(it, crate) for it in sorted(mutants_of(crate).glob("*.edit"))]
            rounds = rounds_of(mutants)
            while rounds:
                tried, *rounds = rounds
                no, yes, left = try_together(workspace, crate, tried, kept)
                refused += no
                alone += yes
                if left == [tried]:
                    alone += tried
                else:
                    rounds = [*left, *rounds]
            for mutant in alone:
                if is_refused_alone(workspace, crate, mutant, kept):
                    refused.append(mutant)
                else:
                    failures.append(f"{mutant.name}: the crate is still proved, or is no crate, with this change of {mutant.function}")
        except (BadMutant, subprocess.TimeoutExpired) as error:
            failures.append(str(error))
    for mutant in refused:
        print(f"mutants: {crate}/{mutant.name} is refused{' (by another function)' * (mutant in alone)}")
    for failure in failures:
        print(f"mutants: {crate}/{failure}")
    print(f"mutants: {crate}: {len(refused)} refused, {len(failures)} failed, {time.monotonic() - begun:.0f} s", flush=True)
    return len(refused), len(failures)


def size_of(crate):
    """How much there is to check, so that the largest crates come first."""
    return sum(path.stat().st_size for path in (TOP / f"crates/{crate}").rglob("*.rt"))


class Queue:
    """Crates whose mutants are to be tried."""

    def __init__(self):
        self.crates, self.is_whole, self.changed = [], False, threading.Condition()

    def add(self, crate):
        with self.changed:
            self.crates.append(crate)
            self.changed.notify()

    def end(self):
        with self.changed:
            self.is_whole = True
            self.changed.notify_all()

    def take(self):
        """The largest crate, or None if there are no more."""
        with self.changed:
            self.changed.wait_for(lambda: self.crates or self.is_whole)
            crate = max(self.crates, key=size_of, default=None)
            if crate:
                self.crates.remove(crate)
            return crate


def try_queue(workspace, queue):
    """Tries the mutants of each crate of a queue, and returns how many were refused, and how many failed."""
    counts = [(0, 0)]
    while crate := queue.take():
        counts.append(try_crate(workspace, crate))
    return tuple(sum(it) for it in zip(*counts))


def try_all(workspace, names, follows):
    """Tries the mutants of these crates, or of those that standard input names, by one worker until that ends."""
    queue = Queue()
    with concurrent.futures.ThreadPoolExecutor(jobs()) as pool:
        workers = [pool.submit(try_queue, workspace, queue)] if follows else []
        for name in map(str.strip, sys.stdin) if follows else names:
            if name in workspace.uses and any(mutants_of(name).glob("*.edit")):
                queue.add(name)
        queue.end()
        workers += [pool.submit(try_queue, workspace, queue) for _ in range(jobs() - len(workers))]
        return tuple(sum(it) for it in zip(*(it.result() for it in workers)))


def main(words):
    workspace, follows = Workspace(), words == ["--follow"]
    passed, failed = try_all(workspace, words or list(workspace.uses), follows)
    print(f"{passed} passed, {failed} failed")
    return 1 if failed or not passed else 0


if __name__ == "__main__":
    sys.exit(main(sys.argv[1:]))
