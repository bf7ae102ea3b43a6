#!/usr/bin/env python3
"""Lists the functions whose contracts say nothing of what they return or leave.

    tools/without_ensures.py [CRATE]...    of these crates; of all but those of tests and silt_bench, if left out

A line is a crate, a file, a function, and `requires` if the function asks for something. A method of a trait's `impl` has the
trait's clauses, and is listed only if the trait is silt's own and its method has no `ensures` either. The last line counts them.
"""
import pathlib
import re
import sys

CRATES = pathlib.Path(__file__).resolve().parent.parent / "crates"
# A comment, a text, or a character: a brace in one of these is none of the code.
NO_CODE = re.compile(r'//[^\n]*|b?"(?:\\.|[^"\\])*"|b?\'(?:\\.|[^\'\\])\'')
CLAUSE = re.compile(r"\b(ensures|requires)(?:\s+\w+)?\s*$")
OWNER = re.compile(r"^(?:pub(?:\(\w+\))? )?(impl|trait)\b([^;]*?)\{$", re.M)
TEST = re.compile(r"#\[test\]\s*(?:pub(?:\(\w+\))? )?$")


def code_of(path):
    """The text of a file, with spaces in place of what is no code."""
    return NO_CODE.sub(lambda found: re.sub(r"[^\n]", " ", found[0]), path.read_text())


def end_of_block(text, at):
    depth = 0
    for place in re.finditer(r"[{}]", text[at:]):
        depth += 1 if place[0] == "{" else -1
        if not depth:
            return at + place.start()
    raise ValueError("a block without an end")


def clauses_from(text, at):
    """The kinds of the clauses behind a function's name, and whether a body follows."""
    begin, kinds, depth = at, set(), 0
    while True:
        if text[at] in "()[]":
            depth += 1 if text[at] in "([" else -1
        elif not depth and text[at] == ";":
            return kinds, False
        elif not depth and text[at] == "{":
            clause = CLAUSE.search(text, begin, at)
            if not clause:
                return kinds, True
            kinds.add(clause[1])
            at = end_of_block(text, at)
        at += 1


def owners_of(text):
    """The `impl` and `trait` blocks: where each begins and ends, its kind, and the trait that it is of, if any."""
    for found in OWNER.finditer(text):
        head = found[2].replace("->", "")
        while (plain := re.sub(r"<[^<>]*>", "", head)) != head:
            head = plain
        name = re.match(r"\s*(?:\w+::)*(\w+)\s+for\b", head) if found[1] == "impl" else re.match(r"\s*(\w+)", head)
        yield found.start(), end_of_block(text, found.end() - 1), found[1], name and name[1]


def functions_of(path):
    """Each function of a file that is no test: its name, its clauses, whether it has a body, and the block that it is in."""
    text = code_of(path)
    owners = list(owners_of(text))
    for found in re.finditer(r"\bfn (\w+)", text):
        if not TEST.search(text, 0, found.start()):
            owner = next(((kind, name) for begin, end, kind, name in owners if begin < found.start() < end), (None, None))
            yield found[1], *clauses_from(text, found.end()), owner


def main(names):
    product = [it.name for it in sorted(CRATES.iterdir()) if not it.name.endswith(("_tests", "silt_fixtures", "silt_bench"))]
    all_of = {crate: [(path.name, *it) for path in sorted((CRATES / crate / "src").rglob("*.rt")) for it in functions_of(path)]
              for crate in {*product, *names}}
    # The methods of silt's own traits, and whether a clause says something of each.
    traits = {(owner[1], name): "ensures" in clauses for crate in product for _, name, clauses, _, owner in all_of[crate] if owner[0] == "trait"}
    count = listed = 0
    for crate in names or product:
        for file, name, clauses, has_body, (kind, trait) in all_of[crate]:
            count += has_body
            of_trait = kind == "impl" and trait
            if has_body and "ensures" not in clauses and not (of_trait and traits.get((trait, name), True)):
                listed += 1
                print(crate, file, name, *clauses)
    print(f"{listed} of {count} functions")


if __name__ == "__main__":
    main(sys.argv[1:])
