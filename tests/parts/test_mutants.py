"""`tools/try_mutants.py`: each mutant is refused for itself, and one that the prover takes fails the gate. A stand-in says what a
check would say."""
import contextlib
import io
import pathlib
import sys
import tempfile
import unittest
from unittest import mock

from tools import try_mutants

SOURCE = """// Two functions, of which one calls the other.
const BASE: u32 = 7;

pub fn low(n: u32) -> u32 {
    n / 2
}

pub fn high(n: u32) -> u32 {
    low(n) + 1
}
"""
LOW = "file: src/sums.rt\nold:     n / 2\nnew:     n / 3\n"
HIGH = "file: src/sums.rt\nold:     low(n) + 1\nnew:     low(n) + 2\n"


class Prover:
    """Refuses the functions of these names once their bodies are changed, and those that call them."""

    def __init__(self, *refused):
        self.refused, self.asked = refused, []

    def check(self, crate, mutants, _kept, whole=False):
        names = [it.name for it in mutants]
        self.asked.append([*names, "whole"] if whole else names)
        if "garbage" in names:
            return "src/sums.rt:3:5: error: no expression\n"
        low = "low" in names and "low" in self.refused
        high = "high" in names and "high" in self.refused
        if whole:
            return "logic=not-proved functions=2\n" if low or high or "elsewhere" in names else "logic=proved functions=2\n"
        said = ["fn sums::sums::low: " + ("not proved" if low else "proved")]
        if high:
            said.append("./proofs/sums/high/Answers.antt:2:1: error: " + ("`low` was not admitted" if low else "the goal is false"))
        calls = "no proof: it calls `sums::sums::low`, which is not proved"
        said.append("fn sums::sums::high: " + (calls if low else "not proved" if high else "proved"))
        return "\n".join([*said, "only=2 proved=0", ""])


class Tries(unittest.TestCase):
    def tried(self, prover, **edits):
        with tempfile.TemporaryDirectory(prefix="silt-mutants-") as folder:
            top = pathlib.Path(folder)
            for part in ("src", "must-fail"):
                (top / "crates/sums" / part).mkdir(parents=True)
            (top / "crates/sums/src/sums.rt").write_text(SOURCE)
            for name, text in edits.items():
                (top / f"crates/sums/must-fail/{name}.edit").write_text(text)
            said = io.StringIO()
            with mock.patch.object(try_mutants, "TOP", top), contextlib.redirect_stdout(said):
                return try_mutants.try_crate(prover, "sums"), said.getvalue()

    def test_each_is_refused_for_itself(self):
        """What calls a refused function is tried again without it."""
        prover = Prover("low", "high")
        counts, said = self.tried(prover, low=LOW, high=HIGH)
        self.assertEqual(counts, (2, 0), said)
        self.assertEqual(prover.asked, [["high", "low"], ["high"]])

    def test_one_that_is_still_proved_fails(self):
        prover = Prover("low")
        counts, said = self.tried(prover, low=LOW, high=HIGH)
        self.assertEqual(counts, (1, 1))
        self.assertIn("mutants: sums/high: the crate is still proved, or is no crate, with this change of sums::high\n", said)
        self.assertEqual(prover.asked, [["high", "low"], ["high"], ["high", "whole"]])

    def test_one_that_another_function_refuses(self):
        counts, said = self.tried(Prover("low"), elsewhere=HIGH)
        self.assertEqual(counts, (1, 0))
        self.assertIn("mutants: sums/elsewhere is refused (by another function)\n", said)

    def test_two_of_one_function_go_apart(self):
        prover = Prover("low")
        self.assertEqual(self.tried(prover, low=LOW, other=LOW.replace("3", "4"))[0], (1, 1))
        self.assertEqual(prover.asked, [["low"], ["other"], ["other", "whole"]])

    def test_one_of_a_constant_goes_alone(self):
        """It changes other functions too. Its file names the one that has to be refused."""
        prover = Prover("low", "high")
        base = "fn: sums::high\nfile: src/sums.rt\nold: const BASE: u32 = 7;\nnew: const BASE: u32 = 8;\n"
        counts, said = self.tried(prover, high=base, low=LOW)
        self.assertEqual(counts, (2, 0), said)
        self.assertEqual(prover.asked, [["high"], ["low"]])

    def test_one_that_is_no_program_fails(self):
        prover = Prover("low")
        counts, said = self.tried(prover, garbage=HIGH, low=LOW)
        self.assertEqual(counts, (1, 1))
        self.assertIn("mutants: sums/garbage: the crate is still proved, or is no crate", said)
        self.assertEqual(prover.asked, [["garbage", "low"], ["garbage"], ["low"], ["garbage", "whole"]])

    def test_a_text_that_is_not_there_fails(self):
        counts, said = self.tried(Prover("low"), low=LOW.replace("n / 2", "n / 5"))
        self.assertEqual(counts, (0, 1), said)

    def test_a_line_of_another_kind_fails(self):
        self.assertEqual(self.tried(Prover("low"), low=LOW + "also: this\n")[0], (0, 1))


class Follows(unittest.TestCase):
    def test_the_crates_that_standard_input_names(self):
        """Each once it is named, and the largest of those that wait. A crate without mutants is passed over, and so is a name of none."""
        with tempfile.TemporaryDirectory(prefix="silt-mutants-") as folder:
            top = pathlib.Path(folder)
            for name in ("sums", "more", "bare"):
                (top / f"crates/{name}/src").mkdir(parents=True)
                (top / f"crates/{name}/src/lib.rt").write_text(SOURCE * (2 if name == "more" else 1))
            for name in ("sums", "more"):
                (top / f"out/must-fail/{name}").mkdir(parents=True)
                (top / f"out/must-fail/{name}/low.edit").write_text(LOW)
            tried = []
            workspace = mock.Mock(uses={"sums": [], "more": [], "bare": []})
            named = io.StringIO("sums\nbare\nnone\nmore\n")
            with (mock.patch.object(try_mutants, "TOP", top), mock.patch.object(sys, "stdin", named),
                  mock.patch.object(try_mutants, "try_crate", lambda _, it: tried.append(it) or (1, 0))):
                self.assertEqual(try_mutants.try_all(workspace, [], True), (2, 0))
            self.assertEqual(sorted(tried), ["more", "sums"])


class Verdicts(unittest.TestCase):
    def check_verdict(self, verdict, *lines):
        self.assertIs(try_mutants.verdict_of("\n".join([*lines, ""]), "sums", "Wide::f"), verdict)

    def test_a_closure_is_part_of_its_function(self):
        blames = "fn sums::a::Wide::f: no proof: it calls `sums::a::fn::Wide::f::each`, which is not proved"
        self.check_verdict(False, blames, "fn sums::a::fn::Wide::f::each: not proved")
        self.check_verdict(None, blames, "fn sums::a::fn::Wide::f::each: no proof: it calls `sums::g`, which is not proved")
        self.check_verdict(True, "fn sums::a::Wide::f: proved", "fn sums::a::fn::Wide::g::each: not proved")

    def test_an_error_of_its_own_settles_it(self):
        blames = "fn sums::a::Wide::f: not proved; it calls `sums::g`, which is not proved"
        self.check_verdict(None, blames, "./proofs/a/Wide/f/Answers.antt:3:1: error: `g` was not admitted")
        self.check_verdict(False, blames, "./proofs/a/Wide/f/Answers.antt:3:1: error: `returns`: the two types differ")
        self.check_verdict(None, blames, "./proofs/a/Wide/other/Answers.antt:3:1: error: `returns`: the two types differ")

    def test_what_calls_none_of_the_others_is_ready(self):
        blames = ["fn sums::m::high: no proof: it calls `sums::m::between`, which is not proved",
                  "fn sums::m::between: no proof: it calls `sums::m::mid`, which is not proved",
                  "fn sums::m::mid: no proof: it calls `sums::m::low`, which is not proved", "fn sums::m::low: not proved", ""]
        high, mid = (try_mutants.Mutant(it, f"m::{it}", ()) for it in ("high", "mid"))
        self.assertEqual(try_mutants.ready_among("\n".join(blames), "sums", [high, mid]), [mid])

    def test_another_function_of_the_name(self):
        self.check_verdict(None, "fn sums::a::Wide::f: proved", "fn sums::b::Wide::f: not proved")


class Plants(unittest.TestCase):
    def planted(self, *changes):
        with tempfile.TemporaryDirectory(prefix="silt-mutants-") as folder:
            path = pathlib.Path(folder) / "src/sums.rt"
            path.parent.mkdir()
            path.write_text(SOURCE)
            mutants = [try_mutants.Mutant("it", "sums::low", (("src/sums.rt", old, new),)) for old, new in changes]
            try_mutants.plant(mutants, pathlib.Path(folder))
            return path.read_text()

    def test_changes_all(self):
        made = self.planted(("n / 2", "n / 3"), ("low(n) + 1", "1"))
        self.assertEqual(made, SOURCE.replace("n / 2", "n / 3").replace("low(n) + 1", "1"))

    def test_makes_no_change_of_a_new_text(self):
        """The new text of one mutant may be the old text of another."""
        made = self.planted(("n / 2", "low(n) + 1"), ("low(n) + 1", "n / 2"))
        self.assertEqual(made, SOURCE.replace("n / 2", "HERE").replace("low(n) + 1", "n / 2").replace("HERE", "low(n) + 1"))

    def test_refuses_a_text_that_occurs_twice(self):
        with self.assertRaises(try_mutants.BadMutant):
            self.planted(("u32", "u64"))

    def test_refuses_texts_that_overlap(self):
        with self.assertRaises(try_mutants.BadMutant):
            self.planted(("n / 2", "n / 3"), ("/ 2", "/ 4"))


class Names(unittest.TestCase):
    def check_name(self, name, text, path="src/a/b.rt"):
        self.assertEqual(try_mutants.function_at(path, text, text.index("HERE")), name)

    def test_a_function(self):
        self.check_name("a::b::f", "const N: u32 = 1;\n\npub fn f()\n    ensures { true }\n{\n    HERE\n}\n")

    def test_in_the_root(self):
        self.check_name("f", "fn f() {\n    HERE\n}\n", path="src/lib.rt")

    def test_a_method(self):
        self.check_name("Wide::f", "impl<'a, T: Into<u8>> Wide<'a, T> {\n    fn f(&self) {\n        HERE\n    }\n}\n")

    def test_a_method_of_a_trait(self):
        text = "impl<\n    D: Disk,\n    F: Fn(u8) -> bool,\n> fmt::Display for line::Wide<D, F>\nwhere\n    D: Drop,\n{\n    fn f(&self) {\n        HERE\n    }\n}\n"
        self.check_name("WideDisplay::f", text)

    def test_a_method_of_a_trait_of_a_type(self):
        self.check_name("WideFromNarrow::f", "impl<F> From<Narrow<F>> for Wide<F> {\n    fn f() {\n        HERE\n    }\n}\n")

    def test_outside_of_functions(self):
        self.check_name(None, "const N: u32 = HERE;\n\nfn f() {}\n")


if __name__ == "__main__":
    unittest.main()
