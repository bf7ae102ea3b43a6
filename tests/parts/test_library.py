"""The program of docs/library.md is the one that the gate proves, and it keeps what it stored."""
import subprocess

from harness import PROVED, TIME_LIMIT, TOP, Case

NAME = "silt_example"
PROGRAM = TOP / "crates" / NAME / "out" / NAME


class Library(Case):
    def test_document_has_the_whole_program(self):
        page = (TOP / "docs/library.md").read_text()
        source = (TOP / "crates" / NAME / "src/main.rt").read_text()
        self.assertIn(f"```rust\n{source}```\n", page)

    def test_document_has_the_line_of_the_crate(self):
        page = (TOP / "docs/library.md").read_text()
        line, = [
            row
            for row in (TOP / "crates.txt").read_text().splitlines() if row.startswith(f"{NAME}:")
        ]
        self.assertIn(f"```\n{line}\n```\n", page)

    def test_counts_its_starts(self):
        if not PROVED:
            self.skipTest("only a gate with proofs builds the example")
        for start in (1, 2, 3):
            ran = subprocess.run(
                [PROGRAM], cwd=self.folder, capture_output=True, text=True, timeout=TIME_LIMIT
            )
            self.assertEqual((ran.returncode, ran.stdout, ran.stderr), (0, f"start {start}\n", ""))
