"""The scripts at the top: `./build` over a toolchain that only notes how it is called, and `./silt`
before and after a build."""
import fcntl
import os
import shutil
import signal
import subprocess
import time

from harness import PROGRAM, TIME_LIMIT, TOP, Case, Ended

# silt stands on these crates: two of them go side by side, and one has no part in it.
CRATES = """\
silt_low:
silt_left: silt_low sha1
silt_right: silt_low
silt_aside: silt_low
silt: silt_left silt_right silt_low clap
"""
# What the script says that runs a program that is not there.
NOT_BUILT = (
    r"silt: not built yet\. \./build proves and builds it; "
    r"README\.md says how long that takes\n"
)
# A toolchain that makes what the proved one makes. It fails in a crate that BROKEN names, and hangs
# in one that SLOW names.
TOOLCHAIN = """\
#!/bin/sh
name=$(basename "$PWD")
echo "$name $*" >> "$NOTES"
for it in ../*/out/rlib/stamp; do
    [ -e "$it" ] && echo "$name over $(basename "${it%/out/rlib/stamp}")" >> "$NOTES"
done
[ "$name" = "$SLOW" ] && exec sleep 60
[ "$name" = "$BROKEN" ] && { echo "an open goal"; exit 1; }
case $1 in
    lib) mkdir -p out/rlib; echo made > out/rlib/stamp ;;
    run) mkdir -p out; cp "${MADE:-/bin/echo}" out/silt ;;
    try) cat; echo "run=ended status=0 proved=no" >&2 ;;
esac
"""


class Scripts(Case):
    """A folder with the scripts, some small crates, and a toolchain on the path."""

    def setUp(self):
        super().setUp()
        self.top = self.path("top")
        self.notes = self.path("notes")
        for line in CRATES.splitlines():
            source = self.top / "crates" / line.partition(":")[0] / "src" / "lib.rt"
            source.parent.mkdir(parents=True)
            source.write_text("// nothing\n")
        (self.top / "crates.txt").write_text(CRATES)
        for name in ("build", "silt", "HANDLES"):
            shutil.copy2(TOP / name, self.top)
        for name in ("tools", "packaging"):
            shutil.copytree(TOP / name, self.top / name)
        self.path("bin").mkdir()
        self.path("bin/rt").write_text(TOOLCHAIN)
        self.path("bin/rt").chmod(0o755)
        path = f"{self.path('bin')}:{os.environ['PATH']}"
        self.env = {
            **os.environ,
            "PATH": path,
            "NOTES": str(self.notes),
            "XDG_CACHE_HOME": str(self.path("cache")),
        }

    def run_in(self, *words, text="", cwd=None, **env):
        ran = subprocess.run(
            words,
            cwd=cwd or self.top,
            env=self.env | env,
            input=text,
            text=True,
            capture_output=True,
            timeout=TIME_LIMIT,
        )
        return Ended(ran.returncode, ran.stdout, ran.stderr)

    def build(self, *words, **env):
        return self.run_in("./build", *words, **env)

    def without_toolchain(self):
        """A path with all that the scripts call but the toolchain."""
        folder = self.path("plain")
        folder.mkdir(exist_ok=True)
        for name in ("sh", "python3", "env", "readlink", "mktemp", "rm", "cat", "grep"):
            if not (folder / name).exists():
                (folder / name).symlink_to(shutil.which(name))
        return str(folder)

    def noted(self):
        return self.notes.read_text().splitlines() if self.notes.exists() else []


class Build(Scripts):
    def test_proves_what_silt_stands_on(self):
        ended = self.build("--jobs", "2")
        self.assertEqual(ended.status, 0, ended)
        begun = [it.split()[0] for it in self.noted() if " over " not in it]
        self.assertEqual(
            (begun[0], sorted(begun[1:3]), begun[3:]),
            ("silt_low", ["silt_left", "silt_right"], ["silt"]),
        )
        for name in ("silt_low", "silt_left", "silt_right"):
            self.assertIn(f"silt over {name}", self.noted())
        self.assertNotIn("silt_left over silt_right", self.noted())

    def test_gives_idle_processors_to_what_can_go_on(self):
        self.build("--jobs", "4")
        jobs = {it.split()[0]: int(it.split()[3]) for it in self.noted() if " over " not in it}
        self.assertEqual((jobs["silt_low"], jobs["silt"]), (4, 4))
        self.assertLessEqual(jobs["silt_left"] + jobs["silt_right"], 4)

    def test_prints_each_crate_and_how_many_are_left(self):
        lines = self.build("--jobs", "1").lines
        self.assertEqual(lines[0], "build: 4 of 4 crates to prove, on 1 processor")
        self.assertRegex(
            lines[1], r"^build: silt_low: proved in \d+:\d\d by 1 job; 3 left; \d+:\d\d so far$"
        )
        self.assertEqual(
            lines[-1], "build: built crates/silt/out/silt, which needs the C library alone"
        )

    def test_proves_nothing_twice(self):
        self.build()
        self.notes.unlink()
        self.assertEqual(self.build().status, 0)
        self.assertEqual(self.noted(), [])

    def test_proves_nothing_again_behind_a_gate(self):
        self.build()
        self.notes.unlink()
        # A gate leaves the libraries and the program, and nothing else.
        for log in self.top.glob("crates/*/out/build.log"):
            log.unlink()
        self.assertEqual(self.build().status, 0)
        self.assertEqual(self.noted(), [])

    def test_proves_what_was_removed(self):
        self.build()
        self.notes.unlink()
        shutil.rmtree(self.top / "crates/silt_right/out")
        self.assertEqual(self.build().status, 0)
        self.assertEqual(
            [it.split()[0] for it in self.noted() if " over " not in it], ["silt_right"]
        )

    def test_proves_a_changed_crate_and_those_above_it(self):
        self.build()
        self.notes.unlink()
        (self.top / "crates/silt_left/src/lib.rt").write_text("// another\n")
        self.assertEqual(self.build().status, 0)
        begun = [it.split()[0] for it in self.noted() if " over " not in it]
        self.assertEqual(begun, ["silt_left", "silt"])

    def test_stops_at_a_crate_that_is_not_proved(self):
        ended = self.build("--jobs", "1", BROKEN="silt_left")
        self.assertEqual((ended.status, ended.err), (1, "build: not built\n"))
        self.assertIn(
            "build: silt_left is NOT proved: see crates/silt_left/out/build.log", ended.lines
        )
        self.assertEqual(
            (self.top / "crates/silt_left/out/build.log").read_text(), "an open goal\n"
        )
        self.assertFalse((self.top / "crates/silt/out/silt").exists())
        self.assertEqual(self.build().status, 0)

    def test_goes_on_where_it_was_interrupted(self):
        # A shell starts its background jobs with this signal ignored, and each child inherits that.
        slow = subprocess.Popen(
            ["./build"],
            cwd=self.top,
            env=self.env | {"SLOW": "silt"},
            stdout=subprocess.PIPE,
            stderr=subprocess.PIPE,
            preexec_fn=lambda: signal.signal(signal.SIGINT, signal.SIG_DFL),
        )
        self.wait_for(lambda: any(it.startswith("silt run") for it in self.noted()))
        slow.send_signal(signal.SIGINT)
        err = slow.communicate(timeout=TIME_LIMIT)[1]
        self.assertEqual(
            (slow.returncode, err), (130, b"build: interrupted; ./build goes on where it was\n")
        )
        self.notes.unlink()
        self.assertEqual(self.build().status, 0)
        self.assertEqual([it.split()[0] for it in self.noted() if " over " not in it], ["silt"])

    def wait_for(self, holds):
        by = time.monotonic() + TIME_LIMIT
        while not holds():
            self.assertLess(time.monotonic(), by, "it never came")
            time.sleep(0.01)

    def test_two_builds_wait_for_each_other(self):
        (self.top / "crates/silt/out").mkdir()
        with open(self.top / "crates/silt/out/build.lock", "w") as lock:
            fcntl.flock(lock, fcntl.LOCK_EX)
            second = subprocess.Popen(
                ["./build"], cwd=self.top, env=self.env, stdout=subprocess.PIPE, text=True
            )
            line = second.stdout.readline()
            self.assertEqual(
                line, "build: another build of this folder is under way: waiting for it to end\n"
            )
            self.assertEqual(self.noted(), [])
        self.assertIn("built crates/silt/out/silt", second.communicate(timeout=TIME_LIMIT)[0])

    def test_refuses_a_machine_without_the_toolchain(self):
        ended = self.build(PATH=self.without_toolchain())
        self.assertEqual(
            (ended.status, ended.err), (1, "build: rt, the Rattle toolchain, is not on the path\n")
        )

    def test_refuses_a_folder_that_cannot_be_written(self):
        (self.top / "crates/silt/out").write_text("no folder")
        ended = self.build()
        self.assertEqual(ended.status, 1)
        self.assertRegex(ended.err, r"^build: .*crates/silt/out cannot be written: ")

    def test_refuses_too_small_a_disk(self):
        script = self.top / "build"
        script.write_text(
            script.read_text().replace("BUILD_BYTES = 6_300_000_000", "BUILD_BYTES = 10**18")
        )
        ended = self.build()
        self.assertEqual(ended.status, 1)
        self.assertRegex(
            ended.err,
            r"^build: a build needs 1000000000\.0 GB more of disk, and .* has [0-9.]+ GB free\n$",
        )
        self.assertEqual(self.noted(), [])

    def test_installs_the_program(self):
        there = self.path("there")
        ended = self.build("--prefix", str(there), MADE=str(PROGRAM.resolve()))
        files = [
            "bin/silt",
            "share/man/man1/silt.1",
            "share/bash-completion/completions/silt",
            "lib/systemd/system/silt@.service",
        ]
        said = [f"build: installed {there / it}" for it in files]
        self.assertEqual(ended.lines[-4:], said, ended)
        found = [str(it.relative_to(there)) for it in there.rglob("*") if it.is_file()]
        self.assertEqual(sorted(found), sorted(files))
        self.assertTrue(os.access(there / "bin/silt", os.X_OK))
        self.assertIn(f"\nExecStart={there}/bin/silt serve ", (there / files[3]).read_text())
        ended = self.build("--prefix", "/dev/null")
        self.assertEqual(
            (ended.status, ended.err),
            (1, "build: /dev/null/bin/silt cannot be written: Not a directory\n"),
        )


class Wrapper(Scripts):
    def built(self):
        place = self.top / "crates/silt/out"
        place.mkdir()
        shutil.copy(PROGRAM, place / "silt")

    def test_runs_a_built_program_from_any_folder(self):
        self.built()
        for place in (self.top, self.folder, "/"):
            ended = self.run_in(
                self.top / "silt", *"script 2 2 4 2 2 8".split(), text="flush\n", cwd=place
            )
            self.assertEqual(ended, Ended(0, "opened\nacknowledged 0\n", ""))

    def test_runs_through_symbolic_links(self):
        self.built()
        self.path("one").symlink_to(self.top / "silt")
        self.path("bin/two").symlink_to("../one")
        ended = self.run_in("two", "script", *"2 2 4 2 2 8".split(), text="flush\n", cwd="/")
        self.assertEqual(ended, Ended(0, "opened\nacknowledged 0\n", ""))

    def test_notes_that_sources_are_newer(self):
        self.built()
        os.utime(self.top / "crates/silt/out/silt", (0, 0))
        ended = self.run_in("./silt", *"script 2 2 4 2 2 8".split())
        self.assertEqual(
            ended,
            Ended(
                0,
                "opened\n",
                "silt: sources are newer than this program: ./build proves and builds it anew\n",
            ),
        )
        self.assertEqual(self.noted(), [])

    def test_answers_a_script_where_nothing_is_built(self):
        ended = self.run_in("./silt", *"script 2 2 4 2 2 8".split(), text="flush\n")
        self.assertEqual((ended.status, ended.out), (0, "flush\n"))
        self.assertRegex(ended.err, rf"^{NOT_BUILT}silt: .* unproved build.*\n$")
        self.assertEqual(self.noted(), ["silt try --seconds 100 -- script 2 2 4 2 2 8"])

    def test_says_what_to_do_for_other_jobs(self):
        for words in (
            (),
            ("run", "store"),
            ("format", "store", *"2 2 4 2 2 8".split()),
            ("serve", "store", "0"),
        ):
            ended = self.run_in("./silt", *words)
            self.assertEqual((ended.status, ended.out), (1, ""))
            self.assertRegex(ended.err, rf"^{NOT_BUILT}$")
        self.assertEqual(self.noted(), [])

    def test_refuses_a_script_without_the_toolchain(self):
        ended = self.run_in("./silt", *"script 2 2 4 2 2 8".split(), PATH=self.without_toolchain())
        self.assertEqual((ended.status, ended.out), (1, ""))
        self.assertTrue(
            ended.err.endswith("silt: rt, the Rattle toolchain, is not on the path\n"), ended.err
        )
