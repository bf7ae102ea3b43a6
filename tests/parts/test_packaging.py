"""What packaging/ makes: the man page and the completion say what the program says, and the package
installs and goes away again."""
import gzip
import re
import shutil
import subprocess
import unittest

from harness import PROGRAM, TOP, Case
from served import free_port

JOBS = ["plan", "format", "run", "tend", "check", "dump", "script", "serve", "stop", "info"]
PACKAGED = [
    "lib/systemd/system/silt@.service",
    "usr/bin/silt",
    "usr/share/bash-completion/completions/silt",
    "usr/share/doc/silt/example.conf",
    "usr/share/man/man1/silt.1.gz",
]


def files_in(folder):
    return sorted(str(it.relative_to(folder)) for it in folder.rglob("*") if it.is_file())


class Packaging(Case):
    def ran(self, *words, text=""):
        """What a program prints that ends well and complains of nothing."""
        ran = subprocess.run(words, input=text, capture_output=True, text=True, cwd=self.folder)
        self.assertEqual((ran.returncode, ran.stderr), (0, ""), ran)
        return ran.stdout

    def made(self, name):
        """The text of a page that is made of the program."""
        if not self.path(name).exists():
            self.ran(TOP / "packaging/pages", PROGRAM, self.folder)
        return self.path(name).read_text()

    def options(self, *job):
        return sorted(set(re.findall(r"^(--[a-z-]+)", self.silt(*job, "--help").err, re.M)))


class Pages(Packaging):
    def test_the_man_page_has_each_job_and_option(self):
        page = self.made("silt.1").replace("\\-", "-")
        for job in JOBS:
            rest = page.partition(f".TP\n.B silt {job} ")[2]
            part = re.split(r"\n\.TP\n\.B silt |\n\.SH ", rest)[0]
            options = sorted(set(re.findall(r"^\.B (--[a-z-]+)", part, re.M)))
            self.assertEqual(options, self.options(job), job)
        self.assertIn('"silt 0.1.0"', page)

    def test_the_man_page_has_each_text(self):
        page = self.made("silt.1").replace("\\-", "-").replace("\\&", "")
        for line in self.silt("--help").err.splitlines():
            form, _, text = line.partition("  ")
            if text:
                self.assertIn(f".B {form}\n{text.strip()}\n", page)

    @unittest.skipUnless(shutil.which("groff"), "groff is not here")
    def test_the_man_page_has_no_faults(self):
        self.made("silt.1")
        self.ran("groff", "-man", "-ww", "-z", "-Tutf8", "silt.1")

    def test_a_program_that_names_no_job(self):
        words = [TOP / "packaging/pages", "/bin/true", self.folder]
        ran = subprocess.run(words, capture_output=True, text=True)
        self.assertEqual((ran.returncode, ran.stdout), (1, ""))
        self.assertRegex(ran.stderr, r"^packaging/pages: \S+ --help names no job\n$")


class Completion(Packaging):
    def completed(self, *words):
        """What may follow in place of the last word."""
        self.made("silt.bash")
        script = '. ./silt.bash; COMP_WORDS=("$@"); COMP_CWORD=$(($# - 1)); _silt; '
        script += 'printf "%s\\n" "${COMPREPLY[@]}"'
        return sorted(self.ran("bash", "-c", script, "bash", "silt", *words).split())

    def test_jobs(self):
        self.assertEqual(self.completed(""), sorted([*JOBS, "--help", "--version"]))
        self.assertEqual(self.completed("s"), ["script", "serve", "stop"])

    def test_options(self):
        for job in JOBS:
            self.assertEqual(self.completed(job, "--"), sorted([*self.options(job), "--help"]), job)
        served = ("serve", "file", "7070")
        self.assertEqual(self.completed(*served, "--p"), ["--password-file", "--pipeline"])

    def test_files(self):
        self.path("some.silt").write_bytes(b"")
        self.assertEqual(self.completed("run", "some"), ["some.silt"])
        self.assertEqual(self.completed("plan", "some"), [])
        served = ("serve", "some.silt", "7070")
        self.assertEqual(self.completed(*served, "--password-file", "some"), ["some.silt"])
        self.assertEqual(self.completed(*served, "--backup", "some"), ["some.silt"])
        self.assertEqual(self.completed(*served, "--idle", "some"), [])


class Unit(Packaging):
    @unittest.skipUnless(shutil.which("systemd-analyze"), "systemd is not here")
    def test_systemd_finds_no_fault(self):
        unit = (TOP / "packaging/silt@.service").read_text()
        unit = unit.replace("/usr/bin/silt", str(PROGRAM.resolve()))
        self.path("silt@one.service").write_text(unit)
        self.ran("systemd-analyze", "verify", "--man=no", self.path("silt@one.service"))

    def test_it_ends_the_server_in_order(self):
        """By the port, or by what the configuration says in its place."""
        unit = (TOP / "packaging/silt@.service").read_text()
        stop = re.search(r"^ExecStop=-/bin/sh -c '(.*)'$", unit, re.M)[1].replace("$$", "$")
        self.assertIn("\nRestart=on-failure\n", unit)
        stop = stop.replace("/usr/bin/silt", str(PROGRAM.resolve()))
        port = free_port()
        said = f"silt: nothing listens at 127.0.0.1:{port}\n"
        for environment in ({"PORT": str(port)}, {"PORT": "1", "STOP": f"127.0.0.1:{port}"}):
            ran = subprocess.run(
                ["sh", "-c", stop], env=environment, capture_output=True, text=True
            )
            self.assertEqual((ran.returncode, ran.stdout, ran.stderr), (1, "network fault\n", said))

    def test_its_options_and_numbers_are_good(self):
        """The program takes what the example says."""
        text = (TOP / "packaging/example.conf").read_text()
        values = dict(re.findall(r"^([A-Z]+)=(.*)$", text, re.M))
        self.assertEqual(values.keys(), {"PORT", "NUMBERS", "OPTIONS"})
        self.assertEqual(self.silt("format", "store", *values["NUMBERS"].split()).status, 0)
        refused = self.silt("serve", "missing", "0", *values["OPTIONS"].split())
        self.assertEqual((refused.status, refused.out), (1, "refused 5 Device\n"), refused)


@unittest.skipUnless(shutil.which("dpkg-deb"), "dpkg-deb is not here")
class Package(Packaging):
    def package(self):
        return self.ran(TOP / "packaging/deb", PROGRAM, self.folder).strip()

    def test_what_is_in_it(self):
        self.ran("dpkg-deb", "-x", self.package(), "there")
        there = self.path("there")
        self.assertEqual(files_in(there), PACKAGED)
        words = [there / "usr/bin/silt", "--version"]
        said = subprocess.run(words, capture_output=True, text=True)
        self.assertEqual(said.stderr, "silt 0.1.0\n")
        page = gzip.decompress((there / "usr/share/man/man1/silt.1.gz").read_bytes()).decode()
        self.assertEqual(page, self.made("silt.1"))
        words = ["dpkg-deb", "-f", self.package(), "Package", "Version", "Architecture", "Depends"]
        self.assertRegex(
            self.ran(*words),
            r"^Package: silt\nVersion: 0\.1\.0\nArchitecture: amd64\nDepends: libc6 \(>= 2\.\d+\)\n$",
        )

    def test_installs_and_goes_away(self):
        there = self.path("there")
        (there / "var/lib/dpkg/info").mkdir(parents=True)
        (there / "var/lib/dpkg/updates").mkdir()
        (there / "var/lib/dpkg/status").write_text("")
        forced = ("not-root", "depends", "script-chrootless")
        dpkg = ["dpkg", f"--root={there}", *(f"--force-{it}" for it in forced)]
        package = self.package()
        subprocess.run([*dpkg, "-i", package], check=True, capture_output=True)
        self.assertLessEqual(set(PACKAGED), set(files_in(there)))
        subprocess.run([*dpkg, "-P", "silt"], check=True, capture_output=True)
        self.assertEqual([it for it in files_in(there) if not it.startswith("var/")], [])
