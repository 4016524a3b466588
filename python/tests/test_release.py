"""The archive that tools/release makes of a copy of this repository; the manual page and completions, beside what the program
says."""
import functools
import hashlib
import os
import pathlib
import re
import shutil
import subprocess
import sys
import tarfile
import tempfile
import unittest
import venv

from support import IS_REPOSITORY, NO_REPOSITORY, TOP, Case, find_program, optional

import misteluk

TAG = f"v{misteluk.__version__}"


def run(*words, **how):
    how = {"stdout": subprocess.PIPE, "stderr": subprocess.STDOUT, "text": True, "timeout": 60, **how}
    return subprocess.run([str(it) for it in words], **how)


@unittest.skipUnless(IS_REPOSITORY, NO_REPOSITORY)
class Pages(Case):
    def help_pages(self, *words):
        return run(sys.executable, TOP / "tools/help-pages", "--program", find_program(), *words)

    def test_they_are_what_the_program_says(self):
        self.assertEqual(self.help_pages("--check").stdout, "")

    def test_a_page_that_differs_is_told(self):
        self.help_pages("--to", self.room)
        page = self.room / "man/man1/stinger.1"
        self.assertEqual(page.read_bytes(), (TOP / "share/man/man1/stinger.1").read_bytes())
        page.write_text(page.read_text().replace("4,096", "4,097"))
        done = self.help_pages("--check", "--to", self.room)
        self.assertEqual((done.returncode, done.stdout),
                         (1, "share/man/man1/stinger.1 isn't what the program says of itself: tools/help-pages writes it\n"))

    def test_the_manual_has_each_line_of_the_help(self):
        """As roff prints it, where man is there; what is filled anew is compared without regard to ends of lines."""
        if not shutil.which("man"):
            self.skipTest("man is not there")
        env = {**os.environ, "MANWIDTH": "200", "LC_ALL": "C"}
        told = run("man", "--warnings", "-E", "ascii", "-l", TOP / "share/man/man1/stinger.1", env=env).stdout
        plain = re.sub(r"\s+", " ", re.sub(r"-\n\s+", "-", re.sub(".\b", "", told)))
        said = run(find_program(), "--help").stdout.split("A script is comma-separated", 1)[1]
        missing = [it for it in said.split("\n") if re.sub(r"\s+", " ", it.strip()) not in plain]
        self.assertEqual(missing, [])
        self.assertNotIn("warning", told)

    def complete(self, wanted: str, *words: str) -> None:
        """What bash offers behind these words."""
        script = (f"source {TOP}/share/bash-completion/completions/stinger; COMP_WORDS=(stinger \"$@\"); COMP_CWORD=$#; "
                  "_stinger; echo \"${COMPREPLY[*]}\"")
        self.assertEqual(run("bash", "-c", script, "bash", *words).stdout.strip(), wanted)

    def test_completion_for_bash(self):
        self.complete("run", "ru")
        self.complete("--help --version", "--")
        self.complete("--blocks", "run", "--b")
        self.complete("16 16384 65536", "run", "--blocks", "")
        self.complete("1 2 3 4 5 6 7 8", "run", "--seats", "4", "--workers", "")
        self.complete("run", "help", "r")

    def test_completion_for_zsh(self):
        if not shutil.which("zsh"):
            self.skipTest("zsh is not there")
        self.assertEqual(run("zsh", "-n", TOP / "share/zsh/site-functions/_stinger").stdout, "")


@functools.lru_cache(maxsize=None)
def find_library():
    """The library that MISTELUK_LIBRARY names, else the proved one, else the compiled one; the static one stands beside it."""
    made = (run(TOP / it, *words, stderr=subprocess.DEVNULL, timeout=600) for it, *words in
            (("prove", "--where", "library"), ("stinger", "library")))
    return os.environ.get("MISTELUK_LIBRARY") or next(it.stdout.strip() for it in made if it.returncode == 0)


@unittest.skipUnless(IS_REPOSITORY, NO_REPOSITORY)
class Releases(Case):
    """Over one copy of this repository without its crates, with a change log of which the notes are known; it is made as it was
    before each test."""

    LOG = (f"# Changelog\n\n## {misteluk.__version__}\n\nThe first: [what breaks](#what-breaks).\n\n### What breaks\n\n"
           "- See [your limits](docs/PYTHON.md#limits).\n\n## 0.0.1\n\nAn older one.\n")

    @classmethod
    def setUpClass(cls):
        cls.unproved = ("--unproved", find_program(), "--library", find_library())
        room = tempfile.TemporaryDirectory()
        cls.addClassCleanup(room.cleanup)
        cls.top = pathlib.Path(room.name) / "top"
        for it in run("git", "ls-files", "-co", "--exclude-standard", cwd=TOP).stdout.splitlines():
            if (TOP / it).is_file() and not it.startswith("crates/"):
                (cls.top / it).parent.mkdir(parents=True, exist_ok=True)
                shutil.copy(TOP / it, cls.top / it)
        (cls.top / "CHANGELOG.md").write_text(cls.LOG)
        run("git", "init", "-q", cwd=cls.top)

    def setUp(self):
        super().setUp()
        if not (self.top / ".git/refs/tags/begin").exists():
            self.git("add", "-A")
            self.git("commit", "-qm", "a copy")
            self.git("tag", "begin")
        self.git("reset", "-q", "--hard", "begin")
        self.git("clean", "-qfdx")

    def git(self, *words):
        done = run("git", "-c", "user.name=n", "-c", "user.email=e", *words, cwd=self.top)
        self.assertEqual(done.returncode, 0, done.stdout)
        return done.stdout.strip()

    def release(self, *words):
        return run(sys.executable, self.top / "tools/release", "--to", self.room / "made", *words)

    def made(self, ending=""):
        """What a release for trying it out makes of the copy as it begins, once for all tests: the file that ends so, or all."""
        there = self.top.parent / "made"
        if not there.exists():
            done = run(sys.executable, self.top / "tools/release", "--to", there, *self.unproved)
            self.assertEqual(done.returncode, 0, done.stdout)
        return [it for it in there.iterdir() if it.name.endswith(ending)]

    def test_an_archive_for_trying_it_out(self):
        (archive,), (wheel,), (notes,) = map(self.made, (".gz", ".whl", ".md"))
        self.assertIn("-UNPROVED-linux-x86_64.tar.gz", archive.name)
        self.assertEqual(self.git("tag", "-l", "v*"), "")
        first = {it: hashlib.sha256(it.read_bytes()).hexdigest() for it in (archive, wheel)}
        for it in first:
            self.assertEqual(run("sha256sum", "-c", f"{it.name}.sha256", cwd=it.parent).returncode, 0)
        self.notes_say_what_was_made(notes.read_text(), first)
        self.leads_nowhere_else(notes.read_text())
        again = self.release(*self.unproved)
        self.assertEqual([hashlib.sha256(pathlib.Path(it).read_bytes()).hexdigest() for it in again.stdout.splitlines()[:2]],
                         [*first.values()], again.stdout)
        with tarfile.open(archive) as tar:
            tar.extractall(self.room / "there")
        (there,) = (self.room / "there").iterdir()
        self.assertEqual(run("sha256sum", "--quiet", "-c", "SHA256SUMS", cwd=there).stdout, "")
        page = (there / "PROVED.md").read_text()
        self.assertIn("**UNPROVED.**", page)
        self.assertIn("| toolchain | none: not proved |", page)
        self.assertRegex(page, r"glibc 2\.\d+ or later")
        self.assertIn(self.git("rev-parse", "HEAD"), page)
        self.assertIn(hashlib.sha256((there / "bin/stinger").read_bytes()).hexdigest(), page)
        with open(there / "examples/funnel.csv") as script:
            told = run(there / "bin/stinger", "run", stdin=script).stdout
        self.assertEqual(told, (there / "examples/funnel.expected").read_text())
        self.from_the_archive(there)
        self.c_from_the_archive(there)
        for it in ("LICENSE-MIT", "LICENSE-APACHE", "share/man/man1/stinger.1", "docs/TUTORIAL.md", "python/pyproject.toml"):
            self.assertTrue((there / it).is_file(), it)
        self.assertFalse((there / "crates").exists())

    def notes_say_what_was_made(self, notes, sums):
        for it, total in sums.items():
            self.assertIn(f"| `{it.name}` | {total} |", notes)
        for name, it in (("bin/stinger", find_program()), ("lib/libmisteluk.so", find_library())):
            self.assertIn(f"| `{name}` | {hashlib.sha256(pathlib.Path(it).read_bytes()).hexdigest()} |", notes)
        self.assertIn("**UNPROVED.**", notes)
        self.assertIn("toolchain none: not proved", notes)
        self.assertIn("\nThe first: [what breaks](#what-breaks).\n\n## What breaks\n\n- See your limits.\n", notes)
        self.assertNotIn("An older one.", notes)

    def leads_nowhere_else(self, notes):
        """Notes are read where no page stands beside them."""
        links = re.findall(r"\]\(([^)]*)\)", notes)
        anchors = {f"#{it.lower().replace(' ', '-')}" for it in re.findall(r"(?m)^## (.*)$", notes)}
        self.assertEqual([it for it in links if it not in anchors], [])

    def from_the_archive(self, there):
        """The client of the archive finds its program by itself."""
        env = {it: value for it, value in os.environ.items() if not it.startswith("MISTELUK_")} | {"PYTHONPATH": "python"}
        code = ("from misteluk import Store; from misteluk.engine.finding import find_program as f; "
                "print(f(), Store(blocks=64).stat().free, sep=chr(10))")
        told = run(sys.executable, "-c", code, cwd=there, env=env, stderr=subprocess.DEVNULL).stdout
        self.assertEqual(told, f"{there}/bin/stinger\n64\n")

    def c_from_the_archive(self, there):
        """Header, libraries and what pkg-config reads: the example is compiled as the archive's page says."""
        for name in ("libmisteluk.so", "libmisteluk.a"):
            self.assertEqual((there / "lib" / name).read_bytes(), (pathlib.Path(find_library()).parent / name).read_bytes())
        self.assertIn(hashlib.sha256((there / "lib/libmisteluk.so").read_bytes()).hexdigest(), (there / "PROVED.md").read_text())
        self.assertEqual({it.name for it in (there / "include").iterdir()}, {"misteluk.h", "misteluk_arrow.h"})
        if not shutil.which("cc") or not shutil.which("pkg-config"):
            return
        command = "cc examples/c/roads.c $(pkg-config --cflags --libs misteluk)"
        self.assertIn(f"`{command}`", (there / "PROVED.md").read_text())
        env = {**os.environ, "PKG_CONFIG_PATH": str(there / "lib/pkgconfig"), "LD_LIBRARY_PATH": str(there / "lib")}
        told = run("sh", "-c", f"{command} -o roads && ./roads && rm roads", cwd=there, env=env)
        self.assertEqual((told.returncode, told.stdout), (0, (there / "examples/c/roads.expected").read_text()))
        self.assertEqual(run("pkg-config", "--modversion", "misteluk", env=env).stdout, f"{misteluk.__version__}\n")
        self.assertRegex(run(there / "examples/c/check").stdout, r"(?m)^examples/c: [1-9]\d* passed, 0 failed$")

    @unittest.skipUnless(optional("pip"), "pip is not there")
    def test_the_wheel(self):
        """Installed where nothing else is, it has its own program: no path leads to one, nor does a variable."""
        (wheel,) = self.made(".whl")
        self.assertEqual(wheel.name, f"misteluk-{misteluk.__version__}+unproved-py3-none-linux_x86_64.whl")
        home = self.room / "a home"
        venv.create(home, symlinks=True)
        done = run(sys.executable, "-m", "pip", "--python", home / "bin/python", "install", "--no-index", "--quiet",
                   "--no-compile", "--disable-pip-version-check", wheel, cwd="/")
        self.assertEqual(done.returncode, 0, done.stdout)
        env = {"PATH": "", "HOME": str(self.room), "MISTELUK_PROGRAM": "", "MISTELUK_LIBRARY": ""}
        told = run(home / "bin/misteluk", "--help", cwd="/", env=env)
        self.assertEqual((told.returncode, told.stdout.split()[:2]), (0, ["usage:", "misteluk"]), told.stdout)
        code = ("import misteluk; from misteluk.engine.finding import find_program as f; print(f()); "
                "s = misteluk.Store(blocks=16); s.insert('k', 'a', 'b', 2); "
                "print(s.commit().inserted, s.open().edge('k', 'a', 'b').weight)")
        told = run(home / "bin/python", "-c", code, cwd="/", env=env).stdout.splitlines()
        (program,) = home.glob("lib/python3.*/site-packages/misteluk/bin/stinger")
        self.assertEqual(told, [str(program), "1 2"])
        self.assertEqual(program.read_bytes(), pathlib.Path(find_program()).read_bytes())
        self.assertEqual((program.parents[1] / "lib/libmisteluk.so").read_bytes(), pathlib.Path(find_library()).read_bytes())

    def test_the_archive_tests_its_own_client(self):
        """By its own python/check, which finds its program, and says what it passes over."""
        with tarfile.open(*self.made(".gz")) as tar:
            tar.extractall(self.room / "there")
        (there,) = (self.room / "there").iterdir()
        env = {it: value for it, value in os.environ.items() if not it.startswith("MISTELUK_")} | {"PYTHON": sys.executable}
        done = run(there / "python/check", "records", "release", env=env)
        self.assertEqual(done.returncode, 0, done.stdout)
        self.assertIn(f" runs {there}/bin/stinger\n", done.stdout)
        self.assertRegex(done.stdout,
                         r"(?m)^release\b.*: \d+ s, .*, \d+ passed over: this is no repository, but a released archive$")
        self.assertRegex(done.stdout, r"(?m)^[1-9]\d* passed, 0 failed$")

    def refused(self, told: str, *words):
        done = self.release(*words)
        self.assertEqual(done.returncode, 1)
        self.assertIn(told, done.stdout)
        self.assertFalse((self.room / "made").exists())

    def prove(self):
        """A program in the place of the proved one, with the note that says so."""
        out = self.top / "crates/stinger/out"
        out.mkdir(parents=True)
        shutil.copy(find_program(), out / "stinger")
        code = "import sys; sys.path.insert(0, 'tools'); import programs as p; print(p.PROVED.sources(), p.digest(p.PROVED.path))"
        (out / "stinger.made_from").write_text(run(sys.executable, "-B", "-c", code, cwd=self.top).stdout)
        out = self.top / "crates/misteluk_c/out"
        out.mkdir(parents=True)
        for it in ("libmisteluk.so", "libmisteluk.a"):
            shutil.copy(pathlib.Path(find_library()).parent / it, out)
        told = run(sys.executable, "-B", "-c", code.replace("p.PROVED", "p.PROVED_LIBRARY"), cwd=self.top).stdout
        (out / "libmisteluk.so.made_from").write_text(told)

    def test_what_is_not_proved_is_refused(self):
        self.refused("there is no proved program of the sources as they are: ./prove makes it. (--unproved makes an archive")

    def test_a_commit_whose_gate_did_not_pass_is_refused(self):
        self.prove()
        self.refused("the gate did not pass over this commit: ./check runs it")
        (self.top / "out").mkdir()
        head = self.git("rev-parse", "HEAD")
        for note in ("0" * 40 + "\nkit-1\n5 minutes\n", f"{head}\nkit-1\n"):
            (self.top / "out/gate_passed").write_text(note)
            self.refused("the gate did not pass over this commit: ./check runs it")

    def pass_gate(self):
        """Has the copy look as after a gate that passed over its commit."""
        self.prove()
        (self.top / "out").mkdir()
        (self.top / "out/gate_passed").write_text(self.git("rev-parse", "HEAD") + "\nkit-1 logic 2\n31 minutes on 4 processors\n")

    def test_the_proved_program(self):
        """Its release has its tag, also where it is made again."""
        self.addCleanup(self.git, "tag", "-d", TAG)
        self.pass_gate()
        archive, wheel, notes = self.release().stdout.splitlines()
        self.assertNotIn("UNPROVED", archive + pathlib.Path(notes).read_text())
        self.leads_nowhere_else(pathlib.Path(notes).read_text())
        notes = pathlib.Path(notes).read_text()
        for it in ("toolchain `kit-1 logic 2`.", "It took 31 minutes on 4 processors.", self.git("rev-parse", "HEAD")):
            self.assertIn(it, notes)
        self.assertEqual(pathlib.Path(wheel).name, f"misteluk-{misteluk.__version__}-py3-none-linux_x86_64.whl")
        with tarfile.open(archive) as tar:
            (page,) = (tar.extractfile(it).read().decode() for it in tar if it.name.endswith("x86_64/PROVED.md"))
        self.assertNotIn("UNPROVED", page)
        self.assertIn("was proved to meet its contract by `kit-1 logic 2`,\nand the gate of this commit (`./check`) passed", page)
        self.assertEqual(self.git("rev-parse", TAG), self.git("rev-parse", "HEAD"))
        self.assertEqual(self.release().returncode, 0)
        self.assertEqual(self.git("rev-parse", TAG), self.git("rev-parse", "HEAD"))

    def test_no_other_commit_gets_the_tag(self):
        self.git("tag", TAG)
        self.addCleanup(self.git, "tag", "-d", TAG)
        tagged = self.git("rev-parse", TAG)
        (self.top / "README.md").write_text("Another page.\n")
        self.git("commit", "-qam", "another page")
        self.pass_gate()
        self.refused(f"{TAG} is the tag of commit {tagged[:10]}: a new release begins with a new heading of CHANGELOG.md")
        self.assertEqual(self.git("rev-parse", TAG), tagged)

    def test_a_clone_that_is_not_clean_is_refused(self):
        (self.top / "new").write_text("")
        self.refused("the clone isn't clean: ?? new", *self.unproved)

    def test_a_program_that_needs_more_is_refused(self):
        more = next((it for it in ("/usr/bin/git", "/usr/bin/curl", "/bin/ls") if os.path.exists(it)), None)
        self.refused("the program needs", "--unproved", more, *self.unproved[2:])
        library = self.room / "libmore.so"
        shutil.copy(more, library)
        shutil.copy(more, library.with_suffix(".a"))
        self.refused("the library needs", *self.unproved[:2], "--library", library)

    def test_another_version_is_refused(self):
        """That of the change log's first heading is made: the program and the client have to say it, too."""
        changes, project = self.top / "CHANGELOG.md", self.top / "python/pyproject.toml"
        heading = f"\n## {misteluk.__version__}\n"
        self.assertEqual(changes.read_text().count(heading), 1)
        changes.write_text(changes.read_text().replace(heading, f"\n## 9.8.7\n{heading}"))
        self.git("commit", "-qam", "a heading of another version")
        self.refused(f"python/pyproject.toml says version {misteluk.__version__}, and CHANGELOG.md 9.8.7", *self.unproved)
        project.write_text(project.read_text().replace(f'version = "{misteluk.__version__}"', 'version = "9.8.7"'))
        self.git("commit", "-qam", "the client's, too")
        self.refused(f"the program says version {misteluk.__version__}, and CHANGELOG.md 9.8.7", *self.unproved)
        changes.write_text("# Changelog\n")
        self.git("commit", "-qam", "no heading")
        self.refused("CHANGELOG.md has no heading of a version", *self.unproved)

    def test_a_manual_of_another_program_is_refused(self):
        page = self.top / "share/man/man1/stinger.1"
        page.write_text(page.read_text() + ".PP\nMore.\n")
        self.git("commit", "-qam", "another page")
        self.refused("isn't what the program says of itself", *self.unproved)


if __name__ == "__main__":
    unittest.main()
