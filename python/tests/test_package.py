"""The package: what pip makes of it, what a wheel has, and how the program is found."""
import base64
import csv
import email
import hashlib
import importlib.util
import os
import pathlib
import re
import shutil
import subprocess
import sys
import tarfile
import unittest
import zipfile
from typing import Optional
from unittest import mock

from support import HERE, TOP, Case, find_program, optional

import misteluk
from misteluk.engine.finding import find_library
from misteluk.command.doctor import look, made
from misteluk.engine.interface import INTERFACE

sys.path.insert(0, str(HERE.parent))
sys.dont_write_bytecode = True
import wheels  # noqa: E402

HAS_PIP = importlib.util.find_spec("pip") is not None


def run(*words, **how):
    how = {"stdout": subprocess.PIPE, "stderr": subprocess.STDOUT, "text": True, "timeout": 120, **how}
    return subprocess.run([str(it) for it in words], **how)


class Wheels(Case):
    def test_what_a_wheel_has(self):
        """Each file's size and sum as RECORD says, as an installer checks them; the program can be run still."""
        program = pathlib.Path(self.elf()).read_bytes()
        made = wheels.write_wheel(self.room, {**wheels.package(), wheels.PROGRAM: (program, True)})
        self.assertEqual(made.name, f"misteluk-{misteluk.__version__}-py3-none-linux_x86_64.whl")
        with zipfile.ZipFile(made) as packed:
            about = f"misteluk-{misteluk.__version__}.dist-info"
            record = {name: (told, size) for name, told, size in csv.reader(packed.read(f"{about}/RECORD").decode().splitlines())}
            self.assertEqual(sorted(record), sorted(packed.namelist()))
            for name, (told, size) in record.items():
                if not name.endswith("/RECORD"):
                    data = packed.read(name)
                    digest = base64.urlsafe_b64encode(hashlib.sha256(data).digest()).decode().rstrip("=")
                    self.assertEqual((told, size), (f"sha256={digest}", str(len(data))))
            modes = {it.filename: it.external_attr >> 16 for it in packed.infolist()}
            self.assertEqual([name for name, mode in modes.items() if mode & 0o111], [wheels.PROGRAM])
            self.assertIn("Root-Is-Purelib: false\nTag: py3-none-linux_x86_64\n", packed.read(f"{about}/WHEEL").decode())
            own = {it.relative_to(HERE.parent).as_posix() for it in (HERE.parent / "misteluk").rglob("*")
                   if it.suffix in (".py", ".typed", ".css", ".html", ".js")}
            self.assertEqual({it for it in record if it.startswith("misteluk/")}, own | {wheels.PROGRAM})

    def elf(self) -> str:
        """A program of this machine: Python's own, since only its kind is looked at."""
        return os.path.realpath(sys.executable)

    def test_a_wheel_that_runs_a_clone_is_for_this_machine(self):
        """It names the clone's place, so nobody may take it for one that works anywhere: its tags and version say so."""
        script = wheels.SCRIPT + b'exec /a/clone/stinger "$@"\n'
        made = wheels.write_wheel(self.room, {**wheels.package(), wheels.PROGRAM: (script, True)})
        version = rf"{misteluk.__version__}\+clone\.[0-9a-f]{{8}}"
        self.assertRegex(made.name, rf"^misteluk-{version}-py3-none-linux_{os.uname().machine}\.whl$")
        with zipfile.ZipFile(made) as packed:
            about = next(it for it in packed.namelist() if it.endswith("/WHEEL"))
            self.assertIn("Root-Is-Purelib: false\n", packed.read(about).decode())
            self.assertIn(f"Version: {misteluk.__version__}+clone.", packed.read(about.replace("WHEEL", "METADATA")).decode())
        bare = wheels.write_wheel(self.room, wheels.package())
        self.assertEqual(bare.name, f"misteluk-{misteluk.__version__}-py3-none-any.whl")

    def test_the_same_bytes_each_time(self):
        first = wheels.write_wheel(self.room / "a", wheels.package()).read_bytes()
        self.assertEqual(first, wheels.write_wheel(self.room / "b", wheels.package()).read_bytes())

    def test_metadata(self):
        told = email.message_from_bytes(wheels.metadata("1.2"))
        self.assertEqual((told["Name"], told["Version"], told["Requires-Python"]), ("misteluk", "1.2", ">=3.9"))
        self.assertEqual(told.get_all("License-File"), ["LICENSE-APACHE", "LICENSE-MIT"])
        self.assertEqual(told["License"], "MIT OR Apache-2.0")
        self.assertIn("help(misteluk)", told.get_payload())
        self.assertIn('networkx ; extra == "all"', told.get_all("Requires-Dist"))
        self.assertIn('starlette ; extra == "serve"', told.get_all("Requires-Dist"))

    @unittest.skipUnless(optional("tomllib"), "tomllib is not there")
    def test_pyproject_is_read_as_python_reads_it(self):
        import tomllib
        with open(HERE.parent / "pyproject.toml", "rb") as file:
            said = tomllib.load(file)["project"]
        scripts = [f'{name} = "{place}"' for name, place in said["scripts"].items()]
        self.assertEqual(wheels.project(), (said["name"], said["version"], said["description"], said["requires-python"],
                                            said["license"]["text"], said["optional-dependencies"], scripts))

    def test_one_version(self):
        program = run(find_program(), "--version", stderr=subprocess.DEVNULL).stdout.split()[-1]
        changes = re.search(r"(?m)^## (\d\S+)$", (TOP / "CHANGELOG.md").read_text())
        self.assertEqual({misteluk.__version__, wheels.project().version, program, changes[1]}, {misteluk.__version__})


@unittest.skipUnless(HAS_PIP, "pip is not there")
class Installs(Case):
    """Over a copy of the package, with a stand-in where the clone has its program, and this library as the one that is made."""

    def setUp(self):
        super().setUp()
        self.top, self.there = self.room / "a top", self.room / "there"
        shutil.copytree(HERE.parent, self.top / "python", ignore=shutil.ignore_patterns("tests", "__pycache__"))
        for it in TOP.glob("LICENSE-*"):
            shutil.copy(it, self.top)
        # (what Python compiles of an installed package is kept elsewhere)
        self.compiled = {"PYTHONPYCACHEPREFIX": str(self.room / "compiled"), "PYTHONDONTWRITEBYTECODE": ""}

    def program(self, place: str, library: str = find_library()) -> pathlib.Path:
        """A script that runs this program, at that place of the copy; as the clone's it says where the library is."""
        path = self.top / place
        path.parent.mkdir(exist_ok=True)
        path.write_text(f'#!/bin/sh\n[ "$*" = "library --where" ] && {{ echo "{library}"; exit; }}\nexec {find_program()} "$@"\n')
        path.chmod(0o755)
        if place.startswith("bin/"):
            (self.top / "lib").mkdir(exist_ok=True)
            shutil.copy(library, self.top / "lib")
        return path

    def install(self, *words, env=None) -> str:
        """Without a network: no place of packages is asked. Gives what is said."""
        done = run(sys.executable, "-m", "pip", "install", "--no-index", "-v", "--disable-pip-version-check", "--no-compile",
                   "--target", self.there, *words, cwd=self.room, env=env)
        self.assertEqual(done.returncode, 0, done.stdout)
        return done.stdout

    def unpack(self, sources: Optional[pathlib.Path] = None) -> None:
        """As `install` of the copy or other sources, where it isn't pip that is tried: what their wheel has, and nothing else."""
        sources = sources or self.top / "python"
        done = run(sys.executable, "-c", "import wheels; print(wheels.build_wheel('.'))", cwd=sources)
        self.assertEqual(done.returncode, 0, done.stdout)
        shutil.rmtree(self.there, ignore_errors=True)
        with zipfile.ZipFile(sources / done.stdout.split()[-1]) as packed:
            packed.extractall(self.there)
            for it in packed.infolist():
                os.chmod(self.there / it.filename, it.external_attr >> 16)
                os.utime(self.there / it.filename, (0, 0))  # (so that what is compiled is known to be of the same source)

    def ask(self, code: str) -> str:
        """What Python says far from the clone, with what was installed alone."""
        env = {it: value for it, value in os.environ.items() if not it.startswith("MISTELUK_")}
        return run(sys.executable, "-c", code, cwd="/", env={**env, "PYTHONPATH": str(self.there), **self.compiled}).stdout

    def listing(self) -> list:
        return sorted(str(it) for it in self.top.rglob("*"))

    def test_a_clone_where_nothing_is_proved(self):
        """pip leaves it as it was, and says that what it installs is for this machine; the command runs."""
        self.program("stinger")
        before = self.listing()
        said = self.install(self.top / "python")
        self.assertEqual(self.listing(), before)
        self.assertIn(f"this wheel has no program, but runs {self.top}/stinger: it is for this machine", said)
        (about,) = self.there.glob("*.dist-info")
        self.assertIn("+clone.", about.name)
        self.assertIn(f"Tag: py3-none-linux_{os.uname().machine}\n", (about / "WHEEL").read_text())
        told = self.ask("from misteluk import Store; from misteluk.engine.finding import find_program as f; "
                        "print(f(), Store().stat().free, sep=chr(10))")
        self.assertIn(f"{self.there}/misteluk/bin/stinger\n", told)
        self.assertTrue(told.endswith("65536\n"), told)
        self.assertEqual((self.there / "misteluk/lib/libmisteluk.so").read_bytes(), pathlib.Path(find_library()).read_bytes())
        env = {it: value for it, value in os.environ.items() if not it.startswith("MISTELUK_")} | {"PYTHONPATH": str(self.there)}
        told = run(self.there / "bin/misteluk", "load", "-", "--set", "--source", "1", "--target", "2", cwd="/", env=env,
                   input="a,b\n").stdout
        self.assertIn("1 edges inserted", told)

    def test_the_program_of_an_archive_goes_in(self):
        program = self.program("bin/stinger")
        self.unpack()
        self.assertEqual((self.there / "misteluk/bin/stinger").read_bytes(), program.read_bytes())
        self.assertTrue(os.access(self.there / "misteluk/bin/stinger", os.X_OK))

    def doctor(self, *words: str, **env: str) -> list:
        """What is told of what was installed, and the status."""
        env = {"PATH": "", "HOME": str(self.room), "PYTHONPATH": str(self.there), **self.compiled, **env}
        done = run(sys.executable, "-m", "misteluk", "doctor", *words, cwd="/", env=env)
        return [*done.stdout.splitlines(), done.returncode]

    def test_the_doctor_tries_a_store(self):
        """An answer that is wrong, and a store that can't be made, are told, and that something is wrong."""
        with misteluk.Store() as store:
            blocks = f"a store of {store.blocks} blocks and {store.seats} seats answers"
        told, is_well = look()
        self.assertEqual((told[-2], told[-1].partition(":")[0], is_well), (blocks, "limits", True))
        with mock.patch.object(misteluk.Session, "edge", lambda *_: misteluk.Edge(2, 0, 0)):
            told, is_well = look()
        self.assertEqual((told[-2], is_well), (f"{blocks} WRONGLY", False))
        with mock.patch.object(misteluk.Store, "open", side_effect=misteluk.errors.NoMemory("no room")):
            told, is_well = look()
        self.assertEqual((told[-1], is_well), ("no store can be made: no room", False))

    def test_the_doctor_tells_what_was_proved(self):
        """By the archive's page, which an install writes a note by."""
        program = self.program("bin/stinger")
        self.assertTrue(made(str(program)).endswith("not known to be proved"))
        for page, wanted, here in (("# **UNPROVED.**", "not known to be proved", "not proved ("),
                                   ("# Proved", "proved (its archive's PROVED.md says by what)", "proved (")):
            with self.subTest(page):
                (self.top / "PROVED.md").write_text(page)
                self.assertTrue(made(str(program)).startswith(here))
                self.unpack()
                found = self.doctor()
                self.assertIn(f"program stinger: {self.there}/misteluk/bin/stinger; {self.proved(wanted)}", found)
                library = f"{self.there}/misteluk/lib/libmisteluk.so; {self.proved(wanted)}; interface {INTERFACE}"
                self.assertIn(f"library: {library}", found)

    def proved(self, told: str) -> str:
        return told if told.startswith("proved") else f"compiled, or of elsewhere: {told}"

    def test_without_a_library(self):
        """In a clone where it isn't made, or isn't of the sources as they are, and in an archive that lacks it: what pip shows
        says what to do, and there is no wheel. There is once the library is there."""
        by_hand = run(sys.executable, "-c", "import wheels; wheels.build_wheel('.')", cwd=self.top / "python")
        self.program("bin/stinger")
        shutil.rmtree(self.top / "lib")
        of_archive = run(sys.executable, "-c", "import wheels; wheels.build_wheel('.')", cwd=self.top / "python")
        for done in (by_hand, of_archive):
            self.assertNotEqual(done.returncode, 0)
            self.assertIn(f"misteluk: no library of the sources as they are is in {self.top}, and the package needs it: run "
                          "./stinger library there, which makes it, and then pip install ./python; without rt, install the wheel "
                          "of a release", " ".join(done.stdout.split()))
            self.assertNotIn("Traceback", done.stdout)
        self.assertEqual([*self.top.rglob("*.whl")], [])
        self.program("stinger")
        self.unpack()
        self.assertEqual(self.doctor()[-1], 0)

    def test_the_doctor_without_a_library(self):
        """It tells what was found, what is missing and the next step, and ends with a status of its own."""
        with tarfile.open(self.room / wheels.build_sdist(str(self.room))) as packed:
            packed.extractall(self.room / "sources")
        self.unpack(*(self.room / "sources").iterdir())
        none = "no store can be made without the library: its line above says what to do"
        told = self.ask("import misteluk; misteluk.Store()")
        self.assertIn("LibraryNotFound: no libmisteluk.so is here. Make it by ./stinger library in the repository, or install "
                      "the wheel of a release, or have MISTELUK_LIBRARY name a libmisteluk.so", told)
        found = self.doctor()
        self.assertTrue(any(it.startswith("library: no libmisteluk.so is here. Make it by") for it in found[:-1]), found)
        self.assertTrue(any(it.startswith("program stinger: no program stinger is here") for it in found[:-1]), found)
        self.assertEqual(found[-2:], [none, 1])
        found = self.doctor(MISTELUK_LIBRARY="/no/such.so")
        self.assertIn("MISTELUK_LIBRARY is /no/such.so", found)
        self.assertTrue(any(it.startswith("library: no file /no/such.so (named by MISTELUK_LIBRARY) is there. Have") for it in
                            found[:-1]), found)
        self.assertEqual(found[-2:], [none, 1])
        found = self.doctor(MISTELUK_LIBRARY=find_library())
        self.assertEqual((found[2].startswith(f"library: {find_library()}; "), found[-1]), (True, 0))

    def test_an_editable_one(self):
        name = wheels.build_editable(str(self.room))
        with zipfile.ZipFile(self.room / name) as packed:
            self.assertEqual(packed.read("misteluk.pth").decode(), f"{HERE.parent}\n")

    def strangers(self) -> pathlib.Path:
        """A folder for pip's temporary files with a stranger's programs in it, which leave a mark if they run."""
        folder = self.room / "temporary"
        (folder / "bin").mkdir(parents=True)
        for place in ("stinger", "prove", "bin/stinger"):
            (folder / place).write_text(f"#!/bin/sh\ntouch '{self.room}/ran'\n")
            (folder / place).chmod(0o755)
        (folder / "LICENSE-STRANGE").write_text("strange\n")
        return folder

    def test_a_source_archive_can_be_installed(self):
        name = wheels.build_sdist(str(self.room))
        self.install(self.room / name, env={**os.environ, "TMPDIR": str(self.strangers())})
        self.assertFalse((self.room / "ran").exists())
        self.assertEqual([str(it) for it in self.there.rglob("LICENSE-STRANGE")], [])
        self.assertEqual(self.ask("import misteluk; print(misteluk.__version__)").strip(), misteluk.__version__)
        self.assertEqual([it for it in ("bin", "lib") if (self.there / "misteluk" / it).exists()], [])
        about = next(self.there.glob("*.dist-info"))
        self.assertTrue((about / "LICENSE-MIT").is_file())


if __name__ == "__main__":
    unittest.main()
