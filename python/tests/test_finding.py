"""Which library is loaded and which program is run: what is named, what stands around the package, and what is on the path."""
import io
import os
import pathlib
import unittest
from contextlib import redirect_stdout
from unittest import mock

from support import Case

from misteluk.command.doctor import find, look, made
from misteluk.command.main import main
from misteluk.engine import finding
from misteluk.errors import LibraryNotFound, ProgramNotFound, StoreError

MAKE = ("Make it by ./stinger library in the repository, or install the wheel of a release, or have MISTELUK_LIBRARY name a "
        "libmisteluk.so")
OTHER = ("Have MISTELUK_LIBRARY name another one, or unset it: then the package's own is loaded, or the one that ./stinger "
         "library makes in the repository")
LIBRARY = "libmisteluk.so"


class Around(Case):
    """A package in a folder of its own, with nothing named and nothing on the path."""

    def setUp(self):
        super().setUp()
        self.top = pathlib.Path(os.path.realpath(self.room))
        self.here = self.top / "python/misteluk"
        for it in (mock.patch.object(finding, "__file__", str(self.here / "engine/finding.py")),
                   mock.patch.dict(os.environ, {"MISTELUK_LIBRARY": "", "MISTELUK_PROGRAM": "", "PATH": str(self.top / "path")})):
            it.start()
            self.addCleanup(it.stop)

    def put(self, place, mode=0o755, time=None):
        path = self.top / place
        path.parent.mkdir(parents=True, exist_ok=True)
        path.write_text("#!/bin/sh\n")
        path.chmod(mode)
        if time is not None:
            os.utime(path, (time, time))
        return str(path)

    def test_the_library(self):
        """Each place before those that stand behind it here; of the two that a repository makes the later one."""
        places = [self.put(it, 0o644, time) for it, time in (
            (f"python/misteluk/lib/{LIBRARY}", 1), (f"out/compiled/{LIBRARY}", 5), (f"crates/misteluk_c/out/{LIBRARY}", 4),
            (f"lib/{LIBRARY}", 9))]
        for it in places:
            self.assertEqual(finding.find_library(), it)
            os.unlink(it)
        with self.assertRaises(LibraryNotFound) as told:
            finding.find_library()
        self.assertEqual(str(told.exception), f"no {LIBRARY} is here. {MAKE}")
        for it, time in ((f"crates/misteluk_c/out/{LIBRARY}", 6), (f"out/compiled/{LIBRARY}", 5)):
            self.put(it, 0o644, time)
        self.assertEqual(finding.find_library(), str(self.top / f"crates/misteluk_c/out/{LIBRARY}"))
        (self.here / "lib" / LIBRARY).mkdir()
        self.assertEqual(finding.find_library(), str(self.top / f"crates/misteluk_c/out/{LIBRARY}"))

    def test_a_library_that_is_named(self):
        """By the caller before the variable, and before what is around."""
        one, two, _ = self.put("one.so"), self.put("two.so"), self.put(f"python/misteluk/lib/{LIBRARY}")
        self.assertEqual(finding.find_library(one), one)
        self.assertEqual(finding.find_library(pathlib.Path(os.path.relpath(one))), one)
        with mock.patch.dict(os.environ, {"MISTELUK_LIBRARY": two}):
            self.assertEqual((finding.find_library(), finding.find_library(one)), (two, one))
            self.assertEqual(finding.next_step(), OTHER)
            os.unlink(two)
            for named, told in ((None, f"no file {two} (named by MISTELUK_LIBRARY) is there. {OTHER}"),
                                (f"{one}x", f"no file {one}x is there. {OTHER}")):
                with self.assertRaises(LibraryNotFound) as caught:
                    finding.find_library(named)
                self.assertEqual(str(caught.exception), told)
        self.assertEqual(finding.next_step(), MAKE)
        self.assertRaises(LibraryNotFound, finding.find_library, self.top)

    def test_the_program(self):
        """Each place before those behind it here; what can't be run is none."""
        places = [self.put(it) for it in ("python/misteluk/bin/stinger", "stinger", "bin/stinger", "path/stinger")]
        for it in places:
            self.assertEqual(finding.find_program(), it)
            os.chmod(it, 0o644)
        with self.assertRaises(ProgramNotFound) as told:
            finding.find_program()
        self.assertEqual(str(told.exception), "no program stinger is here or on the PATH: name it by program= or by the variable "
                         "MISTELUK_PROGRAM")
        for it in places:
            os.unlink(it)
        (self.top / "stinger").mkdir()
        self.assertRaises(ProgramNotFound, finding.find_program)

    def test_a_program_that_is_named(self):
        """By its name on the path, and else by its place."""
        one, two, here = self.put("path/one"), self.put("two"), os.getcwd()
        self.put("stinger")
        self.addCleanup(os.chdir, here)
        os.chdir(self.top)
        for named, found in ((one, one), ("one", one), (two, two), ("two", two), (pathlib.Path("two"), two), ("./two", "./two")):
            self.assertEqual(finding.find_program(named), found)
        with mock.patch.dict(os.environ, {"MISTELUK_PROGRAM": two}):
            self.assertEqual((finding.find_program(), finding.find_program(one)), (two, one))
            os.chmod(two, 0o644)
            for named, told in ((None, f"{two} (named by MISTELUK_PROGRAM) is no program that can be run"),
                                ("three", "three is no program that can be run")):
                with self.assertRaises(ProgramNotFound) as caught:
                    finding.find_program(named)
                self.assertEqual(str(caught.exception), told)

    def test_whether_it_was_proved(self):
        """By the place of the proved crates, a note beside it, or a page above it, in this order of the last two."""
        unknown = "compiled, or of elsewhere: not known to be proved"
        for place, wanted in (("crates/a/out/it", "proved here"), ("crates/a/bin/it", unknown), ("others/a/out/it", unknown),
                              ("crates/out/it", unknown), ("out/it", unknown)):
            self.assertEqual(made(str(self.top / place)), wanted, place)
        path, page = self.put("lib/it"), self.top / "PROVED.md"
        for text, wanted in (("# Proved\n", "proved"), ("# Not\n**UNPROVED.** It is not.\n", "not proved")):
            page.write_text(text)
            self.assertEqual(made(path), f"{wanted} ({page})")
        (self.top / "lib/PROVED").write_text("by whom\n")
        self.assertEqual(made(path), "proved (by whom)")

    def test_what_is_found(self):
        def nowhere():
            raise StoreError("it is nowhere")
        path = self.put("lib/it")
        self.assertEqual(find(lambda: path), (f"{path}; compiled, or of elsewhere: not known to be proved", True))
        self.assertEqual(find(nowhere), ("it is nowhere", False))

    def test_a_library_that_can_t_be_loaded(self):
        """It is looked for and loaded, and told of before a store is tried."""
        none = "no store can be made without the library: its line above says what to do"
        for named, told in ((self.put("none.so"), "library: no library can be loaded: "),
                            ("/no/such.so", "library: no file /no/such.so (named by MISTELUK_LIBRARY) is there. ")):
            with mock.patch.dict(os.environ, {"MISTELUK_LIBRARY": named}):
                lines, is_well = look()
                with redirect_stdout(io.StringIO()) as out:
                    self.assertEqual(main(["doctor"]), 1)
            (line,) = (it for it in lines if it.startswith("library: "))
            self.assertEqual((is_well, lines[-1], line[:len(told)]), (False, none, told))
            self.assertEqual(out.getvalue().splitlines(), lines)


class Here(Case):
    def test_what_a_store_takes(self):
        lines, is_well = look()
        self.assertEqual((lines[-1], is_well), (
            "limits: 8,388,606 vertices with 1 kind, 4,194,303 with 2, 1,048,575 with 8, 131,071 with 64, unless "
            "Store(limits=..) says others; 4,293,918,719 blocks; batches of 4,096", True))
        with redirect_stdout(io.StringIO()) as out:
            self.assertEqual(main(["doctor"]), 0)
        self.assertEqual(out.getvalue().splitlines(), lines)


if __name__ == "__main__":
    unittest.main()
