"""docs/C.md: what it shows to be typed prints what stands there, its program runs, and its table has the header's calls with
their codes. And the header says of each call that takes a handle that it refuses one which holds nothing."""
import os
import pathlib
import re
import shutil
import subprocess
import tempfile
import unittest

from calls import TOP, Code, interface

MAKERS = ("interface", "library_version", "code_text", "batch_new", "desk_new", "desk_new_within")
PAGE = (TOP / "docs/C.md").read_text(encoding="utf-8")
HEADER = (TOP / "include/misteluk.h").read_text(encoding="utf-8")


def rows(heading: str) -> "list[list[str]]":
    """The rows of the table below a heading, without its head."""
    part = PAGE.split(f"\n## {heading}\n")[1].split("\n## ")[0]
    return [[cell.strip() for cell in line.strip("|").split("|")] for line in re.findall(r"(?m)^\|.*$", part)[2:]]


def comment_of(name: str) -> str:
    """What the header says of a function."""
    found: "list[str]" = re.findall(rf"/\*((?:(?!\*/).)*)\*/\n(?:uint32_t|void) misteluk_{name}\(", HEADER, re.S)
    return found[0]


class Page(unittest.TestCase):
    def test_the_stack_of_each_function_is_measured(self) -> None:
        measured = (TOP / "tools/library_tests/stack.c").read_text(encoding="utf-8")
        left = {it for it in interface.FUNCTIONS if f"misteluk_{it}(" not in measured}
        self.assertEqual(left, {"interface", "library_version"})

    def test_each_function_stands_there_once_with_the_codes_of_the_header(self) -> None:
        names = []
        for called, _, told in rows("What each call does, and refuses"):
            names += (mine := re.findall(r"`(\w+)`", called))
            comments = [comment_of(it) for it in mine]
            if any(re.search("[Aa]s above|The codes of", it) for it in comments[:1]):
                self.assertRegex(told, "^(the same|those of)", called)
                continue
            wanted = {code for it in comments for code in re.findall(r"\b[A-Z]+(?:_[A-Z]+)*\b", it) if code in Code.__members__}
            self.assertEqual(set(re.findall(r"`(\w+)`", told)), wanted - {"NO_HANDLE", "OK"}, called)
        self.assertEqual(names, list(interface.FUNCTIONS))

    def test_the_header_says_which_calls_refuse_a_handle_that_holds_nothing(self) -> None:
        for name, (first, *_) in interface.FUNCTIONS.items():
            says_it = re.search("NO_HANDLE|[Aa]s above|The codes of", comment_of(name)) is not None
            returns_a_code = name not in MAKERS and not name.endswith("_free")
            self.assertEqual(says_it, first is not None and returns_a_code, name)

    @unittest.skipUnless(shutil.which("cc"), "there is no cc: what the page shows was passed over")
    def test_what_is_typed_prints_what_stands_there(self) -> None:
        """In a folder of its own that has the repository's files; `./stinger library` prints the library that is tested."""
        text = "\n".join(it[4:] for it in re.findall(r"(?m)^    .*$", PAGE.split("\n## A program\n")[0]))
        parts = re.split(r"(?m)^\$ ", text)[1:]
        with tempfile.TemporaryDirectory() as folder:
            room = pathlib.Path(folder)
            for it in ("include", "examples"):
                (room / it).symlink_to(TOP / it)
            (room / "stinger").write_text(f"#!/bin/sh\n[ \"$1\" = library ] && echo '{os.environ['MISTELUK_LIBRARY']}'\n")
            (room / "stinger").chmod(0o755)
            script = "".join(f"echo '$ '{index}\n{part.splitlines()[0]} || exit\n" for index, part in enumerate(parts))
            ran = subprocess.run(["sh", "-c", script], cwd=room, stdout=subprocess.PIPE, stderr=subprocess.STDOUT, text=True)
        wanted = "".join("\n".join([f"$ {index}", *part.splitlines()[1:], ""]) for index, part in enumerate(parts))
        self.assertEqual((ran.returncode, ran.stdout), (0, wanted))
        self.assertEqual(sum("roads" in it for it in parts), 4)

    @unittest.skipUnless(shutil.which("cc"), "there is no cc: what the page shows was passed over")
    def test_the_program_runs(self) -> None:
        (program,) = re.findall(r"(?ms)^```c\n(.*?)^```$", PAGE)
        library = pathlib.Path(os.environ["MISTELUK_LIBRARY"])
        with tempfile.TemporaryDirectory() as folder:
            room = pathlib.Path(folder)
            (room / "shown.c").write_text(program)
            words = ["cc", "-Wall", "-Wextra", "-Werror", "-pedantic", f"-I{TOP / 'include'}", "shown.c", "-o", "shown"]
            subprocess.run([*words, library.with_suffix(".a")], cwd=room, check=True)
            ran = subprocess.run([room / "shown"], stdout=subprocess.PIPE, text=True)
        self.assertEqual((ran.returncode, ran.stdout), (0, "version 1 has 1 edge\n"))


if __name__ == "__main__":
    unittest.main()
