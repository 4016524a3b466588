"""Programs that were compiled with another header than the library's: an older one of the same interface, whose structs end
earlier; and one of another interface, which doesn't start."""
import os
import pathlib
import re
import shutil
import subprocess
import tempfile
import unittest
from typing import Tuple

from calls import TOP, interface

HEADER = (TOP / "include/misteluk.h").read_text(encoding="utf-8")
NAME = f"libmisteluk.so.{interface.INTERFACE}"
# Opens a desk under limits, and tells them as the library has them; behind the struct stands what nobody may touch.
PROGRAM = """#include <misteluk.h>
#include <stdio.h>
int main(void)
{
    struct { misteluk_limits limits; uint64_t after; } own = {MISTELUK_LIMITS, 77}, told = own;
    misteluk_desk desk = {0};
    own.limits.names = 9, own.after = 0;
    uint32_t code = misteluk_desk_new_within(1, &own.limits, 16, &desk);
    if (!code) code = misteluk_desk_limits(&desk, &told.limits);
    misteluk_desk_free(&desk), misteluk_desk_free(&desk);
    printf("%d %d %d %d %d %d\\n", (int)code, (int)sizeof told.limits, (int)told.limits.names, (int)told.limits.kinds,
        (int)told.limits.batches, (int)told.after);
    return 0;
}
"""


def older(header: str) -> str:
    """The header as it was before limits had a weight."""
    found, count = re.subn(r"(?<=uint32_t names, kinds, batches;\n)    uint64_t weight;\n", "", header)
    found, again = re.subn(r"65536, 64, 65536, \(uint64_t\)1 << 40\}", "65536, 64, 65536}", found)
    if (count, again) != (1, 1):
        raise AssertionError("the header has its limits in another form")
    return found


@unittest.skipUnless(shutil.which("cc"), "there is no cc: programs of other headers were passed over")
class Programs(unittest.TestCase):
    def setUp(self) -> None:
        room = tempfile.TemporaryDirectory()
        self.addCleanup(room.cleanup)
        self.room, self.library = pathlib.Path(room.name), pathlib.Path(os.environ["MISTELUK_LIBRARY"])
        (self.room / NAME).symlink_to(self.library)

    def compiled(self, header: str, *linked: str) -> pathlib.Path:
        (self.room / "misteluk.h").write_text(header)
        (self.room / "program.c").write_text(PROGRAM)
        words = ["cc", "-Wall", "-Wextra", "-Werror", "-I.", "program.c", "-o", "program", *(linked or [str(self.library)])]
        subprocess.run(words, cwd=self.room, check=True)
        return self.room / "program"

    def run_with(self, program: pathlib.Path, folder: pathlib.Path) -> Tuple[int, str]:
        ran = subprocess.run([program], env={"LD_LIBRARY_PATH": str(folder)}, stdout=subprocess.PIPE, stderr=subprocess.STDOUT,
                             text=True)
        return ran.returncode, ran.stdout

    def test_programs_of_this_header_and_of_an_older_one(self) -> None:
        """Linked to the shared library, and with the static one in them."""
        for header, told in ((HEADER, "0 32 9 64 65536 77\n"), (older(HEADER), "0 24 9 64 65536 77\n")):
            self.assertEqual(self.run_with(self.compiled(header), self.room), (0, told))
            program = self.compiled(header, str(self.library.with_suffix(".a")))
            self.assertEqual(self.run_with(program, pathlib.Path("/nowhere")), (0, told))

    def test_a_library_of_another_interface_is_refused(self) -> None:
        """By its name, and where a file has another's name by the version of what it exports."""
        program, other = self.compiled(HEADER), self.room / "other"
        other.mkdir()
        functions = "\n".join(f"int {it}(void) {{ return 0; }}" for it in set(re.findall(r"\bmisteluk_\w+(?=\()", HEADER)))
        (other / "other.c").write_text(functions)
        (other / "exports").write_text(f"MISTELUK_{interface.INTERFACE + 1} {{ global: misteluk_*; local: *; }};\n")
        subprocess.run(["cc", "-shared", "-fPIC", "other.c", "-o", "made.so", "-Wl,--version-script,exports",
                        f"-Wl,-soname,{NAME}"], cwd=other, check=True)
        (other / f"libmisteluk.so.{interface.INTERFACE + 1}").symlink_to("made.so")
        code, told = self.run_with(program, other)
        self.assertNotEqual(code, 0)
        self.assertRegex(told, f"{re.escape(NAME)}: cannot open shared object file")
        (other / NAME).symlink_to("made.so")
        code, told = self.run_with(program, other)
        self.assertNotEqual(code, 0)
        self.assertRegex(told, f"version `MISTELUK_{interface.INTERFACE}' not found")

    @unittest.skipUnless(shutil.which("pkg-config"), "there is no pkg-config: its file was passed over")
    def test_what_pkg_config_is_told(self) -> None:
        """Of a library that lies in a clone, or in a release's folder."""
        there = [it for it in (self.library.parent, self.library.parent / "pkgconfig") if (it / "misteluk.pc").exists()]
        if not there:
            self.skipTest("the library stands alone")
        env = {**os.environ, "PKG_CONFIG_PATH": str(there[0])}
        ask = ["pkg-config", "--cflags", "--libs", "misteluk"]
        words = subprocess.run(ask, env=env, stdout=subprocess.PIPE, text=True, check=True).stdout.split()
        (self.room / "program.c").write_text(PROGRAM)
        subprocess.run(["cc", "program.c", "-o", "program", *words], cwd=self.room, check=True)
        self.assertEqual(self.run_with(self.room / "program", self.library.parent), (0, "0 32 9 64 65536 77\n"))
        ask[1:3] = ["--modversion"]
        told = subprocess.run(ask, env=env, stdout=subprocess.PIPE, text=True, check=True).stdout.strip()
        one, two, three = map(int, told.split("."))
        self.assertEqual(one * 10_000 + two * 100 + three, interface.VERSION)


if __name__ == "__main__":
    unittest.main()
