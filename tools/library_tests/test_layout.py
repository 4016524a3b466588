"""The declarations for ctypes beside what a C compiler makes of the header: sizes, places of fields, codes and numbers."""
import ctypes
import pathlib
import re
import shutil
import subprocess
import tempfile
import unittest
from typing import Dict, List, Type

from calls import ANY_KIND, NOT_REACHED, TOP, Code, interface

KINDS = [it for it in vars(interface).values() if isinstance(it, type) and issubclass(it, ctypes.Structure)]
STRUCTS: Dict[str, Type[ctypes.Structure]] = {re.sub("(?<=[a-z])(?=[A-Z])", "_", it.__name__).lower(): it for it in KINDS
                                              if it is not ctypes.Structure}
NUMBERS = {it.name: it.value for it in Code}
NUMBERS |= {"VERSION": interface.VERSION, "TEXT_BYTES": interface.TEXT_BYTES, "OPERATIONS": interface.OPERATIONS}
NUMBERS |= {"INTERFACE": interface.INTERFACE, "ANY_KIND": ANY_KIND, "NOT_REACHED": NOT_REACHED}
NUMBERS |= {"INSERT": interface.INSERT, "ADD": interface.ADD, "REMOVE": interface.REMOVE, "EXPIRE": interface.EXPIRE}


def lines() -> Dict[str, int]:
    """What is compared, as expressions of C, and what it is for ctypes."""
    found = {f"MISTELUK_{name}": value for name, value in NUMBERS.items()}
    for name, it in STRUCTS.items():
        found[f"sizeof(misteluk_{name})"] = ctypes.sizeof(it)
        for field, kind in it._fields_:  # type: ignore[misc]
            place = f"misteluk_{name}, {field.rstrip('_')}"
            found[f"offsetof({place})"] = getattr(it, field).offset
            found[f"sizeof(((misteluk_{name} *)0)->{field.rstrip('_')})"] = ctypes.sizeof(kind)
    return found


@unittest.skipUnless(shutil.which("cc"), "there is no cc: the layout of structs was passed over")
class Layout(unittest.TestCase):
    def test_structs_and_numbers_are_those_of_the_header(self) -> None:
        wanted = lines()
        self.assertEqual(set(STRUCTS), {"desk", "batch", "version", "diff", "limits", "columns", "edge_columns", "diff_columns",
                                        "counts", "stat", "size", "hold", "edge", "view"})
        text: List[str] = ["#include <misteluk.h>", "#include <stdio.h>", "int main(void) {"]
        text += [f'    printf("%llu\\n", (unsigned long long)({it}));' for it in wanted]
        with tempfile.TemporaryDirectory() as folder:
            room = pathlib.Path(folder)
            (room / "layout.c").write_text("\n".join([*text, "    return 0;", "}", ""]))
            subprocess.run(["cc", f"-I{TOP / 'include'}", "layout.c", "-o", "layout"], cwd=room, check=True)
            told = subprocess.run([room / "layout"], stdout=subprocess.PIPE, text=True, check=True).stdout
        self.assertEqual(dict(zip(wanted, map(int, told.split()))), wanted)


if __name__ == "__main__":
    unittest.main()
