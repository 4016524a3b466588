"""How the package is built: which modules import which, what is loaded with it, and the one table of its errors."""
import ast
import importlib
import importlib.machinery
import importlib.util
import inspect
import subprocess
import sys
import unittest
from typing import Iterator, List, Tuple

from support import HERE, IS_REPOSITORY, NO_REPOSITORY, TOP, Case

import misteluk
from misteluk import errors

PACKAGE = HERE.parent / "misteluk"
# Modules import none of a layer behind their own.
LAYERS = ("errors files names options values version", "engine", "feeds", "journal",
          "components diffs graphs hints ledger part saving session store totals walks", "page", "serve", "command")
LAYER = {name: at for at, names in enumerate(LAYERS) for name in names.split()}


def imports(nodes: List[ast.AST], module: List[str]) -> Iterator[Tuple[str, int]]:
    """The part of this package that each import is of, and its line; those of a type checker are none."""
    for it in nodes:
        if isinstance(it, ast.If) and ast.unparse(it.test) == "TYPE_CHECKING":
            yield from imports(it.orelse, module)
        elif isinstance(it, ast.ImportFrom) and it.level:
            base = module[:len(module) - it.level + 1]
            name = [*base, *(it.module or "").split(".")] if it.module else base
            yield from ((part, it.lineno) for part in ([name[1]] if len(name) > 1 else [one.name for one in it.names]))
        else:
            yield from imports(list(ast.iter_child_nodes(it)), module)


def upwards(text: str, place: str) -> List[str]:
    """The imports of a module at this place that go up."""
    module = ["misteluk", *place.split("/")[:-1]]
    own = LAYER[place.split("/")[0].partition(".")[0]]
    return [f"{place}:{line} imports {part}" for part, line in imports(ast.parse(text).body, module) if LAYER[part] > own]


class Layers(unittest.TestCase):
    def test_no_module_imports_one_above_it(self) -> None:
        places = [it.relative_to(PACKAGE).as_posix() for it in PACKAGE.rglob("*.py")]
        of_layers = [it for it in places if it not in ("__init__.py", "__main__.py")]
        self.assertEqual({it.split("/")[0].partition(".")[0] for it in of_layers}, set(LAYER))
        self.assertEqual([fault for it in of_layers for fault in upwards((PACKAGE / it).read_text(encoding="utf-8"), it)], [])

    def test_one_that_does_is_found(self) -> None:
        text = "if TYPE_CHECKING:\n    from ..store import Store\ndef f():\n    from ..command.main import main\n"
        self.assertEqual(upwards(text, "serve/app.py"), ["serve/app.py:4 imports command"])
        self.assertEqual(upwards("from .. import store\nfrom .names import it\n", "values/texts.py"),
                         ["values/texts.py:1 imports store"])
        self.assertEqual(upwards("from .engine import held", "errors.py"), ["errors.py:1 imports engine"])


class Loading(Case):
    def test_what_few_programs_need_is_loaded_later(self) -> None:
        code = ("import sys; from misteluk import Store; store = Store(); store.insert('k', 'a', 'b'); store.commit(); "
                "session = store.open(); session.degrees(), session.levels('a'), list(session.edges()); store.close(); "
                "print(*sorted(sys.modules))")
        loaded = subprocess.run([sys.executable, "-c", code], stdout=subprocess.PIPE, text=True, cwd=HERE.parent, check=True,
                                timeout=60).stdout.split()
        later = {"asyncio", "ssl", "http", "email", "logging", "tempfile", "subprocess", "numpy", "sqlite3", "hashlib", "html",
                 "misteluk.journal", "misteluk.serve", "misteluk.page", "misteluk.command", "misteluk.saving",
                 "misteluk.engine.lending", "misteluk.feeds.streams"}
        self.assertEqual(later & set(loaded), set())
        self.assertIn("misteluk.engine.library", loaded)
        code = "import sys, misteluk; print(*sorted(sys.modules))"
        loaded = subprocess.run([sys.executable, "-c", code], stdout=subprocess.PIPE, text=True, cwd=HERE.parent, check=True,
                                timeout=60).stdout.split()
        self.assertEqual({*later, "misteluk.engine.library"} & set(loaded), set())
        self.assertIn("misteluk.store", loaded)

    def test_a_command_loads_no_server(self) -> None:
        loaded = subprocess.run([sys.executable, "-c", "import sys, misteluk.command.main; print(*sorted(sys.modules))"],
                                stdout=subprocess.PIPE, text=True, cwd=HERE.parent, check=True, timeout=60).stdout.split()
        self.assertEqual({"asyncio", "ssl", "http", "sqlite3", "logging", "numpy", "misteluk.journal"} & set(loaded), set())
        self.assertIn("misteluk.command.options", loaded)

    def test_each_name_is_there(self) -> None:
        """Those that are loaded later stand in one list for Python, and in another for a type checker."""
        tree = ast.parse((PACKAGE / "__init__.py").read_text(encoding="utf-8"))
        (typed,) = (it for it in tree.body if isinstance(it, ast.If))
        told = {name.name: it.module for it in typed.body if isinstance(it, ast.ImportFrom) for name in it.names}
        self.assertEqual(told, misteluk._LATER)
        for name in misteluk.__all__:
            self.assertIs(getattr(importlib.import_module(getattr(misteluk, name).__module__), name), getattr(misteluk, name))
        self.assertLessEqual(set(misteluk.__all__), set(dir(misteluk)))
        self.assertRaisesRegex(AttributeError, "has no attribute 'Fleet'", getattr, misteluk, "Fleet")


@unittest.skipUnless(IS_REPOSITORY, NO_REPOSITORY)
class Interface(unittest.TestCase):
    def test_it_is_what_the_header_says(self) -> None:
        """Each code, number, struct and function, as the script of the repository writes them."""
        loader = importlib.machinery.SourceFileLoader("interface", str(TOP / "tools/interface"))
        made = importlib.util.module_from_spec(importlib.util.spec_from_loader("interface", loader))
        loader.exec_module(made)
        wanted = made.written(made.Header((TOP / "include/misteluk.h").read_text(encoding="utf-8")))
        self.assertEqual((PACKAGE / "engine/interface.py").read_text(encoding="utf-8"), wanted)


class Errors(unittest.TestCase):
    def test_each_has_its_row(self) -> None:
        known = {it for it in vars(errors).values() if inspect.isclass(it) and issubclass(it, errors.StoreError)}
        self.assertEqual({it.error for it in errors.TABLE.values() if issubclass(it.error, errors.StoreError)}, known)
        self.assertEqual({name: it.error.__name__ for name, it in errors.TABLE.items()}, {name: name for name in errors.TABLE})
        self.assertEqual({it.word: it for it in errors.Refused.__subclasses__()}, errors.WORDS)
        self.assertLessEqual({it.error for it in errors.TABLE.values() if it.status == 404}, {errors.NoKind, errors.NoVertex})

    def test_a_command_s_status(self) -> None:
        for fault, status in ((errors.NoVertex(""), 1), (FileNotFoundError(), 1), (UnicodeDecodeError("a", b"", 0, 0, ""), 1),
                              (KeyboardInterrupt(), 130), (BrokenPipeError(), 141), (ArithmeticError(), 1)):
            self.assertEqual(errors.exit_code_of(fault), status, fault)


if __name__ == "__main__":
    unittest.main()
