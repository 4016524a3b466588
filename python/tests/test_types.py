"""The package's types, as mypy judges them by the settings of pyproject.toml, where mypy is there."""
import importlib.util
import os
import pathlib
import shutil
import subprocess
import sys
import tempfile
import unittest
from typing import List, Optional

from support import HERE, Case


def find_mypy() -> Optional[List[str]]:
    """The words that run mypy: this Python's, else the one on the path, else nothing."""
    if importlib.util.find_spec("mypy"):
        return [sys.executable, "-m", "mypy"]
    found = shutil.which("mypy") or shutil.which("mypy", path="/usr/bin")
    return [found] if found else None


# What a user's program has first and last: stores of several units, each with an edge.
BEGIN = ("from datetime import datetime", "from decimal import Decimal", "from typing import Optional, Union, List",
         "from misteluk import Degree, Edge, Edges, Flow, Session, Store, Units", "",
         "cents = Store(units=Units(weight_scale=100, times='iso'))", "cents.add('k', 'a', 'b', '1.50', '2024-03-04')",
         "cents.commit()", "floats = Store(units=Units(weight_scale=100, decimals='float'))", "floats.add('k', 'a', 'b', 1.5)",
         "floats.commit()", "whole = Store(units=Units(1, 'number'))", "whole.add('k', 'a', 'b', 7, 3)", "whole.commit()", "")
END = ("cents.close()", "floats.close()", "whole.close()", "")
RIGHT = (
    "def total(session: Session[Decimal, datetime]) -> Decimal:",
    "    return sum((it.weight for it in session.predecessors('b').values()), Decimal(0))", "",
    "with cents.open() as session:",
    "    edge: Optional[Edge[Decimal, datetime]] = session.edge('k', 'a', 'b')",
    "    assert edge is not None and isinstance(edge.weight, Decimal) and edge.recent.year == 2024",
    "    degree: Degree[Decimal] = session.degrees()['a']",
    "    flow: Flow[Decimal] = session.flows(session, kind='k')['a']",
    "    among: Degree[Decimal] = session.degrees(among=['a', 'b'])['a']",
    "    assert among == degree and flow == Flow(0, 0, Decimal(0), Decimal(0))",
    "    assert total(session) == degree.weight_out == session.weights_in()['b'] == Decimal('1.50')",
    "    found: List[Optional[Edge[Decimal, datetime]]] = session.get_edges([('k', 'a', 'b')])",
    "    others: List[Union[Edge[Decimal, datetime], None, str]] = session.get_edges([('k', 'a', 'c')], missing='none')",
    "    assert found == [edge] and others == ['none']",
    "    days = [it.first.date().isoformat() for _, _, _, it in session.edges('k')]",
    "    both = session.neighbors('a')['b'].out", "    assert days == ['2024-03-04'] and both is not None",
    "    hours: int = both.recent.hour",
    "weight: float = list(floats.open().successors('a').values())[0].weight", "assert type(weight) is float",
    "seven: int = list(whole.open().edges())[0][3].weight", "assert type(seven) is int",
    "with Store(units=Units(1, 'iso')) as one:", "    dated: Session[int, datetime] = one.open()",
    "unknown = Store()", "exact: Store[int, int] = unknown", "exact.close()")
# Weights and times of other types, and what may be `None`; options that there aren't, and what a store has not.
WRONG = ("cents.open().get_edges([('k', 'a', 'b')])[0].weight",
         "text: str = list(cents.open().predecessors('b').values())[0].weight",
         "number: int = list(cents.open().edges())[0][3].recent",
         "late = list(whole.open().edges())[0][3].recent.year",
         "mixed = cents.open().predecessors('b')['a'].weight + floats.open().predecessors('b')['a'].weight",
         "near = whole.open().neighbors('a')['b'].out.weight", "sums: str = whole.open().weights_in()['b']",
         "degree: Degree[Decimal] = whole.open().degrees()['a']", "misspelt = list(whole.open().edges())[0][3].wieght",
         "other: Session[int, int] = cents.open()", "none = Units(weight_scale='100')",
         "rounded = Units(100, rounding='up')", "cents.load([('a', 'b')], by='sum')",
         "cents.load([('a', 'b')], by='set', colums=None)", "cents.load([('a', 'b')], by='set', format='csv')",
         "later: Edges[int, int] = cents.open().edges()", "heavy: int = cents.open().edges().top(1)[0][3].weight",
         "cut = Store(block=16)", "edges = whole.edges()", "cents.add('k', 'a', 'b', amount=1)",
         "gone: int = cents.open().diff(cents.open()).changed[0].before.weight",
         "walk: str = (cents.open().path('a', 'b', edges=True) or [])[0][3].weight")
LOOSE = ("def f(it):", "    return it", "", "", "count: int = 'one'", "")


@unittest.skipUnless(find_mypy(), "mypy is not there")
class Types(Case):
    """One run judges the package and the backend for networkx, under the settings of this one, and programs of users."""

    @classmethod
    def setUpClass(cls) -> None:
        room = tempfile.TemporaryDirectory()
        cls.addClassCleanup(room.cleanup)
        cls.programs = {name: pathlib.Path(room.name, f"{name}.py") for name in ("right", "wrong", "loose")}
        for path, lines in zip(cls.programs.values(), ((*BEGIN, *RIGHT, *END), (*BEGIN, *WRONG, *END), LOOSE)):
            path.write_text("\n".join(lines))
        settings = ("--config-file", str(HERE.parent / "pyproject.toml"), "--cache-dir", os.devnull)
        packages = ["misteluk", *map(str, HERE.parent.glob("networkx_backend/misteluk_networkx"))]
        cls.modules = sum(len(list((HERE.parent / it).rglob("*.py"))) for it in packages)
        done = subprocess.run([*(find_mypy() or []), *settings, *packages, *map(str, cls.programs.values())],
                              stdout=subprocess.PIPE, stderr=subprocess.STDOUT, text=True, cwd=HERE.parent,
                              env={**os.environ, "MYPYPATH": str(HERE.parent)})
        *cls.told, cls.last = done.stdout.splitlines()

    def faults_of(self, name: str) -> List[str]:
        """What mypy says of a program, without its path."""
        path = str(self.programs[name])
        return [it[len(path) + 1:] for it in self.told if it.startswith(path)]

    def test_each_module_is_typed(self) -> None:
        count = self.modules + len(self.programs)
        self.assertRegex(self.last, rf"^Found \d+ errors in 2 files \(checked {count} source files\)$")
        programs = tuple(map(str, self.programs.values()))
        self.assertEqual([it for it in self.told if ": error: " in it and not it.startswith(programs)], [])

    def test_a_user_s_program(self) -> None:
        """What mypy takes for the types of weights and times are those that they have: the program is run too."""
        self.assertEqual(self.faults_of("right"), [])
        run = subprocess.run([sys.executable, self.programs["right"]], stdout=subprocess.PIPE, stderr=subprocess.STDOUT,
                             text=True, timeout=60, cwd=HERE.parent, env={**os.environ, "PYTHONPATH": str(HERE.parent)})
        self.assertEqual((run.returncode, run.stdout), (0, ""))

    def test_faults_of_a_user_s_program(self) -> None:
        """Each line is refused, and no other one."""
        lines = sorted({int(it.partition(":")[0]) for it in self.faults_of("wrong") if ": error: " in it})
        self.assertEqual(lines, [len(BEGIN) + 1 + at for at in range(len(WRONG))], self.told)

    def test_what_has_no_types_is_told(self) -> None:
        """The settings are the strict ones: a function without types is refused, and so is a value of another type."""
        self.assertEqual([it[it.rindex("["):] for it in self.faults_of("loose") if ": error: " in it],
                         ["[no-untyped-def]", "[assignment]"])


if __name__ == "__main__":
    unittest.main()
