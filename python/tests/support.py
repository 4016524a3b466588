"""What the tests share: stores, files, commands, and the program that they ask beside the client."""
from __future__ import annotations

import io
import os
import pathlib
import re
import subprocess
import sys
import tempfile
import time
import unittest
from contextlib import redirect_stderr, redirect_stdout
from typing import Any, Callable, Dict, List, Tuple, Type

# Whether stores are a server's: some files of tests run over stores in this process, and over those too.
IS_SERVED = "MISTELUK_SERVED" in os.environ
IN_PROCESS = "of stores in process alone"
HERE = pathlib.Path(__file__).resolve().parent
TOP = HERE.parent.parent
# Whether this is the repository, and no released archive.
IS_REPOSITORY = (TOP / "tools").is_dir()
NO_REPOSITORY = "this is no repository, but a released archive"
sys.path.insert(0, str(HERE.parent))

from misteluk import Store  # noqa: E402
from misteluk.engine.finding import find_program  # noqa: E402
from misteluk.feeds.opening import ReadAs  # noqa: E402


if IS_SERVED:
    import served
    served.serve_all()


def optional(name: str) -> Any:
    """The package, or nothing where it isn't there."""
    try:
        return __import__(name)
    except ImportError:
        return None


def row(result: Any) -> Tuple[Any, ...]:
    """The values of a result, in order."""
    return tuple(vars(result).values())


def words_of(script: bytes) -> Dict[int, str]:
    """What the program refuses of a script, by the record's number."""
    run = subprocess.run([find_program(), "run", "--blocks", "16"], input=script, stdout=subprocess.PIPE,
                         stderr=subprocess.DEVNULL, timeout=60)
    return {int(number): word.decode() for number, word in re.findall(rb"(?m)^error (\d+) ([A-Z][A-Za-z]+)$", run.stdout)}


def kill(store: Store) -> None:
    """Ends a store with the graph and all that is pending: what a test plants may leave one that can't be closed."""
    store._engine.close()
    store._is_closed = True


def feed_of(data: Any, **options: Any) -> Any:
    """The feed of what is given, read by these options."""
    return ReadAs(**options).feed(data)


def as_soon_as(is_so: Callable[[], object], seconds: float = 120.0, seldom: float = 0.01) -> None:
    """Waits until that is so, and looks more and more seldom: a look may cost a request, or a browser's work. A busy machine may
    take long; what never comes fails."""
    end, pause = time.monotonic() + seconds, 0.001
    while not is_so():
        if time.monotonic() > end:
            raise AssertionError(f"what is waited for didn't come within {seconds:g} s")
        time.sleep(pause)
        pause = min(1.3 * pause, seldom)


class Case(unittest.TestCase):
    maxDiff = None

    def setUp(self) -> None:
        if IS_SERVED and self.id().partition(".")[2] in served.NOT_SERVED:
            self.skipTest(IN_PROCESS)
        room = tempfile.TemporaryDirectory()
        self.addCleanup(room.cleanup)
        self.room = pathlib.Path(room.name)

    def store(self, *operations: str, **options: Any) -> Store:
        """A store with the operations, texts of `insert kind source target weight time` and so on, committed as one batch."""
        store = Store(**options)
        self.addCleanup(self.let_go, store)
        self.feed(store, *operations)
        return store

    def let_go(self, store: Store) -> None:
        store.discard()
        store.close()

    def kill(self, store: Store) -> None:
        """To be put in the place of `let_go`."""
        kill(store)

    def feed(self, store: Store, *operations: str) -> None:
        for it in operations:
            word, *names = it.split()
            getattr(store, word)(*names[:3], *map(int, names[3:]))
        if operations:
            store.commit()

    def refused(self, error: Type[BaseException], told: str, call: Callable[[], object]) -> str:
        """Whether a call raises an error whose text has what is told; gives the text."""
        with self.assertRaises(error) as fault:
            call()
        self.assertIn(told, str(fault.exception))
        return str(fault.exception)

    def file(self, name: str, text: str) -> str:
        (self.room / name).write_text(text)
        return str(self.room / name)


class CommandCase(Case):
    """A case that runs commands of the client in this process."""

    def run_it(self, *words: object) -> Tuple[int, str, str]:
        """The command's status, what it prints, and what it says on standard error."""
        from misteluk.command.main import main
        out, err = io.StringIO(), io.StringIO()
        with redirect_stdout(out), redirect_stderr(err):
            status = main([str(it) for it in words])
        return status, out.getvalue(), err.getvalue()


def texts(found: List[Any]) -> List[str]:
    return [str(it) for it in found]
