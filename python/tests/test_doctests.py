"""The examples of the client's docstrings: each public call has one, and each runs, on Python alone and with packages."""
import contextlib
import doctest
import inspect
import os
import re
import unittest
import warnings
from functools import cached_property
from unittest import mock

from support import Case, optional

import misteluk
from misteluk import errors, options
from misteluk.journal import file

# The server of the examples, and what a server needs.
URL, OF_SERVER = "http://127.0.0.1:7700", ("starlette", "uvicorn")
# Which class's example one goes on from, where that isn't the session's.
BEFORE = {"misteluk": (), "Store": (), "Session": (), "Followed": ("Session", "Following"), "Touched": ("Session", "Following")}


def public():
    """Yields each public name and those of a store's file, and each public method and property of a class, with its docstring."""
    names = {name: getattr(misteluk, name) for name in misteluk.__all__}
    for name, it in {**names, **{it.__name__: it for it in (file.StoreFile, file.Recovered, file.Kept)}}.items():
        yield name, it.__doc__
        for own, member in vars(it).items() if inspect.isclass(it) else ():
            is_call = inspect.isroutine(member) or isinstance(member, (property, cached_property, classmethod, staticmethod))
            if is_call and not own.startswith("_"):
                yield f"{name}.{own}", getattr(it, own).__doc__


def others():
    """Yields what else users meet: the package, and the classes of its modules of errors and options."""
    yield "misteluk", misteluk.__doc__
    for module in (errors, options):
        for name, it in vars(module).items():
            if inspect.isclass(it) and it.__module__ == module.__name__ and name not in misteluk.__all__:
                yield f"{module.__name__}.{name}", it.__doc__


def without():
    """The public names whose docstring has no example."""
    return [name for name, docstring in public() if ">>> " not in (docstring or "")]


EXAMPLES = {name: docstring for name, docstring in [*others(), *public()] if ">>> " in (docstring or "")}


class Docstrings(Case):
    def setUp(self):
        super().setUp()
        self.addCleanup(os.chdir, os.getcwd())
        os.chdir(self.room)
        self.url, self.known = None, {}
        self.addCleanup(self.end)

    def end(self):
        """Closes what the examples left open."""
        stores = [it for it in self.known.values() if isinstance(it, misteluk.Store)]
        for it in self.known.values():
            if isinstance(it, (misteluk.Following, misteluk.Part)):
                it.close()
        for it in stores:
            with contextlib.suppress(errors.ReadOnly):
                it.discard()
            it.close()

    def serve(self):
        """Has a server with the roads of the example."""
        for it in OF_SERVER:
            self.need(it)
        from misteluk.serve.server import Server
        store = misteluk.Store(seats=16, endless=True)
        self.addCleanup(store.close)
        store.load(self.known["roads"], by="set")
        server = Server(store, "127.0.0.1:0").start()
        self.addCleanup(server.stop)
        self.addCleanup(self.end)  # (before the server)
        self.url = server.url

    def need(self, package):
        if not optional(package):
            self.skipTest(f"{package} is not there")

    def run_one(self, name, docstring):
        """Runs an example by what those before it left."""
        for it in re.findall(r"# needs (\w+)", docstring):
            self.need(it)
        if URL in docstring and self.url is None:
            self.serve()
        text = docstring.replace(URL, self.url or URL)
        example = doctest.DocTestParser().get_doctest(text, self.known, name, name, 0)
        self.known, told = example.globs, []
        with warnings.catch_warnings():
            warnings.simplefilter("ignore", UserWarning)  # (of what an example that raises leaves pending)
            failed, count = doctest.DocTestRunner(optionflags=doctest.ELLIPSIS).run(example, out=told.append, clear_globs=False)
        self.assertEqual((failed, count > 0), (0, True), "".join(told))

    def run_all(self, name):
        """Runs an example, and before it those from which it goes on."""
        module, _, own = name.rpartition(".")
        if module.startswith("misteluk"):
            before = ("Session",)
            self.known = {name: it for name, it in [*vars(errors).items(), *vars(options).items()] if name[0] != "_"}
        else:
            before = (*BEFORE.get(module or own, ("Session",)), *([module] if module else []))
        for it in before:
            self.run_one(it, EXAMPLES[it])
        self.run_one(name, EXAMPLES[name])

    def test_each_public_call_has_an_example(self):
        self.assertEqual(without(), [])
        self.assertGreater(len(EXAMPLES), 150)

    def test_a_call_without_an_example_is_seen(self):
        with mock.patch.object(misteluk.Session.levels, "__doc__", "Returns the levels."):
            self.assertIn("Session.levels", without())
        with mock.patch.object(misteluk.Edges, "later", property(lambda edges: 1), create=True):
            self.assertIn("Edges.later", without())

    def test_a_wrong_example_fails(self):
        with self.assertRaisesRegex(AssertionError, "Expected:\n    5\nGot:\n    4\n"):
            self.run_one("Session", EXAMPLES["Session"])
            self.run_one("wrong", ">>> session.edge_count\n5\n")


def tried(name):
    """The test of an example."""
    return lambda case: case.run_all(name)


for it in EXAMPLES:
    setattr(Docstrings, f"test_of_{it.replace('.', '_')}", tried(it))


if __name__ == "__main__":
    unittest.main()
