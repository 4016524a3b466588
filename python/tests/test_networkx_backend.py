"""The backend for networkx, chosen as a user chooses it, beside networkx's own answers over random graphs with kinds, windows and
removals. Which questions the store answers, which it leaves to networkx, and what each raises.

It is as if the backend was installed: this runs in a process of its own, in whose path there are the package and the entry
points that its pyproject.toml has. Where this Python's networkx is another one than the backend is for, that of `python3` is
taken, if it can be: networkx is Python alone."""
import ast
import os
import pathlib
import re
import subprocess
import sys
import tempfile
import unittest
import warnings
from unittest import mock

from graphs import Play
from of_networkx import own, plain, said
from support import TOP, Case, optional

from misteluk import Session, Units, errors
from misteluk.engine.held import LibraryVersion

networkx = optional("networkx")
scipy = optional("scipy")
INSTALLED, OF = "MISTELUK_BACKEND_IS_INSTALLED", "3.6."
PACKAGE = TOP / "python/networkx_backend"
ROUNDS = 5
# Functions that the store answers, by what is asked of a graph and a node; of those with a matrix numpy and scipy make it.
QUESTIONS = {
    "weakly_connected_components": lambda g, a: list(networkx.weakly_connected_components(g)),
    "number_weakly_connected_components": lambda g, a: networkx.number_weakly_connected_components(g),
    "is_weakly_connected": lambda g, a: networkx.is_weakly_connected(g),
    "single_source_shortest_path_length": lambda g, a: [
        networkx.single_source_shortest_path_length(g, a), networkx.single_source_shortest_path_length(g, a, cutoff=1)],
    "core_number": lambda g, a: networkx.core_number(g),
    "pagerank": lambda g, a: [networkx.pagerank(g), networkx.pagerank(g, weight=None), networkx.pagerank(g, weight="recent")],
    "to_scipy_sparse_array": lambda g, a: [
        networkx.to_scipy_sparse_array(g, **asked) for asked in (
            {}, {"weight": None}, {"dtype": float, "nodelist": list(g)}, {"nodelist": [a]}, {"weight": "first"})]}
OF_MATRIX = {"pagerank", "to_scipy_sparse_array"}


def line(one, *more):
    """A graph's rows, each from one name to another."""
    return [f"insert k {it[0]} {it[1]} {at + 2} {at}" for at, it in enumerate((one, *more))]


@unittest.skipUnless(INSTALLED in os.environ, f"networkx {OF}* is not there")
class Backend(Case):
    def setUp(self):
        super().setUp()
        self.chosen(["misteluk"])

    def chosen(self, names):
        """Chooses backends for all algorithms."""
        self.addCleanup(setattr, networkx.config.backend_priority, "algos", networkx.config.backend_priority.algos)
        networkx.config.backend_priority.algos = names

    def differing(self, graph, wanted):
        """The questions whose answers over a session's graph aren't networkx's own over its own graph."""
        nodes, found = list(wanted), []
        for it in [it for it in QUESTIONS if scipy or it not in OF_MATRIX]:
            networkx.config.backend_priority.algos = []
            right = said(QUESTIONS[it], wanted, nodes[0])
            networkx.config.backend_priority.algos = ["misteluk"]
            found += [] if said(QUESTIONS[it], graph, nodes[0]) == right else [it]
        return found

    def play(self, seed):
        play, found = Play(seed), []
        for _ in range(4):
            play.step()
            model = play.now
            window = play.random.choice([None, *model.kinds]), play.random.choice([0, play.time // 2]), play.time
            with play.store.open() as session:
                rows = [(*ends, *edge) for ends, edge in model.view(*window)]
                is_multi = window[0] is None and len(model.kinds) > 1
                if model.names:
                    found += self.differing(session.graph(*window), own(model.names, rows, is_multi))
        play.end()
        return found

    def test_answers_are_those_of_networkx(self):
        for seed in range(ROUNDS):
            with self.subTest(seed=seed):
                self.assertEqual(self.play(seed), [])

    def test_a_planted_difference_is_found(self):
        backend = networkx.utils.backends._load_backend("misteluk")
        wrong = {
            "weakly_connected_components": lambda g: iter([set(g)]), "core_number": lambda g: dict.fromkeys(g, 1),
            "single_source_shortest_path_length": lambda g, source, cutoff=None: {source: 0},
            "to_scipy_sparse_array": lambda g, *_, **__: scipy.sparse.coo_array((len(g), len(g))).asformat("csr")}
        for name in set(wrong) - (set() if scipy else OF_MATRIX):
            with self.subTest(name=name), mock.patch.object(backend, name, wrong[name]):
                self.assertTrue(any(name in self.play(seed) for seed in range(4)))

    def test_it_is_found_by_its_entry_points(self):
        self.assertEqual(networkx.__version__[:4], OF)
        told = networkx.utils.backends.backend_info["misteluk"]
        self.assertEqual(set(told["functions"]), set(QUESTIONS))
        backend = networkx.utils.backends._load_backend("misteluk")
        self.assertEqual((backend.__name__, backend.NAME), ("misteluk_networkx.backend", told["backend_name"]))
        for name in QUESTIONS:
            self.assertIn("misteluk", getattr(networkx, name).backends)
            self.assertTrue(callable(getattr(backend, name)))
        rows = "".join(re.findall(r"(?m)^\| `.*", (PACKAGE / "README.md").read_text()))
        self.assertEqual(set(re.findall(r"`(\w+_\w+|pagerank)`", rows)), set(QUESTIONS))

    def test_the_page(self):
        """Its example is right."""
        code = "".join(it[4:] for it in (PACKAGE / "README.md").read_text().splitlines(True) if it.startswith("    "))
        names = {it.id for it in ast.walk(ast.parse(code)) if isinstance(it, ast.Name)}
        self.assertLessEqual({"networkx", "Store", "graph"}, names)
        with mock.patch("builtins.print") as told:
            exec(code if scipy else code.replace("pagerank", "core_number"), {})
        self.assertEqual(set(told.call_args[0][0]), {"ana", "bob", "cyd"})

    def test_what_the_store_answers_reads_no_edge(self):
        """Neither all nor those of a vertex; and each question is one of the session."""
        session = self.store(*line("ab", "bc", "de")).open()
        graph, asked = session.graph(), []
        right = {it: getattr(Session, it) for it in ("levels", "components")}
        noted = {it: lambda session, *given, it=it: (asked.append(it), right[it](session, *given))[1] for it in right}
        no_edges = {it: mock.Mock(side_effect=AssertionError) for it in ("edges", "out_of", "into")}
        with mock.patch.multiple(Session, **noted), mock.patch.multiple(LibraryVersion, **no_edges):
            self.assertEqual(networkx.single_source_shortest_path_length(graph, "a"), {"a": 0, "b": 1, "c": 2})
            self.assertEqual(list(networkx.weakly_connected_components(graph)), [{"a", "b", "c"}, {"d", "e"}])
            self.assertFalse(networkx.is_weakly_connected(graph))
            self.chosen([])
            self.assertEqual(networkx.number_weakly_connected_components(graph, backend="misteluk"), 2)
        self.assertEqual(asked, ["levels", "components", "components", "components"])
        with mock.patch.object(Session, "cores", side_effect=errors.NoMemory("it was asked")):
            self.assertRaises(errors.NoMemory, networkx.core_number, graph, backend="misteluk")

    @unittest.skipUnless(scipy, "scipy is not there")
    def test_a_matrix_makes_no_dict_of_an_edge(self):
        from misteluk import graphs
        graph = self.store(*line("ab", "bc", "ca")).open().graph()
        with mock.patch.object(graphs, "adjacency", side_effect=AssertionError):
            self.assertEqual(networkx.to_scipy_sparse_array(graph).toarray().tolist(), [[0, 2, 0], [0, 0, 3], [4, 0, 0]])
            self.assertEqual(len(networkx.pagerank(graph)), 3)
            self.chosen([])
            self.assertEqual(len(networkx.pagerank(graph, backend="misteluk")), 3)

    @unittest.skipUnless(scipy, "scipy is not there")
    def test_a_matrix_of_decimals(self):
        store = self.store(units=Units(weight_scale=100))
        store.load([("a", "b", 0.1, 0, "k"), ("b", "c", 2, 0, "k"), ("b", "c", "1.23", 0, "l")], by="set")
        for kind in ("k", None):
            graph = store.open().graph(kind)
            found, right = (networkx.to_scipy_sparse_array(graph, backend=it) for it in ("misteluk", "networkx"))
            self.assertEqual((found.toarray().tolist(), found.dtype), (right.toarray().tolist(), right.dtype))

    def test_what_is_left_to_networkx(self):
        """Chosen for one call, the store says that it can't; chosen for all, networkx answers, or says what is wrong."""
        graph = self.store(*line("ab", "ba", "bc", "cc")).open().graph()
        right, wrong = networkx.NodeNotFound, NotImplementedError
        self.assertEqual(networkx.single_source_shortest_path_length(graph, "a", cutoff=1), {"a": 0, "b": 1})
        self.assertRaises(right, networkx.single_source_shortest_path_length, graph, "nobody")
        self.assertRaises(networkx.NetworkXNotImplemented, networkx.core_number, graph)
        self.assertEqual(networkx.betweenness_centrality(graph)["b"], 0.5)
        plain_graph = networkx.DiGraph(graph)
        self.assertTrue(networkx.is_weakly_connected(plain_graph))
        for call in (lambda **more: networkx.single_source_shortest_path_length(graph, "a", cutoff=1, **more),
                     lambda **more: networkx.single_source_shortest_path_length(graph, "nobody", **more),
                     lambda **more: networkx.core_number(graph, **more),
                     lambda **more: networkx.betweenness_centrality(graph, **more),
                     lambda **more: networkx.is_weakly_connected(plain_graph, **more)):
            self.assertRaises(wrong, call, backend="misteluk")
        self.assertTrue(networkx.is_weakly_connected(graph, backend="misteluk"))

    def test_beside_graphs_of_networkx(self):
        """Two graphs of one call may be of both sorts, and no call warns."""
        graph = self.store(*line("ab", "bc")).open().graph()
        with warnings.catch_warnings():
            warnings.simplefilter("error")
            for _ in range(2):
                self.assertTrue(networkx.is_isomorphic(graph, graph.copy()))
                self.assertEqual(networkx.compose(graph, networkx.DiGraph([("c", "d")])).size(), 3)
                self.assertEqual(networkx.number_weakly_connected_components(graph), 1)
                self.assertTrue(networkx.is_weakly_connected(graph, backend="misteluk"))

    def test_a_closed_session_answers_no_more(self):
        session = self.store(*line("ab", "bc")).open()
        graph = session.graph()
        session.close()
        for it in [it for it in QUESTIONS if scipy or it not in OF_MATRIX]:
            with self.subTest(it), self.assertRaises(errors.SessionClosed):
                plain(QUESTIONS[it](graph, "a"))


# As if it was installed.

def networkx_there():
    """Where a networkx is that the backend is for: this Python's, or that of `python3`; nothing if there is none."""
    ask = f"import networkx, sys; networkx.__version__.startswith('{OF}') or sys.exit(1); print(networkx.__path__[0])"
    for python in (sys.executable, "python3") if sys.version_info >= (3, 11) else ():
        found = subprocess.run([python, "-c", ask], stdout=subprocess.PIPE, stderr=subprocess.DEVNULL, text=True)
        if found.returncode == 0:
            return pathlib.Path(found.stdout.strip())
    return None


def install(to, found):
    """Puts networkx, the backend, and both packages' entry points into a folder."""
    for it in (found, PACKAGE / "misteluk_networkx", *found.parent.glob("networkx-*.dist-info")):
        (to / it.name).symlink_to(it)
    points = re.findall(r'\[project\.entry-points\."([\w.]+)"\]\n(.+) = "(.+)"\n', (PACKAGE / "pyproject.toml").read_text())
    told = to / "misteluk_networkx-0.1.0.dist-info"
    told.mkdir()
    (told / "METADATA").write_text("Metadata-Version: 2.1\nName: misteluk-networkx\nVersion: 0.1.0\n")
    (told / "entry_points.txt").write_text("".join(f"[{group}]\n{name} = {object_}\n" for group, name, object_ in points))


def main():
    found = None if INSTALLED in os.environ else networkx_there()
    if found is None:
        return unittest.main()
    with tempfile.TemporaryDirectory() as folder:
        install(pathlib.Path(folder), found)
        path = os.pathsep.join(filter(None, (folder, os.environ.get("PYTHONPATH"))))
        words = [sys.executable, "-W", "error::ResourceWarning", *sys.argv]
        sys.exit(subprocess.run(words, env={**os.environ, "PYTHONPATH": path, INSTALLED: "1"}).returncode)


if __name__ == "__main__":
    main()
