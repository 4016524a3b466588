"""Walks by way of C in random graphs, beside sets of pairs, and beside networkx where that is there. They are compared again with
a fault that is planted, which has to be found."""
import importlib.util
import random
import unittest
from array import array
from ctypes import c_uint64
from typing import Any, Callable, Dict, List, Optional, Sequence, Set, Tuple

from calls import Batch, Code, Desk, Version, at, column, interface, view
from places import library

networkx: Any = importlib.import_module("networkx") if importlib.util.find_spec("networkx") else None

Pairs = Set[Tuple[int, int]]
EVER = (0, (1 << 64) - 1)
WAYS = (interface.ALONG, interface.AGAINST, interface.EITHER)


def turned(pairs: Pairs) -> Pairs:
    return {(b, a) for a, b in pairs}


def steps_of(version: Version, kind: Optional[int], window: Tuple[int, int], way: int) -> Pairs:
    """From which vertex a step leads to which, by the edges that the version lists."""
    rows = version.edges(view(), 64)
    pairs = {(it[1], it[2]) for it in rows if kind in (None, it[0]) and window[0] <= it[5] <= window[1]}
    return {interface.ALONG: pairs, interface.AGAINST: turned(pairs), interface.EITHER: pairs | turned(pairs)}[way]


def levels_of(pairs: Pairs, sources: Sequence[int], most: int) -> Dict[int, int]:
    """The least number of steps to each vertex, one after another."""
    found, last = dict.fromkeys(sources, 0), set(sources)
    for level in range(1, min(most, len(pairs)) + 1):
        last = {b for a, b in pairs if a in last} - set(found)
        found.update(dict.fromkeys(last, level))
    return found


def path_to(pairs: Pairs, levels: Dict[int, int], target: int) -> List[int]:
    """The shortest walk that has, from its end on, the least vertex each time; none where there is none."""
    walk = [target] if target in levels else []
    while walk and levels[walk[0]]:
        walk.insert(0, min(a for a, b in pairs if b == walk[0] and levels.get(a) == levels[b] - 1))
    return walk


class Walks(unittest.TestCase):
    def graph(self, seed: int) -> Tuple[random.Random, Version]:
        """A version of a random graph, of two kinds, with loops and edges that were taken away."""
        draw = random.Random(seed)
        desk, batch, names = Desk(library(), 4096), Batch(library()), [b"v%d" % it for it in range(draw.randrange(1, 14))]
        for _ in range(draw.randrange(1, 60)):
            ends = draw.choice([b"k", b"m"]), draw.choice(names), draw.choice(names)
            if draw.random() < 0.85:
                batch.insert(*ends, draw.randrange(-5, 9), draw.randrange(20))
            else:
                batch.remove(*ends)
        desk.apply(batch)
        version = desk.hold()
        for it in (batch, desk, version):
            self.addCleanup(it.free)
        return draw, version

    def asked(self, seed: int, change: "Callable[[List[Tuple[int, int]]], List[Tuple[int, int]]]") -> int:
        """How many answers differ, each after a change."""
        draw, version = self.graph(seed)
        if not version.size.vertices:
            return 0
        differ = 0
        if draw.random() < 0.3:
            version.index()
        for way in WAYS:
            kind, window = draw.choice([None, 0]), draw.choice([EVER, (3, 12), (9, 2)])
            sources = [draw.randrange(version.size.vertices) for _ in range(draw.randrange(4))]
            most = draw.choice([0, 1, 2, 3, interface.ANY_STEPS])
            pairs = steps_of(version, kind, window, way)
            found = change(version.within(view(kind, window), way, sources, most))
            differ += found != sorted(levels_of(pairs, sources, most).items())
            if networkx and len(sources) == 1:
                beside = networkx.DiGraph(list(pairs))
                beside.add_nodes_from(sources)
                differ += dict(found) != dict(networkx.single_source_shortest_path_length(beside, sources[0], min(most, 99)))
        return differ

    def test_they_are_those_of_sets(self) -> None:
        self.assertEqual(sum(self.asked(seed, lambda it: it) for seed in range(300)), 0)

    def walked(self, seed: int, change: "Callable[[List[int]], List[int]]") -> int:
        """How many paths differ from those that sets of pairs show, each after a change."""
        draw, version = self.graph(seed)
        kind, window = draw.choice([None, 0]), draw.choice([EVER, (3, 12)])
        pairs, differ = steps_of(version, kind, window, interface.ALONG), 0
        for source in range(version.size.vertices):
            levels = levels_of(pairs, [source], interface.ANY_STEPS)
            for target in range(version.size.vertices):
                differ += change(version.path(view(kind, window), source, target)) != path_to(pairs, levels, target)
        return differ

    def test_paths_are_those_of_sets(self) -> None:
        self.assertEqual(sum(self.walked(seed, lambda it: it) for seed in range(120)), 0)
        self.assertGreater(sum(self.walked(seed, lambda it: it[:1]) for seed in range(20)), 100)

    def led_to(self, seed: int, change: "Callable[[List[Any]], List[Any]]") -> int:
        """How many vertices' edges that come in differ from what all edges show, and the sums of weights, each after a change."""
        draw, version = self.graph(seed)
        kind, window = draw.choice([None, 0]), draw.choice([EVER, (3, 12), (9, 2)])
        rows = [it for it in version.edges(view(), 64) if kind in (None, it[0]) and window[0] <= it[5] <= window[1]]
        if draw.random() < 0.3:
            version.index()
        into = [[it for it in rows if it[2] == target] for target in range(version.size.vertices)]
        differ = sum(change(version.in_edges(view(kind, window), target)) != into[target] for target in range(len(into)))
        return differ + (change(version.weights_in(view(kind, window))) != [sum(it[3] for it in each) for each in into])

    def test_edges_that_come_in_are_those_of_all_edges(self) -> None:
        self.assertEqual(sum(self.led_to(seed, lambda it: it) for seed in range(300)), 0)
        for change in (lambda it: it[1:], lambda it: it[::-1]):
            self.assertGreater(sum(self.led_to(seed, change) for seed in range(40)), 40)

    def test_weights_that_come_in(self) -> None:
        """By hand: two kinds, a loop, a sum that is below 0, one of the greatest weights, and a vertex that nothing enters."""
        most, desk, batch = 1 << 40, Desk(library(), 64), Batch(library())
        for edge in ((b"k", b"a", b"b", most, 1), (b"m", b"a", b"b", most, 2), (b"k", b"b", b"b", most, 3),
                     (b"k", b"b", b"c", -5, 4), (b"m", b"c", b"c", 2, 5)):
            batch.insert(*edge)
        desk.apply(batch)
        version = desk.hold()
        found = [version.weights_in(it) for it in (view(), view(1), view(None, (3, 4)), view(0, (5, 9)), view(None, (4, 3)))]
        self.assertEqual(found, [[0, 3 * most, -3], [0, most, 2], [0, most, -5], [0, 0, 0], [0, 0, 0]])
        self.assertEqual([it[:2] for it in version.in_edges(view(), 1)], [(0, 0), (1, 0), (0, 1)])
        for it in (version, batch, desk):
            it.free()

    def test_a_planted_fault_is_found(self) -> None:
        for change in (lambda it: it[1:], lambda it: it[::-1], lambda it: [(a, b + 1) for a, b in it]):
            self.assertGreater(sum(self.asked(seed, change) for seed in range(40)), 10)

    def test_without_a_bound_they_are_the_levels(self) -> None:
        for seed in range(40):
            _, version = self.graph(seed)
            for source in range(version.size.vertices):
                found = version.within(view(), interface.ALONG, [source], interface.ANY_STEPS)
                self.assertEqual(dict(found), version.levels(view(), source))

    def test_what_is_refused_writes_nothing(self) -> None:
        _, version = self.graph(1)
        count, vertices, levels, sources = c_uint64(7), column("I", 9), column("I", 9), array("I", [0, version.size.vertices])
        call, held = library().version_within, version.handle

        def code(kind: int, way: int, begin: int, room: int, other: int) -> Code:
            seen = interface.View(*EVER, kind)
            return Code(call(held, seen, way, at(sources), begin, 1, at(vertices), room, at(levels), other, count))

        any_kind = interface.ANY_KIND
        told = [code(2, 3, 2, 8, 9), code(2, 0, 2, 8, 9), code(any_kind, 1, 2, 8, 9), code(any_kind, 2, 1, 8, 9)]
        self.assertEqual(told, [Code.BAD_NUMBER, Code.NO_KIND, Code.NO_VERTEX, Code.BAD_LENGTH])
        none = interface.Version()
        codes = [call(none, view(), 0, at(sources), 1, 1, at(vertices), 9, at(levels), 9, count), library().version_index(none),
                 library().version_path(none, view(), 0, 0, at(vertices), 9, count)]
        self.assertEqual(codes, [Code.NO_HANDLE] * 3)
        ways = [(2, 0, 0, 9), (any_kind, 0, version.size.vertices, 9), (any_kind, version.size.vertices, 0, 9)]
        told = [Code(library().version_path(held, interface.View(*EVER, kind), source, target, at(vertices), room, count))
                for kind, source, target, room in ways]
        self.assertEqual(told, [Code.NO_KIND, Code.NO_VERTEX, Code.NO_VERTEX])
        self.assertEqual((count.value, any(vertices), any(levels)), (7, False, False))

    def test_a_handle_that_is_indexed_answers_as_before(self) -> None:
        for seed in range(20):
            _, version = self.graph(seed)
            before = version.edges(view(), 9), version.names(), version.labels(view())
            version.index()
            copy = version.clone()
            self.addCleanup(copy.free)
            for it in (version, copy):
                self.assertEqual((it.edges(view(), 9), it.names(), it.labels(view())), before)


if __name__ == "__main__":
    unittest.main()
