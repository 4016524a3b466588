"""Names that a text is in, by way of C, beside Python's own search. They are compared again with a fault that is planted, which
has to be found."""
import random
import unittest
from ctypes import c_uint32, c_uint64
from typing import Callable, List, Sequence, Tuple

from calls import Batch, Desk, Version, at, column, must
from places import library

GUARD = 77


class Searches(unittest.TestCase):
    def version(self, names: Sequence[bytes]) -> Version:
        """A version whose vertices have these names, in this order."""
        desk, batch = Desk(library(), 4096), Batch(library())
        for source, target in zip(names, [*names[1:], *names[:1]]):
            batch.insert(b"k", source, target, 1, 1)
        desk.apply(batch)
        version = desk.hold()
        for it in (batch, desk, version):
            self.addCleanup(it.free)
        self.assertEqual(version.names(), names)
        return version

    def looked(self, version: Version, text: bytes, begin: int, room: int) -> Tuple[List[int], int]:
        """The numbers that one call writes, and the first that it doesn't look at; what is behind them stays."""
        first, count, numbers = c_uint32(begin), c_uint64(9), column("I", room + 2)
        numbers[:] = type(numbers)("I", [GUARD] * len(numbers))
        must(library().version_names_like(version.handle, text, len(text), first, at(numbers), room, count))
        self.assertEqual(set(numbers[count.value:]), {GUARD})
        return list(numbers[:count.value]), first.value

    def test_by_hand(self) -> None:
        version = self.version([b"ulm", b"Ulm", b"bulmer", b"neu-ulm", b"u", b"lm", b"ullm"])
        for text, wanted in ((b"ulm", [0, 2, 3]), (b"lm", [0, 1, 2, 3, 5, 6]), (b"U", [1]), (b"u", [0, 2, 3, 4, 6]),
                             (b"-", [3]), (b"", [*range(7)]), (b"ulmulm", []), (b"ulm\0", []), (b"m ", []), (b"mer", [2])):
            with self.subTest(text=text):
                self.assertEqual([version.names_like(text, room) for room in (1, 2, 7, 9)], [wanted] * 4)

    def test_how_far_a_call_looks(self) -> None:
        """A column that is full ends it behind its last number; else all names are looked at. One past the last name stays."""
        version = self.version([b"a1", b"b", b"a2", b"c", b"a3"])
        for begin, room, wanted in ((0, 1, ([0], 1)), (0, 2, ([0, 2], 3)), (0, 3, ([0, 2, 4], 5)), (0, 9, ([0, 2, 4], 5)),
                                    (1, 1, ([2], 3)), (2, 9, ([2, 4], 5)), (3, 9, ([4], 5)), (4, 1, ([4], 5)), (0, 0, ([], 0)),
                                    (3, 0, ([], 3)), (5, 9, ([], 5)), (6, 9, ([], 6)), ((1 << 32) - 1, 9, ([], (1 << 32) - 1))):
            with self.subTest(begin=begin, room=room):
                self.assertEqual(self.looked(version, b"a", begin, room), wanted)
        self.assertEqual(self.looked(version, b"x", 0, 2), ([], 5))

    def test_a_version_without_names(self) -> None:
        desk = Desk(library(), 16)
        version = desk.hold()
        self.assertEqual([self.looked(version, text, 0, 2) for text in (b"", b"a")], [([], 0)] * 2)
        for it in (version, desk):
            it.free()

    def differing(self, seed: int, change: "Callable[[List[int]], List[int]]") -> int:
        """How many of some texts are in other names than Python says, each after a change."""
        draw = random.Random(seed)

        def some(signs: bytes, most: int) -> bytes:
            return bytes(draw.choices(signs, k=draw.randrange(1, most + 1)))
        names = list(dict.fromkeys([some(b"ab~", draw.choice([3, 9, 64])) for _ in range(draw.randrange(1, 40))] + [b"ba" * 32]))
        version, differ = self.version(names), 0
        texts = [some(b"ab", 4) for _ in range(8)]
        for text in [*texts, names[0], names[-1][1:], names[-1] + b"b", b"a\xff", b"", some(b"b", 70)]:
            wanted = [number for number, name in enumerate(names) if text in name]
            differ += change(version.names_like(text, draw.choice([1, 2, 7, 64]))) != wanted
        return differ

    def test_they_are_those_of_pythons_search(self) -> None:
        self.assertEqual(sum(self.differing(seed, lambda it: it) for seed in range(200)), 0)
        for change in (lambda it: it[1:], lambda it: it[:-1]):
            self.assertGreater(sum(self.differing(seed, change) for seed in range(20)), 100)

    def test_a_handle_that_is_indexed_answers_as_before(self) -> None:
        version = self.version([b"a", b"ab", b"b"])
        version.index()
        self.assertEqual(version.names_like(b"b", 1), [1, 2])


if __name__ == "__main__":
    unittest.main()
