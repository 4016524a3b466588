"""The page of a neighborhood with more edges than can be told apart: how many are shown and drawn, which, and what it says; and
with loops."""
import unittest
from unittest import mock

from pages import Reader
from support import Case

from misteluk import view
from misteluk.page.drawing import Drawing
from misteluk.page.layout import HEIGHT, WIDTH

# A hub of twenty vertices, the later the heavier, each of which has an edge to each other one.
HUB = [f"insert k hub v{it} {100 + it} 1" for it in range(1, 21)]
DENSE = [*HUB, *(f"insert k v{a} v{b} {a + b} 1" for a in range(1, 21) for b in range(1, 21) if a != b)]


class Dense(Case):
    def drawn(self, found, picture=0):
        """The edges of a picture, as its text names them."""
        return [it["told"].partition(":")[0] for it in Reader(found.html).groups(picture, "edge")]

    def test_edges_among_the_farthest(self):
        """Those of as many of the nearest and heaviest as have no more of them in all: eight have 8 · 7, and nine 9 · 8."""
        session = self.store(*DENSE, blocks=1024).open()
        for most, near in ((380, 20), (379, 19), (72, 9), (71, 8), (56, 8), (55, 7), (20, 5)):
            with mock.patch("misteluk.page.neighborhood.MOST_ASKED", most):
                found = view(session, "hub", 1)
            told = "" if near == 20 else f" among the nearest {near + 1}"
            self.assertEqual(str(found), f"hub, 1 hop, version 1: 21 vertices; {near * near} edges{told}")
            self.assertEqual(set(found.neighborhood.names), {"hub", *(f"v{it}" for it in range(21 - near, 21))})
            self.assertEqual((found.neighborhood.drawn, len(self.drawn(found))), (near + 1, near * near))
            self.assertIn("Drawn are" if told else "Point at", Reader(found.html).texts["notes"])

    def test_edges_that_are_drawn(self):
        """The nearest, and of these the heaviest; the page says how many there are."""
        session = self.store(*DENSE, blocks=1024).open()
        with mock.patch("misteluk.page.drawing.MOST_LINES", 22):
            found = view(session, "hub", 1)
        self.assertEqual(set(self.drawn(found)), {*(f"hub → v{it}" for it in range(1, 21)), "v19 → v20", "v20 → v19"})
        texts = Reader(found.html).texts
        self.assertIn("Drawn are 21 of 21 vertices, and 22 of 400 edges among these", texts["drawn"])
        self.assertIn("Of the edges the nearest and of these the heaviest are drawn.", texts["notes"])
        self.assertEqual(len(self.drawn(view(session, "hub", 1))), 400)
        self.assertNotIn("drawn", Reader(view(session, "hub", 1).html).texts)

    def test_edges_of_two_versions_that_are_drawn(self):
        """Those that aren't kept come before the others."""
        store = self.store(*DENSE, blocks=1024)
        first = store.open()
        self.feed(store, "remove k v1 v2", "insert k v2 v2 1 2", "add k v3 v1 1 2")
        with mock.patch("misteluk.page.drawing.MOST_LINES", 4):
            found = view(first, "hub", 1, beside=store.open())
        self.assertEqual([set(self.drawn(found, it)) for it in (0, 1)],
                         [{"v1 → v2", "v3 → v1", "hub → v20"}, {"v2 → v2", "v3 → v1", "hub → v20"}])
        self.assertIn("Of the edges those gone, new or changed come first, then the nearest", Reader(found.html).texts["notes"])

    def test_loops_have_room(self):
        """Also those of vertices at a border, two of each: their weights stand within the picture."""
        rows = [f"insert {kind} v{it} v{it} {it + 1} 1" for it in range(12) for kind in "kl"]
        store = self.store(*rows, *(f"insert k hub v{it} 50 1" for it in range(12)))
        drawing = Drawing(view(store.open(), "hub", hops=1).neighborhood)
        loops = [it for (_, source, target), it in drawing.curves.items() if source == target]
        self.assertEqual((len(loops), drawing.has_weights), (24, True))
        for it in loops:
            for x, y in it.points:
                self.assertTrue(10 < y < HEIGHT - 10 and 10 < x < WIDTH - 10, (x, y))


if __name__ == "__main__":
    unittest.main()
