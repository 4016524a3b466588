"""Views of one held version and of two: what they say beside a plain model and by hand."""
import html
import os
import random
import re
import subprocess
import sys
import unittest
from collections import defaultdict
from unittest import mock

from pages import Reader
from support import HERE, Case

import misteluk
from misteluk import Edge, Store, Units, view
from misteluk.page.drawing import Drawing, curve
from misteluk.page.layout import HEIGHT, WIDTH, label_within, labels, place
from misteluk.page.neighborhood import CHANGED, GONE, KEPT, NEW

# What is gone, new, changed and kept is seen by eye: ben's edge goes, zed's comes, funnel's changes.
BEFORE = ("insert transfer ana funnel 980 1", "insert transfer ben funnel 950 1", "insert transfer funnel offshore 3850 3",
          "insert transfer boss ana 2100 1")
AFTER = ("remove transfer ben funnel", "add transfer funnel offshore -940 4", "insert transfer zed funnel 7 5")
ODD = ("<script>alert(1)</script>", "Иванов Пётр", "O\"Brien & 'Sons'", "王小明", "</style><b>", "&amp;", "a b",
       "~~0123456789abcdefghij")


class Model:
    """A graph in plain dicts: names, and edges by kind, source and target."""

    def __init__(self):
        self.names, self.edges = {}, {}

    def put(self, command, kind, source, target, amount, time):
        """Does an operation, and returns it as a call of the store."""
        key = kind, source, target
        if command == "remove":
            self.edges.pop(key, None)
            return command, key
        self.names.update({source: None, target: None})
        weight, first, _ = self.edges.get(key, (0, time, time))
        self.edges[key] = Edge(weight * (command == "add") + amount, first, time)
        return command, (*key, amount, time)

    def copy(self):
        other = Model()
        other.names, other.edges = dict(self.names), dict(self.edges)
        return other

    def within(self, kind, since, until):
        return {key: it for key, it in self.edges.items() if kind in (None, key[0]) and since <= it.recent <= until}


def hops_of(edges, middle, most):
    """The hops of each vertex within, by going from each front to the next, direction ignored."""
    beside = defaultdict(set)
    for _, a, b in edges:
        beside[a].add(b)
        beside[b].add(a)
    hops, front = {middle: 0}, {middle}
    for hop in range(1, most + 1):
        front = {b for a in front for b in beside[a]} - set(hops)
        hops.update(dict.fromkeys(front, hop))
    return hops


def reached(looking):
    """Looks as where the limit for a hop were another than that among the farthest."""
    looking.hops = {"hub": 0, **{f"v{it}": 1 for it in range(1, 21)}}
    with mock.patch("misteluk.page.neighborhood.MOST_ASKED", 99):
        looking._keep(looking.session.out_edges("hub"))
        looking._looked["hub"] = None


def state_of(before, after):
    if before is None or after is None:
        return NEW if before is None else GONE
    return KEPT if before == after else CHANGED


def told(number):
    return "–" if number is None else f"{number:,}".replace("-", "−")


def rows_of(reader, table):
    """The rows of a table below its heads, without order."""
    return sorted(row for row in reader.tables[table] if row and row[-1] not in ("weight out", "recent", "±"))


class Views(Case):
    def pair(self, *before_and_after, **options):
        """Two sessions: one behind the first operations, one behind all."""
        store = self.store(*before_and_after[0], **options)
        first = store.open()
        self.feed(store, *before_and_after[1])
        return first, store.open()

    def random_pair(self, random_, names):
        """Two sessions of a store that was fed at random, and models of their versions."""
        store, model, held = self.store(), Model(), []
        for size in (60, 25):
            for _ in range(size):
                command = random_.choices(("insert", "add", "remove"), (6, 3, 4))[0]
                kind, source, target = random_.choice(("owes", "шлёт")), random_.choice(names), random_.choice(names)
                word, fields = model.put(command, kind, source, target, random_.randint(-3, 9), random_.randint(1, 20))
                getattr(store, word)(*fields)
            store.commit(collect=True)
            held.append((store.open(), model.copy()))
        return held

    def test_beside_a_model(self):
        """Names, hops, degrees, edges and what became of them, in the pictures and in the tables, of 24 random pairs."""
        random_, names = random.Random(7), [*ODD, *(f"v{it}" for it in range(14))]
        for turn in range(24):
            (first, before), (last, after) = self.random_pair(random_, names)
            kind, since, until = random_.choice(((None, 0, 99), ("шлёт", 0, 99), (None, 5, 14)))
            edges = [it.within(kind, since, until) for it in (before, after)]
            middle, hops = random_.choice(list(before.names)), random_.randint(1, 3)
            mixed = (first, last) if turn % 2 else (last, first)
            found = view(mixed[0], middle, hops, beside=mixed[1], kind=kind, since=since, until=until)
            self.check(found, edges, [before.names, after.names], middle, hops)

    def check(self, found, edges, names, middle, most):
        hops = [hops_of(it, middle, most) for it in edges]
        shown = {name: min(it[name] for it in hops if name in it) for it in hops for name in it}
        inside = [{key: edge for key, edge in it.items() if key[1] in shown and key[2] in shown} for it in edges]
        states = {key: state_of(inside[0].get(key), inside[1].get(key)) for key in {**inside[0], **inside[1]}}
        reader = Reader(found.html)
        self.assertEqual(found.counts(), {it: list(states.values()).count(it) for it in (GONE, NEW, CHANGED, KEPT)})
        self.assertEqual([reader.texts[it].split()[0] for it in found.counts()], list(map(str, found.counts().values())))
        has_kinds = len({key[0] for key in states}) > 1
        wanted = []
        for (kind, source, target), state in states.items():
            pair = [it.get((kind, source, target)) for it in inside]
            weights = [it.weight if it else None for it in pair]
            more = (weights[1] or 0) - (weights[0] or 0)
            last = pair[1] or pair[0]
            wanted.append([state, source, target, *([kind] if has_kinds else []), *map(told, weights),
                           "+" * (more > 0) + told(more), str(last.first), str(last.recent)])
        self.assertEqual(rows_of(reader, "edges"), sorted(wanted))
        self.assertEqual(rows_of(reader, "vertices"), sorted(self.vertex_row(it, hop, edges, names) for it, hop in shown.items()))
        for side in (0, 1):
            self.check_picture(reader, side, found.neighborhood.names, inside[side], states, hops[side])

    def vertex_row(self, name, hop, edges, names):
        row = [name, str(hop)]
        for count in (lambda it: sum(key[1] == name for key in it), lambda it: sum(key[2] == name for key in it),
                      lambda it: sum(edge.weight for key, edge in it.items() if key[1] == name)):
            pair = [count(it) if name in known else None for it, known in zip(edges, names)]
            more = (pair[1] or 0) - (pair[0] or 0)
            row += [*map(told, pair), "+" * (more > 0) + told(more)]
        return row

    def check_picture(self, reader, side, names, edges, states, hops):
        """A picture has the edges of its version, each drawn as what became of it, and the vertices; some are away."""
        drawn = [(it["class"].split()[1], names[int(it["data-from"])], names[int(it["data-to"])])
                 for it in reader.groups(side, "edge")]
        self.assertEqual(sorted(drawn), sorted((states[key], key[1], key[2]) for key in edges))
        away = {names[int(it["data-vertex"])] for it in reader.groups(side, "away")}
        self.assertEqual(len(reader.groups(side, "vertex")), len(names))
        self.assertEqual(away, set(names) - set(hops))

    def test_by_hand(self):
        first, last = self.pair(BEFORE, AFTER)
        found = view(last, around="funnel", hops=1, beside=first)
        self.assertEqual(str(found), "funnel, 1 hop, version 1 beside version 2: 5 vertices; 1 gone, 1 new, 1 changed, 1 kept "
                         "edges")
        reader = Reader(found.html)
        self.assertEqual(rows_of(reader, "edges"), [
            ["changed", "funnel", "offshore", "3,850", "2,910", "−940", "3", "4"],
            ["gone", "ben", "funnel", "950", "–", "−950", "1", "1"],
            ["kept", "ana", "funnel", "980", "980", "0", "1", "1"],
            ["new", "zed", "funnel", "–", "7", "+7", "5", "5"]])
        self.assertIn(["zed", "1", "–", "1", "+1", "–", "0", "0", "–", "7", "+7"], rows_of(reader, "vertices"))
        (gone,) = reader.groups(0, GONE)
        self.assertEqual(gone["told"], "ben → funnel: 950\ntransfer, first 1, recent 1\ngone")
        self.assertEqual([len(reader.groups(side, it)) for side in (0, 1) for it in (GONE, NEW)], [1, 0, 0, 1])
        places = [[it.get("data-vertex") for it in reader.groups(side, "vertex")] for side in (0, 1)]
        circles = [re.findall(r'<circle cx="[\d.]+" cy="[\d.]+" r="[\d.]+"/><text class="name', it)
                   for it in found.html.split('<svg class="picture')[1:]]
        self.assertEqual((places[0], circles[0]), (places[1], circles[1]))
        self.assertEqual(len(circles[0]), 5)

    def test_one_version(self):
        first, _ = self.pair(BEFORE, AFTER)
        found = view(first, "funnel")
        reader = Reader(found.html)
        self.assertEqual(str(found), "funnel, 2 hops, version 1: 5 vertices; 4 edges")
        self.assertEqual((len(reader.pictures), reader.tables["edges"][0]), (1, ["from", "to", "weight", "first", "recent"]))
        self.assertEqual(rows_of(reader, "edges")[0], ["ana", "funnel", "980", "1", "1"])
        self.assertNotIn("gone", reader.texts)

    def test_units(self):
        store = self.store(units=Units(weight_scale=100, times="iso"))
        store.add("pays", "a", "b", "1234.50", "2024-05-06")
        store.commit()
        first = store.open()
        store.add("pays", "a", "b", "-0.25", "2024-05-07T10:30")
        store.commit()
        found = view(first, "a", beside=store.open(), until="2024-05-07", title="T & T", labels=("then", "now"))
        self.assertEqual(rows_of(Reader(found.html), "edges"),
                         [["changed", "a", "b", "1,234.50", "1,234.25", "−0.25", "2024-05-06", "2024-05-07 10:30:00"]])
        for it in ("<title>T &amp; T</title>", "Before: then", "After: now", "last touched until 2024-05-07.", "times are in UTC",
                   'title="before: 2024-05-06"'):
            self.assertIn(it, found.html)
        self.assertEqual(found.counts()[CHANGED], 1)

    def test_floats(self):
        store = self.store(units=Units(weight_scale=100, decimals="float"))
        store.add("pays", "a", "b", 0.3)
        store.commit()
        first = store.open()
        store.add("pays", "a", "b", 0.3, 1)
        store.add("pays", "a", "b", -0.5, 1)
        store.commit()
        self.assertEqual(rows_of(Reader(view(first, "a", beside=store.open()).html), "edges"),
                         [["changed", "a", "b", "0.3", "0.1", "−0.2", "0", "1"]])

    def test_a_kind_that_one_version_has(self):
        first, last = self.pair(["insert k a b 5 1"], ["insert l a b 7 1"])
        told = [Reader(view(first, "a", beside=last, kind="l").html).groups(it, "vertex")[-1]["told"] for it in (0, 1)]
        self.assertEqual([it.rpartition("\n")[2] for it in told], [f"{it} out, 0 in, weight out {7 * it}" for it in (0, 1)])

    def test_what_is_refused(self):
        first, last = self.pair(BEFORE, AFTER)
        self.assertRaises(misteluk.NoVertex, view, first, "zed")
        self.assertRaises(misteluk.errors.NoKind, view, first, "funnel", kind="transfers")
        self.assertRaises(misteluk.errors.BadWindow, view, first, "funnel", since=2, until=1)
        self.assertEqual(view(first, "zed", 1, beside=last).counts(), {GONE: 0, NEW: 1, CHANGED: 0, KEPT: 0})
        for wrong in ({"hops": 0}, {"most": 0}, {"most": 301}):
            self.assertRaises(ValueError, view, first, "funnel", **wrong)
        with Store(units=Units(weight_scale=100)) as other:
            other.insert("transfer", "funnel", "x", 1)
            other.commit()
            self.assertRaisesRegex(ValueError, "other units: .*weight_scale=1, .*, and .*weight_scale=100, ", view, first,
                                   "funnel", beside=other.open())
        with Store(units=Units(rounding="half-even")) as other:
            other.insert("transfer", "ana", "funnel", 980.4, 1)
            other.commit()
            self.assertEqual(view(first, "ana", 1, beside=other.open()).counts(), {GONE: 1, NEW: 0, CHANGED: 0, KEPT: 1})
        last.close()
        self.assertRaises(misteluk.SessionClosed, view, first, "funnel", beside=last)

    def test_two_stores(self):
        """The first session's stands before the other's, whatever their versions are."""
        first, last = self.pair(BEFORE, AFTER)
        other = self.store("insert transfer ana funnel 980 1").open()
        self.assertEqual(view(last, "funnel", 1, beside=other).counts(), {GONE: 2, NEW: 0, CHANGED: 0, KEPT: 1})
        self.assertEqual(view(other, "funnel", 1, beside=last).counts(), {GONE: 0, NEW: 2, CHANGED: 0, KEPT: 1})

    def test_limits(self):
        """Of a star the heaviest are drawn, and the page says what it leaves out."""
        session = self.store(*(f"insert k hub v{it} {it} 1" for it in range(1, 41)), "insert k v7 far 1 1").open()
        found = view(session, "hub", most=10)
        reader = Reader(found.html)
        drawn = [found.neighborhood.names[int(it["data-vertex"])] for it in reader.groups(0, "vertex")]
        self.assertEqual(sorted(drawn), sorted(["hub", *(f"v{it}" for it in range(32, 41))]))
        self.assertEqual((len(rows_of(reader, "vertices")), len(rows_of(reader, "edges"))), (42, 41))
        self.assertIn("Drawn are 10 of 42 vertices: the nearest, of these the heaviest", reader.texts["notes"])
        with mock.patch("misteluk.page.page.MOST_VERTICES", 12), mock.patch("misteluk.page.page.MOST_EDGES", 5):
            reader = Reader(view(session, "hub", most=10).html)
        self.assertEqual((len(rows_of(reader, "vertices")), len(rows_of(reader, "edges"))), (12, 5))
        self.assertIn("The table has 12 of 42 vertices. The table has 5 of 41 edges.", reader.texts["notes"])
        with mock.patch("misteluk.page.neighborhood.MOST_ASKED", 39):
            found = view(session, "hub")
        self.assertEqual((found.neighborhood.found, found.neighborhood.is_whole), (1, False))
        self.assertIn("Vertices farther away weren't looked for", Reader(found.html).texts["notes"])
        self.assertNotIn("weren't looked for", view(session, "hub").html)

    def test_too_many_edges_among_the_farthest(self):
        """The counts are then those among the nearest, and that is said beside them."""
        ring = [f"insert k v{it} v{it % 20 + 1} 1 1" for it in range(1, 21)]
        session = self.store(*(f"insert k hub v{it} {it} 1" for it in range(1, 21)), *ring, blocks=64).open()
        self.assertEqual(view(session, "hub", 1).neighborhood.counts()[KEPT], 40)
        with mock.patch("misteluk.page.neighborhood.MOST_ASKED", 20):
            self.assertEqual(view(session, "hub", 1).neighborhood.counts()[KEPT], 40)
        # The first ten are the hub and v20 to v12, with eight edges of the ring.
        with mock.patch("misteluk.page.neighborhood.MOST_ASKED", 19), \
                mock.patch("misteluk.page.neighborhood.MOST_VERTICES", 10), \
                mock.patch("misteluk.page.neighborhood.Looking.reach", lambda it, *_: reached(it)):
            found = view(session, "hub", 1)
        self.assertEqual(str(found), "hub, 1 hop, version 1: 21 vertices; 17 edges among the nearest 10")
        self.assertIn("among the nearest 10 of 21 vertices", found.html)

    def test_something_of_each_is_drawn(self):
        """In turn the heaviest vertex with an edge gone, with a new one, with one that changed, and with none of these."""
        store = self.store(*(f"insert k hub v{it} {it} 1" for it in range(1, 41)))
        first = store.open()
        self.feed(store, *(f"remove k hub v{it}" for it in (3, 4, 5)), "insert k v6 v7 1 1", "insert k hub v40 40 2",
                  "insert k new hub 1 1")
        drawn = []
        for most in range(2, 11):
            reader = Reader(view(first, "hub", 1, beside=store.open(), most=most).html)
            seen = {it["aria-label"] for it in reader.groups(0, "vertex")} - {"hub"}
            drawn.append((seen - set(drawn)).pop())
        self.assertEqual(drawn, ["v5", "v7", "v40", "v39", "v4", "v6", "v38", "v3", "new"])
        self.assertIn("in turn those with an edge gone, with a new one, with one that changed", reader.texts["notes"])

    def test_an_edge_goes_around_other_vertices(self):
        """Three vertices in a row: an edge from the first to the last would seem to be two."""
        session = self.store("insert k a b 1 1", "insert k a c 1 1", "insert k c a 2 1").open()
        with mock.patch("misteluk.page.drawing.place", return_value=[(340.0, 270.0), (100.0, 270.0), (580.0, 270.0)]):
            drawing = Drawing(view(session, "b", 2).neighborhood)
        self.assertEqual(drawing.names, ["b", "a", "c"])
        curves = [drawing.curves[("k", *ends)] for ends in (("a", "c"), ("c", "a"))]
        for it in curves:
            self.assertGreater(min((x - 340) ** 2 + (y - 270) ** 2 for x, y in it.points), drawing.radii[0] ** 2)
        self.assertNotEqual(curves[0].points, curves[1].points[::-1])
        straight = curve((100.0, 270.0), (580.0, 270.0), (6.0, 6.0), 0.0)
        self.assertEqual({round(y, 6) for _, y in straight.points}, {270.0})
        bent = curve((10.0, 20.0), (130.0, 20.0), (9.0, 6.0), 22.5)  # (from its ends to (70, -25) a triangle has sides 3 : 4 : 5)
        self.assertEqual(bent[:2], ("M18.0 14.0Q70.0 -25.0 118.5 11.4", "M123.6 15.2L115.2 13.1L119.2 7.7Z"))
        self.assertEqual(bent.points[0], (70.0, -2.5))

    def test_texts_stay_texts(self):
        """Names with markup, quotes and other letters are seen as they are, in texts alone; signs that aren't seen as escapes."""
        store = self.store()
        for it in (*ODD, "line\nbreak", "\u202eevil"):
            store.insert("<kind>", "hub & co", it, 1)
        store.insert("other", "hub & co", "x", 1)
        store.commit()
        page = view(store.open(), "hub & co").html
        reader = Reader(page)
        self.assertEqual({row[1] for row in rows_of(reader, "edges")}, {*ODD, "x", "'line\\nbreak'", "'\\u202eevil'"})
        self.assertEqual({row[2] for row in rows_of(reader, "edges")}, {"<kind>", "other"})
        self.assertEqual((reader.elements["script"], reader.elements["style"], reader.elements.get("b", 0)), (1, 1, 0))
        self.assertNotIn("http:", page.replace("http-equiv", ""))
        self.assertNotIn("https:", page)
        self.assertIn("default-src 'none'", page)

    def test_the_same_page_each_time(self):
        """Also from another process, whose hashes are others."""
        code = ("import random, sys; from misteluk import Store, view; random.seed(3)\n"
                "with Store() as store:\n"
                "    for it in range(120): store.insert('k', f'v{random.randrange(40)}', f'v{random.randrange(40)}', it)\n"
                "    store.commit(); first = store.open(); store.insert('k', 'v1', 'new', 1); store.remove('k', 'v1', 'v2')\n"
                "    store.commit(); sys.stdout.write(view(first, 'v1', 2, beside=store.open()).html)\n")
        made = [subprocess.run([sys.executable, "-c", code], stdout=subprocess.PIPE, check=True, cwd=HERE.parent, timeout=60,
                               env={**os.environ, "PYTHONHASHSEED": seed}).stdout for seed in ("1", "2")]
        self.assertEqual(made[0], made[1])
        self.assertGreater(len(made[0]), 20_000)

    def test_saved_whole_or_not_at_all(self):
        found = view(self.pair(BEFORE, AFTER)[0], "funnel")
        path = self.room / "page.html"
        found.save(path)
        self.assertEqual(path.read_text(encoding="utf-8"), found.html)
        path.write_text("old")
        with mock.patch("os.replace", side_effect=OSError(28, "No space left on device")):
            self.assertRaises(OSError, found.save, path)
        self.assertEqual((path.read_text(), os.listdir(self.room)), ("old", ["page.html"]))
        self.assertRaises(FileNotFoundError, found.save, self.room / "none/page.html")

    def test_a_notebook(self):
        found = view(self.pair(BEFORE, AFTER)[0], "funnel")
        shown = found._repr_html_()
        inside = re.fullmatch(r'<iframe srcdoc="([^"]*)" sandbox="allow-scripts" .*></iframe>', shown, re.S)
        self.assertEqual(html.unescape(inside[1]), found.html)
        self.assertEqual(repr(found), "<View of funnel, 2 hops, version 1: 5 vertices; 4 edges>")


class Layouts(unittest.TestCase):
    def test_places(self):
        """60 vertices of a random tree: all within the picture, no two on one place, few labels without room."""
        random_ = random.Random(5)
        hops, pairs = [0], []
        for it in range(1, 60):
            other = random_.choice([at for at in range(it) if hops[at] < 2])
            hops.append(hops[other] + 1)
            pairs.append((other, it))
        order = sorted(range(60), key=lambda it: hops[it])
        number = {it: at for at, it in enumerate(order)}
        at = place([hops[it] for it in order], [(number[a], number[b]) for a, b in pairs])
        self.assertTrue(all(0 <= x <= WIDTH and 0 <= y <= HEIGHT for x, y in at))
        nearest = min((a[0] - b[0]) ** 2 + (a[1] - b[1]) ** 2 for i, a in enumerate(at) for b in at[:i])
        self.assertGreater(nearest, 14 ** 2)
        found, _ = labels(at, [6.0] * 60, [f"account {it}" for it in range(60)])
        self.assertLess(sum(it is None for it in found), 4)

    def test_a_label_without_room_is_within(self):
        """Where it stands while its vertex is pointed at, no border cuts it: at each corner, and at each side."""
        for text in ("WWWWWWWWWWWWWWWWWWWWWW", "MUELLER & SOEHNE GMBH", "account 17"):
            for at in ((74.0, 30.0), (606.0, 30.0), (74.0, 510.0), (606.0, 510.0), (340.0, 30.0), (74.0, 270.0)):
                it = label_within(at, 9.0, text)
                wide = {"W": 11.4, "M": 10.0}.get(text[0], 6.7) * (22 if text[0] == "W" else 0.85 * len(text))
                left = it.x - {"start": 0.0, "middle": wide / 2, "end": wide}[it.anchor]
                self.assertTrue(0 <= left and left + wide <= WIDTH and 10 <= it.y <= HEIGHT, (text, at, it))

    def test_few(self):
        for count in (1, 2, 3):
            at = place([0, 1, 1][:count], [(0, it) for it in range(1, count)])
            self.assertEqual(len(set(at)), count)


if __name__ == "__main__":
    unittest.main()
