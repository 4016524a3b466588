"""All edges out by whole columns: each answer is the one that a loop over the edges gives."""
import csv
import io
import itertools
import random
import unittest
from array import array
from contextlib import ExitStack, contextmanager
from datetime import datetime, timedelta, timezone
from unittest import mock

from support import Case, optional

import misteluk
from misteluk.engine import copies, operations, room, scripts
from misteluk.engine.library import LibraryEngine
from misteluk.engine.operations import INSERT, REMOVE, Numbered, records_of
from misteluk.engine.protocol import Arrays
from misteluk.values import diff, edges
from misteluk.values.fields import fields_of_csv
from misteluk.values.units import Units

numpy, pandas = optional("numpy"), optional("pandas")
HAVE_NUMPY = unittest.skipUnless(numpy, "numpy is not there")
NAMES = ("a", 'q"1', "c,2", "~~x", "#", "n", "m", "o", "p", "r", "s")
UNITS = (Units(), Units(weight_scale=100), Units(weight_scale=8, times="iso"),
         Units(weight_scale=100, decimals="float", times="iso"))


@contextmanager
def way(is_fast):
    """Has each module go by columns of numpy, or by loops, however few edges there are."""
    with ExitStack() as stack:
        for it in (copies, operations, room, scripts, edges, diff):
            stack.enter_context(mock.patch.object(it, "numpy_for", lambda count, *_: numpy if is_fast and count else None))
        yield


def both(call):
    """What a call gives by loops, and by columns."""
    found = []
    for is_fast in (False, True):
        with way(is_fast):
            found.append(call())
    return found


def some_content(made, names, kinds):
    """The content of a version with so many names and kinds: some have no edge, and some edges are loops."""
    ends = list(itertools.product(range(kinds), range(names), range(names)))
    found = sorted(made.sample(ends, made.randrange(len(ends) // 2 + 1)), key=lambda it: (it[1], made.random()))
    rows = []
    for it in found:
        first = made.randrange(50)
        rows.append((*it, made.randrange(-9, 9), first, first + made.choice((0, 0, 7))))
    columns = zip(*rows) if rows else ((),) * 6
    return copies.Content([f"k{it}" for it in range(kinds)], [f"{NAMES[it % len(NAMES)]}{it}" for it in range(names)],
                          Arrays(*map(array, "IIIqQQ", columns)))


def some_edges(made, units, count=40, names=6, kinds=("k", "l")):
    """Edges of which each kind, source and target is there once."""
    ends = list(itertools.product(range(len(kinds)), range(names), range(names)))
    found = sorted(made.sample(ends, min(count, len(ends))), key=lambda it: (it[1], made.random()))
    marks = [(made.randrange(-300, 300), at := made.randrange(1, 10 ** 15), at + made.choice((0, 1, 10 ** 6))) for _ in found]
    columns = zip(*(a + b for a, b in zip(found, marks))) if found else ((),) * 6
    return edges.Edges(kinds, tuple(f"{NAMES[it % len(NAMES)]}{it}" for it in range(names)), units,
                       list(map(array, "IIIqQQ", columns)))


class Copies(Case):
    @HAVE_NUMPY
    def test_operations(self):
        made, count = random.Random(3), 0
        for names, kinds in itertools.product((1, 2, 3, 8, 15), (1, 2, 3)):
            for _ in range(12):
                content = some_content(made, names, kinds)
                plain, fast = both(lambda content=content: copies.operations_of(content))
                self.assertEqual(fast[:6], plain[:6])
                self.assertEqual((fast.of_kinds.names, fast.of_names.names), (content.kinds, content.names))
                self.assertEqual([it.typecode for it in fast[:6]], list("BIIIqQ"))
                behind = both(lambda plain=plain: room.Room(plain).behind)
                self.assertEqual(*behind)
                count += REMOVE in plain.codes
        self.assertGreater(count, 40)  # (there were loops)

    @HAVE_NUMPY
    def test_openings(self):
        """Insertions and removals apart are the same by loops and by columns, and a desk that begins with them has it all."""
        made, engine, count = random.Random(4), LibraryEngine(None, 2, False), 0
        self.addCleanup(engine.close)
        for names, kinds in itertools.product((1, 2, 3, 8, 15), (1, 2, 3)):
            for _ in range(8):
                content = some_content(made, names, kinds)
                plain, fast = both(lambda content=content: [it[:6] for it in copies.opening_of(content)])
                self.assertEqual(fast, plain)
                self.assertEqual([it.typecode for it in fast[0]], list("BIIIqQ"))
                count += any(it[1:3] == (0, 0) for it in zip(*content.edges)) and kinds > 1
                for is_fast in (False, True):
                    with way(is_fast):
                        engine.begin_with(content, 3)
                    held = engine.hold(None)
                    found = copies.content_of(held)
                    held.close()
                    self.assertEqual(found._replace(edges=sorted(zip(*found.edges))),
                                     content._replace(edges=sorted(zip(*content.edges))))
        self.assertGreater(count, 20)  # (loops of the first name that are edges, beside other kinds)

    @HAVE_NUMPY
    def test_room_of_any_operations(self):
        """Edges that come and go, more than a block has, and are inserted again."""
        made = random.Random(5)
        for _ in range(30):
            rows, there = [], set()
            for _ in range(made.choice((0, 1, 90, 400))):
                edge = made.choice("kl"), made.choice("ab"), f"t{made.randrange(70)}"
                code = made.choice((INSERT, INSERT, REMOVE)) if edge in there else INSERT
                (there.discard if code == REMOVE else there.add)(edge)
                rows.append((code, *edge, 0, 0))
            plain, fast = both(lambda rows=rows: room.Room(Numbered.of(rows)))
            self.assertEqual(fast.behind, plain.behind)
            for size in (1, 2, 7, 64, 4096):
                wanted = max((plain.behind[at] + min(size, len(rows) - at) for at in range(0, len(rows), size)), default=0)
                self.assertEqual(plain.needed(size), wanted)

    @HAVE_NUMPY
    def test_scripts(self):
        """Records are written as those of rows, and read again; those that aren't plain go line by line."""
        made = random.Random(7)
        for at in range(60):
            content = some_content(made, made.choice((1, 4, 9)), 2)
            if at % 2:
                content = content._replace(names=[f"n{it}" for it in range(len(content.names))])
            operations = copies.operations_of(content)
            text = "".join(f"{scripts.Records(operations).text(slice(at, at + 5))}commit\ncollect\n"
                           for at in range(0, len(operations.codes), 5))
            self.assertEqual(text.replace("commit\ncollect\n", ""), records_of(operations.rows()))
            for it in both(lambda text=text: scripts.operations_in(text)):
                self.assertEqual(it.rows(), operations.rows())
        for text in ("", "i,k,a,b,-5,7\n", "a,k,a,b,1,2\nx,9\n", 'i,k,"a,b",c,1,2\n', f"i,k,a,b,{-2 ** 40},{2 ** 63 - 1}\n",
                     f"r,k,a,b\ncommit\ni,k,a,b,{2 ** 40},{10 ** 18 - 1}\n"):
            plain, fast = both(lambda text=text: scripts.operations_in(text))
            self.assertEqual((fast.rows(), len(fast.codes)), (plain.rows(), text.count(",") and sum(it[1] == "," for it in
                                                                                                text.splitlines())))

    @HAVE_NUMPY
    def test_which_scripts_are_read_at_once(self):
        """Those of insertions and removals alone, without quotes, whose numbers aren't long; and as line by line."""
        for text, is_at_once in (
                ("i,k,a,b,-5,7\n", True), (f"r,k,a,b\ncommit\ncollect\ni,l,c,d,{1 << 40},{10 ** 18 - 1}\n", True),
                ("a,k,a,b,1,2\n", False), ("i,k,a,b,1,2\nx,9\n", False), ('i,k,"a",b,1,2\n', False), ("i,k,a,b,1,2", False),
                ("ii,k,a,b,1,2\n", False), ("i,k,a,b,1\n", False), ("i,k,a,b,1,2,3\n", False), ("r,k,a\n", False),
                ("i,k,\u00e4,b,1,2\n", False), (f"i,k,a,b,1,{10 ** 18}\n", False)):
            found = scripts._operations_at_once(numpy, text)
            self.assertEqual(found and found.rows(), scripts.operations_in(text).rows() if is_at_once else None, text)

    def test_large_batches_restore_the_same(self):
        """In a store that grows they have as many operations as blocks are free, up to 65,536."""
        names = [f"n{it}" for it in range(9_000)]
        store = self.store()
        store.load({"source": names, "target": names[1:] + names[:1]}, by="set")
        with store.open() as session:
            wanted = sorted(session.edges()), list(session.degrees())
            session.save(self.room / "s.csv")
        with misteluk.Store.restore(self.room / "s.csv") as copy, copy.open() as session:
            self.assertEqual((sorted(session.edges()), list(session.degrees())), wanted)


class Written(Case):
    def rows(self, found):
        """The edges as Python's `csv` writes them, one by one."""
        told = io.StringIO()
        write = csv.writer(told, lineterminator="\n").writerow
        write(("kind", "source", "target", "weight", "first", "recent"))
        for kind, source, target, (weight, *times) in found:
            write((kind, source, target, weight, *(it.isoformat() if isinstance(it, datetime) else it for it in times)))
        return told.getvalue()

    def test_csv(self):
        made = random.Random(11)
        for units in UNITS:
            for count in (0, 1, 60):
                found = some_edges(made, units, count)
                with mock.patch.object(edges, "WRITTEN_AT_ONCE", 7):
                    self.assertEqual(found.to_csv(self.room / "e.csv"), count)
                self.assertEqual((self.room / "e.csv").read_text(), self.rows(found))

    def test_fields(self):
        """A name is written as `csv` writes it, whatever is in it."""
        for names in (["a", "b"], ["a,b", 'say "x"', "two\nlines", "back\rwards", " a ", "Ж;", "'", "a"]):
            told = io.StringIO()
            csv.writer(told, lineterminator="\n").writerows([it, ""] for it in names)
            self.assertEqual("".join(f"{it},\n" for it in fields_of_csv(names)), told.getvalue())

    def test_weights_and_times_as_text(self):
        for units in (*UNITS, Units(weight_scale=1 << 40), Units(weight_scale=10 ** 9)):
            weights, times = [0, 1, -1, 7, 100, -250, 1 << 40, -(1 << 40)], [0, 1, 10 ** 6, 1_709_553_600_250_000]
            self.assertEqual(list(units._weights_as_text(weights)), [str(units._weight_to_user(it)) for it in weights])
            self.assertEqual(list(units._times_as_text(times)),
                             [getattr(it, "isoformat", it.__str__)() for it in map(units._time_to_user, times)])


class Differences(Case):
    def pairs(self, made, units):
        """Two versions' edges: with the same names, with more, with others, and with none."""
        yield some_edges(made, units), some_edges(made, units)
        yield some_edges(made, units, names=4, kinds=("k",)), some_edges(made, units, names=7, kinds=("k", "m"))
        yield some_edges(made, units, kinds=("l", "k")), some_edges(made, units, kinds=("k", "z", "l"), names=3)
        same = some_edges(made, units)
        yield same, same
        yield same, same.take([it for it in range(len(same)) if made.random() < 0.8])
        yield same, edges.Edges(same.kinds, same.names[::-1], units, same._columns)
        yield same, some_edges(made, units, 0, names=0, kinds=())
        yield some_edges(made, units, 0), same
        yield some_edges(made, units, 0), some_edges(made, units, 0)

    @HAVE_NUMPY
    def test_places(self):
        made = random.Random(13)
        for earlier, later in itertools.chain.from_iterable(self.pairs(made, UNITS[0]) for _ in range(20)):
            plain, fast = diff.places_of(earlier, later), diff.places_at_once(numpy, earlier, later)
            self.assertEqual([list(it) for it in fast], [list(it) for it in plain])
            one, other = both(lambda earlier=earlier, later=later: diff.Diff(earlier, later))
            for it in ("gone", "new", "before", "after"):
                self.assertEqual(list(getattr(one, it)), list(getattr(other, it)))

    @unittest.skipUnless(numpy and pandas, "numpy and pandas are not there")
    def test_frames(self):
        """They are those that pandas makes of the rows."""
        made = random.Random(17)
        for units in (*UNITS, UNITS[2]):
            for earlier, later in self.pairs(made, units):
                found = diff.Diff(earlier, later)
                wanted = pandas.DataFrame(found._rows(slice(None), None), columns=diff.DIFF_HEADER)
                pandas.testing.assert_frame_equal(found.to_pandas(), wanted, check_index_type=len(wanted) > 0)

    @unittest.skipUnless(numpy and pandas, "numpy and pandas are not there")
    def test_frames_of_dates_that_pandas_has_not(self):
        far = (datetime(9000, 1, 1, tzinfo=timezone.utc) - datetime(1970, 1, 1, tzinfo=timezone.utc)) // timedelta(microseconds=1)
        rows = [array("I", [0, 0]), array("I", [0, 1]), array("I", [1, 0]), array("q", [1, 2]), array("Q", [0, 5]),
                array("Q", [far, 6])]
        one = edges.Edges(("k",), ("a", "b"), UNITS[2], rows)
        for earlier, later in ((one, one.take([1])), (one.take([0]), one), (one.take([1]), one)):
            found = diff.Diff(earlier, later)
            wanted = pandas.DataFrame(found._rows(slice(None), None), columns=diff.DIFF_HEADER)
            pandas.testing.assert_frame_equal(found.to_pandas(), wanted)


if __name__ == "__main__":
    unittest.main()
