"""What an answer gives out changes neither the version that a session holds, nor another answer: everything that each answer
has is written to, and then all is asked again."""
import asyncio
import operator
import pickle
import unittest
import warnings
from array import array
from collections.abc import Iterator, Mapping
from datetime import date
from decimal import Decimal

from asking import LATER, NEED, NO_ANSWERS, ROWS, awaited, calls, plain
from serving import ServeCase
from support import Case, optional

import misteluk
from misteluk import Units
from misteluk.values.arrays import ReadOnlyArray

numpy, pandas, igraph, networkx = map(optional, ("numpy", "pandas", "igraph", "networkx"))
# How deep in an answer is what is written to.
DEEPEST = 5
# What is asked again after each call.
AGAIN = {"edges": (), "degrees": (), "components": (), "successors": ("a",), "predecessors": ("a",)}
# What networkx raises where a graph can't be changed.
FROZEN = (networkx.NetworkXError,) if networkx else ()
PLAIN = (str, int, float, bytes, Decimal, date, type(None), slice)


def is_ours(it):
    return type(it).__module__.startswith("misteluk.") and not (networkx and isinstance(it, networkx.Graph))


class Writer:
    """Writes to everything that a value has, and counts what it could change: its items and public attributes, what its public
    methods give that need no argument, and the memory that it shows."""

    def __init__(self):
        self.changed, self._seen = 0, {}

    def tried(self, change, *given):
        try:
            change(*given)
        except (TypeError, ValueError, LookupError, AttributeError, BufferError, NotImplementedError, *FROZEN):
            return
        self.changed += 1

    def write(self, it):
        with warnings.catch_warnings():
            warnings.simplefilter("ignore")
            self._write(it, 0)

    def _write(self, it, deep):
        if isinstance(it, PLAIN) or callable(it) or id(it) in self._seen or deep > DEEPEST:
            return
        self._seen[id(it)] = it
        for part in [*self.own(it), *self.items(it, deep), *self.of_packages(it)]:
            self._write(part, deep + 1)
        if hasattr(it, "indptr"):  # (its arrays are written to, and no call of it can bear that)
            return
        if numpy and isinstance(it, numpy.ndarray):
            self.tried(it.setflags, True)
        if getattr(it, "dtype", None) != object:  # (whose memory are addresses)
            self.tried(lambda: operator.setitem(memoryview(it).cast("B"), slice(None), b"\1" * memoryview(it).nbytes))
        for value in (77, "changed"):
            self.tried(operator.setitem, it, next(iter(it), 0) if isinstance(it, Mapping) else 0, value)
        for name, given in (("append", ("changed",)), ("reverse", ()), ("clear", ())):
            self.tried(lambda call=name, more=given: getattr(it, call)(*more))
        for name in self.names(it):
            self.tried(setattr, it, name, None)

    def names(self, it):
        return [name for name in dir(it) if not name.startswith("_")] if is_ours(it) else []

    def own(self, it):
        """What a value of this package has, and what it gives."""
        for name in self.names(it):
            part = getattr(it, name)
            try:
                yield part() if callable(part) else part
            except (TypeError, AttributeError, misteluk.errors.Missing, *FROZEN):  # (it needs an argument, or a package)
                pass

    def items(self, it, deep):
        if isinstance(it, Mapping):
            yield from it.values()
        elif isinstance(it, (list, tuple, Iterator)) or is_ours(it) and hasattr(it, "__getitem__"):
            yield from it
        if deep < 2 and is_ours(it) and hasattr(it, "__getitem__") and not isinstance(it, (Mapping, tuple)):
            yield it[:2]

    def of_packages(self, it):
        """What values of other packages have, and what they make of these."""
        if isinstance(it, memoryview):
            yield it.obj
        if numpy and isinstance(it, (ReadOnlyArray, array, memoryview)):
            yield numpy.asarray(it)
        if numpy and isinstance(it, numpy.ndarray):
            yield from (it.base, it.data) if it.dtype.kind in "iu" else (it.base,)
        if pandas and isinstance(it, pandas.DataFrame):
            yield from (part for name in it for part in (it[name].array, it[name].to_numpy()))
        if hasattr(it, "indptr"):
            yield from (it.data, it.indices, it.indptr)
        if networkx and isinstance(it, networkx.Graph):
            yield from (it.graph, it._node, it._adj, it._pred)
        if igraph and isinstance(it, igraph.Graph):
            yield from (graph[name] for graph in (it.vs, it.es) for name in graph.attributes())


def asked_by(session):
    return lambda call, *given: call(session, *given)


class Asking:
    """What cases share that ask all."""

    def all_told(self, ask, but=()):
        """All answers of a session as plain values."""
        return {name: plain(ask(call, *given)) for name, call, given in calls(str(self.room / "edges.csv")) if name not in but}

    def wrong(self, open_, ask_of=asked_by):
        """What isn't as it was once answers were written to: those of a session that has answered all, and in a session of its
        own the first answer of each call."""
        session, given_of, found = open_(), calls(str(self.room / "edges.csv")), []
        ask, writer = ask_of(session), Writer()
        wanted = self.all_told(ask)
        for name, call, given in given_of:
            writer.write(ask(call, *given))
        for asked in (ask, ask_of(open_())):
            again = self.all_told(asked)
            found += [it for it in wanted if again[it] != wanted[it]]
        for name, call, given in given_of:
            with open_() as other:
                writer.write(call(other, *given))
                found += [(name, it) for it in AGAIN if plain(getattr(other, it)(*AGAIN[it])) != wanted[it]]
        self.assertGreater(writer.changed, 100)
        return found


class ReadOnly(Asking, Case):
    def test_each_call_is_tried(self):
        """What a session is asked for is tried here, or is no answer."""
        names = {it for it in dir(self.store(*ROWS).open()) if not it.startswith("_")}
        tried = {it for it, *_ in calls("")}
        self.assertEqual(names - tried - NO_ANSWERS, {it for it, package in NEED.items() if not optional(package)})

    def test_answers_of_a_store(self):
        self.assertEqual(self.wrong(self.store(*ROWS, seats=3).open), [])
        store = self.store(units=Units(weight_scale=10), seats=3)
        for it in ROWS:
            store.add(*it.split()[1:4], it.split()[4], int(it.split()[5]))
        store.commit()
        self.assertEqual(self.wrong(store.open), [])

    def test_what_is_saved_and_begun_anew(self):
        """All answers are written to, and then the version is saved, restored, copied to a store that begins anew."""
        but = "diff", "view"  # (they name the version's number)
        store = self.store(*ROWS, seats=3)
        session, others = store.open(), self.store(*ROWS).open()
        wanted = self.all_told(asked_by(others), but)
        self.feed(store, *LATER)
        for _, call, given in calls(str(self.room / "edges.csv")):
            Writer().write(call(session, *given))
        Writer().write(session.diff(store.open()))
        session.save(self.room / "saved.csv")
        with misteluk.Store.restore(self.room / "saved.csv") as restored:
            self.assertEqual(self.all_told(asked_by(restored.open()), but), wanted)
        store.compact(session)
        self.assertEqual(self.all_told(asked_by(store.open()), but), wanted)


class OfServers(Asking, ServeCase):
    def test_answers_of_a_server_s_store(self):
        self.fed(*(["add", *it.split()[1:4], *map(int, it.split()[4:])] for it in ROWS))
        with misteluk.connect(self.server.url) as store:
            self.assertEqual(self.wrong(store.open), [])
            loop = asyncio.new_event_loop()
            self.addCleanup(loop.close)
            self.assertEqual(self.wrong(store.open, lambda it: awaited(misteluk.AsyncSession(it), loop)), [])


class Arrays(Case):
    def test_an_array_is_read_as_before(self):
        for code, numbers in (("q", [5, -7, 9, 5]), ("I", [1, 2]), ("Q", [1 << 63]), ("q", [])):
            one, same = array(code, numbers), ReadOnlyArray(array(code, numbers))
            with self.subTest(code=code, numbers=numbers):
                self.assertEqual((list(same), len(same), same.tolist(), same.tobytes(), same.typecode, same.itemsize),
                                 (numbers, len(numbers), numbers, one.tobytes(), code, one.itemsize))
                self.assertEqual((same == one, same == ReadOnlyArray(one), same != one, same == numbers, one == same),
                                 (True, True, False, False, True))
                self.assertFalse(same == array(code, [*numbers, 1]))
                for at in (slice(None), slice(1, 3), slice(None, None, -1), slice(-1, None)):
                    self.assertEqual((type(same[at]), list(same[at])), (ReadOnlyArray, numbers[at]))
                self.assertEqual([same[at] for at in range(-len(numbers), len(numbers))], numbers * 2)
                self.assertEqual(list(reversed(same)), numbers[::-1])
                self.assertEqual((5 in same, same.count(5)), (5 in numbers, numbers.count(5)))
                copy = pickle.loads(pickle.dumps(same))
                self.assertEqual((type(copy), copy), (ReadOnlyArray, same))
        self.assertRaises(IndexError, lambda: same[0])
        self.assertRaises(TypeError, hash, same)
        self.assertRaises(TypeError, memoryview, same)

    @unittest.skipUnless(numpy, "numpy is not there")
    def test_numpy_s_views(self):
        """They have the same memory, whose type is the array's, and can't be written to."""
        for code, form in (("q", "int64"), ("I", "uint32"), ("Q", "uint64")):
            for numbers in ([], [3, 4]):
                one = ReadOnlyArray(array(code, numbers))
                found = numpy.asarray(one)
                self.assertEqual((found.dtype.name, found.tolist(), found.flags.writeable), (form, numbers, False))
                self.assertRaisesRegex(ValueError, "WRITEABLE", found.setflags, write=True)
                self.assertRaisesRegex(ValueError, "read-only", found.__imul__, 2)
                self.assertTrue(not numbers or numpy.shares_memory(found, numpy.asarray(one)))
                own = numpy.array(one)
                own *= 2
                self.assertEqual(list(one), numbers)

    def test_answers_go_to_other_processes(self):
        """Edges, tables and arrays are as they were, once they were pickled."""
        session = self.store(*ROWS, units=Units(weight_scale=10)).open()
        for it in (session.edges(), session.degrees(), session.components(), session.edges().weight,
                   session.diff(session)):
            copy = pickle.loads(pickle.dumps(it))
            self.assertEqual((type(copy), plain(copy)), (type(it), plain(it)))

    @unittest.skipUnless(numpy and pandas, "numpy and pandas are not there")
    def test_a_frame_is_the_user_s(self):
        for units in ({}, {"units": Units(weight_scale=10, decimals="float")}, {"units": Units(times="iso")}):
            session = self.store(*(() if units else ROWS), **units).open()
            if units:
                session.store.add("k", "a", "b", 2)
                session.store.commit()
                session = session.store.open()
            with warnings.catch_warnings():
                warnings.simplefilter("error")
                for frame in (session.edges().to_pandas(), session.degrees().to_pandas()):
                    name = next(it for it in frame if it.startswith("weight"))
                    wanted = [it * 2 for it in frame[name]]
                    frame[name] *= 2
                    self.assertEqual(list(frame[name]), wanted)
                    frame.sort_values(name, inplace=True)
                    frame.iloc[0, 0] = frame.iloc[-1, 0]
                    frame.loc[frame[name] > 0, name] = 1
                    frame["more"] = frame[name] + 1
                    frame.drop_duplicates(inplace=True)
                own = session.degrees().to_numpy()["out"]
                own += 1


if __name__ == "__main__":
    unittest.main()
