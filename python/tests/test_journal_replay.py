"""A replay of batches as one: it comes to what batches alone come to, tells what is asked again, and stops where one is damaged
or refused."""
import random
import sqlite3
import unittest
from unittest import mock

from journaled import JournalCase, Model, batch, put, told
from support import Case, row

from misteluk import Limits, Store
from misteluk.engine.operations import Operations
from misteluk.engine.protocol import WHOLE, Denied
from misteluk.engine.waiting import WaitingEngine
from misteluk.errors import JournalFault
from misteluk.journal import joining
from misteluk.journal.checking import check
from misteluk.journal.joining import checked, joined, parted
from misteluk.journal.tables import NO_SUM, Written


def written(version, records=b"i,k,a,b,1,1\n", operations=1, drops=0, **whose):
    return Written(version, 0, operations, records, None, drops, whose.get("producer"), whose.get("sequence"),
                   whose.get("feeder"), None)


class Parts(Case):
    """Which batches go in as one."""

    def groups(self, rows, opens=False):
        return [[it.version for it in some] for some in joined(rows, opens)]

    def test_by_size(self):
        self.assertEqual((joining.MOST_JOINED, joining.MOST_OPENED), (16_384, 1_048_576))
        rows = [written(at, operations=count) for at, count in enumerate((3, 4, 4, 9, 20, 1, 7, 1), 1)]
        with mock.patch.multiple(joining, MOST_JOINED=8, MOST_OPENED=11):
            self.assertEqual(self.groups(rows), [[1, 2], [3], [4], [5], [6, 7], [8]])
            self.assertEqual(self.groups(rows, True), [[1, 2, 3], [4], [5], [6, 7], [8]])
        self.assertEqual((self.groups([]), self.groups(rows[:1])), ([], [[1]]))

    def test_what_no_store_opens_with(self):
        """The first batches are together as long as they insert and add; a kind and names like commands are none."""
        plain = b'i,r,x,"r,",1,1\na,x,"x,","r,",2,2\n'
        for text in (b"r,k,a,b\n", b"x,5\n", plain + b"r,k,a,b\n", plain + b"x,5\n" + plain):
            rows = [written(1, plain), written(2, plain), written(3, text), written(4, plain), written(5, text)]
            self.assertEqual(self.groups(rows, True), [[1, 2], [3, 4, 5]], text)
            self.assertEqual(self.groups(rows), [[1, 2, 3, 4, 5]])
            with mock.patch.multiple(joining, MOST_JOINED=1, MOST_OPENED=2):  # (behind it no store is opened)
                self.assertEqual(self.groups(rows[2:], True), [[3], [4], [5]])

    def test_drops_begin_anew(self):
        rows = [written(1, drops=1), written(2), written(3, drops=1), written(4, drops=1), written(5)]
        self.assertEqual(self.groups(rows), [[1, 2], [3], [4, 5]])

    def test_what_is_asked_again(self):
        """The last batch of each producer, and that of each key of each who feeds."""
        rows = [written(1, producer="p", sequence=1), written(2), written(3, producer="q", sequence=0),
                written(4, producer="p", sequence=2), written(5, producer="p"), written(6, producer="p", feeder="ana"),
                written(7), written(8), written(9, producer="q", sequence=7), written(10),
                written(11, producer="p", feeder="ben"), written(12)]
        self.assertEqual([([it.version for it in some], is_asked) for some, is_asked in parted(rows)],
                         [([1, 2, 3], False), ([4], True), ([5], True), ([6], True), ([7, 8], False), ([9], True), ([10], False),
                          ([11], True), ([12], False)])

    def test_a_fault_comes_behind_what_was_read(self):
        def rows():
            yield from (written(1), written(2))
            raise JournalFault("no more")
        found = joined(rows(), False)
        self.assertEqual([it.version for it in next(found)], [1, 2])
        self.assertRaisesRegex(JournalFault, "no more", next, found)

    def test_sums_are_looked_at(self):
        first = written(1).summed(NO_SUM)
        second = written(2).summed(first.sum)
        self.assertEqual(list(checked([first, second], 0, NO_SUM)), [first, second])
        self.assertEqual(list(checked([second], 1, first.sum)), [second])
        for rows, why in (([second], "version 1 is missing, where 2 is there"),
                          ([first._replace(operations=2)], "of version 1 isn't"),
                          ([second._replace(version=1)], "of version 1 isn't"), ([first, first], "version 2 is missing"),
                          ([first, written(2).summed(NO_SUM)], "of version 2 isn't as it was written")):
            self.assertRaisesRegex(JournalFault, why, list, checked(rows, 0, NO_SUM))


class Counted(Case):
    """Operations that count as some batches, in an engine."""

    def test_versions(self):
        """No version is told but the last one; those that come later count on, also where the desk began anew."""
        engine = WaitingEngine(None, 2, False, Limits(batches=3))
        self.addCleanup(engine.close)
        number = 0
        for count in (5, 1, 2, 1, 1, 4):
            operations = Operations([(1, "k", "a", "b", 1, number)])
            operations.batches = count
            done = engine.fly(engine.flight(operations, True))
            number += count
            held = engine.hold(None)
            self.assertEqual((done.version, engine.stat().version, held.number), (number,) * 3)
            held.close()
        self.assertEqual(held.edges(WHOLE).size if held.is_open else 0, 0)
        self.assertEqual(engine.renew().version, number)

    def test_an_interrupt_before_it_is_told(self):
        """Its number is found with it, by whoever asks next."""
        engine = WaitingEngine(None, 2, False)
        self.addCleanup(engine.close)
        operations = Operations([(1, "k", "a", "b", 1, 1)])
        operations.batches = 4
        with mock.patch.object(WaitingEngine, "_receipt", side_effect=KeyboardInterrupt), self.assertRaises(KeyboardInterrupt):
            engine.fly(engine.flight(operations, True))
        held = engine.hold(None)
        self.assertEqual((held.number, engine.stat().version), (4, 4))


class Replays(JournalCase):
    """Batches in a file, replayed in parts of any size, beside the model."""

    SIZES = ((1, 1), (1, 1_000), (50, 90), (130, 1), (16_384, 1 << 20))

    def all_ways(self, wanted, **options):
        """Opens the file by parts of each size, and looks at what it has."""
        found = []
        for joins, opens in self.SIZES:
            with mock.patch.multiple(joining, MOST_JOINED=joins, MOST_OPENED=opens):
                with self.opened(**options) as store:
                    self.assertEqual(told(store), wanted, (joins, opens))
                    found.append((row(store.file.recovered)[:3], store._engine.state.sources))
                self.assertEqual(check(self.path).faults, [])
        self.assertEqual([it for it in found if it != found[0]], [])
        return found[0][1]

    def test_batches_of_each_sort(self):
        """Removals and expiries, names that want quotes; with numbers of two producers, keys and without them."""
        for seed in range(4):
            self.path, chance = str(self.room / f"{seed}.db"), random.Random(seed)
            answers = {}
            with self.opened() as store:
                for number in range(1, 45):
                    whose = chance.choice(({}, {"producer": chance.choice("pq"), "sequence": number}))
                    answers[whose.get("producer")] = put(store, batch(number), **whose)
                    if number == 31 and seed % 2:
                        store.file.compact(history=5)
            sources = self.all_ways(Model().upto(44).told())
            self.assertEqual({it: sources.producers[it].commit for it in sources.producers},
                             {it: done for it, done in answers.items() if it})
            for version in (0, 1, 30, 43)[2 * (seed % 2):]:
                with Store.at(self.path, version=max(version, 31 * (seed % 2))) as then:
                    self.assertEqual(told(then), Model().upto(max(version, 31 * (seed % 2))).told())

    def plain(self, number):
        return [it for it in batch(number) if it[0] in ("insert", "add")]

    def test_a_store_opens_with_insertions(self):
        """As far as they go, and each producer's last batch alone, whose answer is asked again."""
        model, done = Model(), []
        with self.opened() as store:
            for number in range(1, 21):
                done.append(put(store, self.plain(number), **({"producer": "p", "sequence": number} if number < 9 else {})))
                model.apply(self.plain(number))
        with mock.patch.object(WaitingEngine, "flight", autospec=True, side_effect=WaitingEngine.flight) as flights:
            sources = self.all_ways(model.told())
        opened = [it.args[1].opens for it in flights.call_args_list if it.args[1].opens]
        self.assertEqual(sources.producers["p"].commit, done[7])
        self.assertEqual((max(opened), min(opened)), (7, 1))

    def test_the_first_batch_is_asked_again(self):
        """Its answer is that of a batch, though the store opened with it."""
        with self.opened() as store:
            rows = [("add", "k", "a", "b", 2, 5), ("insert", "k", "a", "c", 1, 1), ("add", "k", "a", "b", 3, 4)]
            done = put(store, rows, producer="p", sequence=1)
        self.assertEqual(row(done)[:7], (1, 2, 1, 0, 0, 0, 1))
        with self.opened() as store:
            self.assertEqual(store.commit(producer="p", sequence=1), done)
            self.assertEqual(told(store)[1], {("k", "a", "b"): (5, 5, 4), ("k", "a", "c"): (1, 1, 1)})

    def test_amounts_that_overflow(self):
        """No store opens with them, since an opening counts none."""
        with self.opened(limits=Limits(weight=10)) as store:
            for number in range(1, 6):
                done = put(store, [("add", "k", "a", "b", 4, number), ("insert", "k", "a", f"c{number}", 11, 1)],
                           producer="p", sequence=number)
        self.assertEqual((done.overflowed, done.updated), (2, 0))
        edges = {("k", "a", "b"): (8, 1, 2)}
        names = ["a", "b", *(f"c{it}" for it in range(1, 6))]
        self.assertEqual(self.all_ways((5, edges, names, ["k"])).producers["p"].commit, done)

    def test_batches_without_operations(self):
        with self.opened() as store:
            for number in range(1, 7):
                put(store, [("insert", "k", "a", "b", number, number)] if number % 3 == 0 else [])
        self.all_ways((6, {("k", "a", "b"): (6, 3, 6)}, ["a", "b"], ["k"]))

    def test_one_that_is_refused(self):
        """Which one is told, and those before it are in."""
        with self.opened() as store:
            for number in range(1, 6):
                put(store, [("insert", "k", "a", f"b{number}", 1, 1)])
        fly = WaitingEngine.fly

        def refusing(engine, flight):
            if any(it[3] == "b4" for it in flight.batch.rows):
                raise Denied("PoolEmpty")
            return fly(engine, flight)
        with mock.patch.object(WaitingEngine, "fly", refusing):
            with self.assertRaisesRegex(JournalFault, r"the batch of version 4 is refused \(PoolEmpty\)") as caught:
                Store(self.path)
            self.assertEqual(caught.exception.whole, 3)
            with Store.at(self.path, version=3) as then:
                self.assertEqual(told(then)[:1] + tuple(told(then)[2:]), (3, ["a", "b1", "b2", "b3"], ["k"]))

    def test_a_damage_amid_batches_that_go_in_as_one(self):
        """The versions before it can be had."""
        self.fed(9).close()
        opened = sqlite3.connect(self.path)
        opened.execute("UPDATE batches SET at=at+1 WHERE version=6")
        opened.commit()
        opened.close()
        for joins, opens in self.SIZES:
            with mock.patch.multiple(joining, MOST_JOINED=joins, MOST_OPENED=opens):
                with self.assertRaisesRegex(JournalFault, "the batch of version 6 isn't") as caught:
                    Store(self.path)
                self.assertEqual(caught.exception.whole, 5)
        with Store.at(self.path, version=5) as then:
            self.assertEqual(told(then), Model().upto(5).told())

    def test_kinds_and_names_of_a_base(self):
        """Kinds without an edge, loops of the first vertex, names that came in another order than their edges stand."""
        rows = [("insert", "k0", "a", "z", 5, 9), ("insert", "k1", "a", "a", 7, 3), ("add", "k1", "a", "a", 1, 8),
                ("insert", "k2", "q", "a", 1, 1), ("insert", "k3", "b", "b", 2, 2), ("remove", "k2", "q", "a", 0, 0),
                ("insert", "k0", "a", "a", 3, 4)]
        model = Model()
        with self.opened() as store:
            put(store, rows)
            store.file.compact(history=0)
            put(store, [("insert", "k2", "a", "a", 1, 1), ("remove", "k1", "a", "a", 0, 0)])
        model.apply(rows)
        model.apply([("insert", "k2", "a", "a", 1, 1), ("remove", "k1", "a", "a", 0, 0)])
        with self.opened() as store:
            self.assertEqual((store.file.recovered.base, told(store)), (1, model.told()))
        with Store.at(self.path, version=1) as then:
            one = Model()
            one.apply(rows)
            self.assertEqual(told(then), one.told())


if __name__ == "__main__":
    unittest.main()
