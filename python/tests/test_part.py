"""A part: what it answers beside a store of its own, where it is made again, and on the workers of a cluster, one of which is
killed amid questions; and the examples of docs/PYTHON.md ("Many graphs")."""
import copy
import doctest
import logging
import os
import pathlib
import pickle
import random
import signal
import tempfile
import unittest
from unittest import mock
import warnings
from collections import defaultdict

from support import TOP, Case, optional

import misteluk
from misteluk import BadRows, Columns, Part, Store, Units
from misteluk.errors import BadWeight, NoAnswer, OverLimit, Place, PoolEmpty
from misteluk.errors import Missing, refusal

os.environ.setdefault("DASK_DISTRIBUTED__WORKER__MULTIPROCESSING_METHOD", "forkserver")  # (in a third of the time)
PARTS, ROWS, WORKERS = 40, 1_500, 4
HOW = {"by": "add", "columns": Columns(1, 2, weight=3, time=4), "units": Units(weight_scale=100, times="iso")}
PAGE, ADDRESS = TOP / "docs/PYTHON.md", "tcp://scheduler:8786"


def made_rows():
    """Rows by bank, of names of any signs."""
    source, found = random.Random(11), defaultdict(list)
    people = ["ana", "ben, the elder", "Иванов Пётр", "cyd", "~~aaaaaaaaaaaaaaaaaaaa", "dan", "a\ttab", "fay"]
    for at in range(ROWS):
        bank = f"Банк {at % PARTS}" if at < PARTS else f"Банк {source.randrange(PARTS)}"
        found[bank].append((source.choice(people), source.choice(people), f"{source.randrange(10_000) / 100:.2f}",
                            f"2024-03-{source.randrange(1, 29):02}"))
    return dict(found)


def tables(session):
    """All tables, levels from the first name, and all edges."""
    degrees = session.degrees()
    asked = [degrees, session.components(), session.cores(), session.weights_in(), session.levels(next(iter(degrees)))]
    late = session.degrees(since="2024-03-15").to_dict()
    return session.version, [list(it.items()) for it in asked], list(session.edges()), late


def alone(rows):
    """What one store answers."""
    with Store() as store:
        store.load(rows, **HOW)
        with store.open() as session:
            return tables(session)


def killed_once(session, mark):
    """The tables; before the first of those that are asked so, the process is killed that has it."""
    try:
        pathlib.Path(mark).touch(exist_ok=False)
    except FileExistsError:
        return tables(session)
    os.kill(os.getpid(), signal.SIGKILL)


def place_of(session):
    """Where a part is, and which store there."""
    return os.getpid(), id(session.store)


class Parts(Case):
    def test_how_a_part_is_made(self):
        """It shows no progress, unless that is said; and its store is closed where the load fails."""
        for given, is_shown in (({}, False), ({"progress": True}, True)):
            with mock.patch("misteluk.part.Store") as made:
                Part("data", {"seats": 3}, by="set", **given)
                made.assert_called_once_with(seats=3)
                made.return_value.load.assert_called_once_with("data", by="set", progress=is_shown)
                made.return_value.load.side_effect, made.return_value.close = KeyError, mock.Mock()
                try:
                    Part("data", by="set")
                except KeyError:  # (the part is there still, with the frame that it was made in)
                    self.assertEqual(made.return_value.close.call_count, 1)
                else:
                    self.fail("a load that fails makes a part")

    def part(self, *given, **named):
        part = Part(*given, **named)
        self.addCleanup(part.close)
        return part

    def test_its_answers_are_a_store_s(self):
        rows = next(iter(made_rows().values()))
        part = self.part(rows, **HOW)
        self.assertEqual(part.ask(tables), alone(rows))
        self.assertEqual(list(part.ask("edges")), alone(rows)[2])
        self.assertEqual(part.ask(lambda session, name, more: session.degrees()[name].out + more, "ana", more=5),
                         dict(alone(rows)[1][0])["ana"].out + 5)
        self.assertRaises(misteluk.NoVertex, part.ask, "levels", "nobody")
        self.assertEqual((repr(part), part.loaded.commit.batches), (f"<Part of {part.loaded.survey}>", 1))

    def test_a_copy_is_another_store_of_the_same_rows(self):
        part = self.part([("a", "b", "0.50")], {"units": Units(decimals="float")}, by="add", units=Units(weight_scale=100))
        for again in (pickle.loads(pickle.dumps(part)), copy.copy(part)):
            self.addCleanup(again.close)
            self.assertIsNot(again.session.store, part.session.store)
            self.assertEqual(again.ask("edge", "link", "a", "b").weight, 0.5)

    def test_its_size_grows_with_its_store(self):
        few, many = (self.part([(f"a{it}", "b") for it in range(count)], by="set") for count in (10, 1_000))
        self.assertEqual([it.__sizeof__() for it in (few, many)], [10 * 1_024 + 11 * 100, 1_000 * 1_024 + 1_001 * 100])

    def test_it_ends_with_itself(self):
        with warnings.catch_warnings():
            warnings.simplefilter("error", ResourceWarning)
            part = self.part([("a", "b")], by="set")
            store = part.session.store
            del part
            self._cleanups.pop()
            self.assertTrue(store.is_closed)
        with self.assertRaises(BadRows):
            Part([("a", "")], by="set")

    def test_each_error_comes_through_a_pickle(self):
        place = Place("a.csv", 3)
        bad = refusal("BadWeight", "text", place=place)
        for it in (bad, PoolEmpty(needed=3, free=2, place=place), BadRows("a.csv", 1, 2, [bad], {"BadWeight sum": 1}),
                   OverLimit("text", {"rows": 3}), NoAnswer("text"), Missing("pandas", "a frame"), refusal("New", "text")):
            again = pickle.loads(pickle.dumps(it))
            self.assertEqual((type(again), str(again), again.args), (type(it), str(it), it.args))
            self.assertEqual(*({key: str(value) for key, value in vars(one).items()} for one in (again, it)))
        self.assertIsInstance(pickle.loads(pickle.dumps(bad)), BadWeight)


@unittest.skipUnless(optional("distributed"), "distributed is not there")
class Clusters(Case):
    @classmethod
    def setUpClass(cls):
        import dask
        from distributed import Client, LocalCluster
        settings = dask.config.set({"distributed.scheduler.work-stealing": False, "distributed.comm.timeouts.connect": "60s"})
        settings.__enter__()
        cls.addClassCleanup(settings.__exit__, None, None, None)
        folder = tempfile.TemporaryDirectory()
        cls.addClassCleanup(folder.cleanup)
        cluster = LocalCluster(n_workers=WORKERS, threads_per_worker=1, dashboard_address=None, silence_logs=logging.CRITICAL,
                               local_directory=folder.name)
        cls.addClassCleanup(cluster.close)
        cls.client = Client(cluster)
        cls.addClassCleanup(cls.client.close)
        cls.address = cluster.scheduler_address

    def asked(self, parts, *question):
        return self.client.gather({it: self.client.submit(Part.ask, part, *question, pure=False) for it, part in parts.items()})

    def test_one_of_four_workers_is_killed_amid_questions(self):
        rows = made_rows()
        parts = {bank: self.client.submit(Part, it, **HOW) for bank, it in rows.items()}
        wanted = {bank: alone(it) for bank, it in rows.items()}
        self.assertEqual(self.asked(parts, tables), wanted)
        places = self.asked(parts, place_of)
        self.assertEqual(len({it[0] for it in places.values()}), WORKERS)
        self.assertEqual(self.asked(parts, place_of), places)  # (they stay loaded)
        found = self.asked(parts, killed_once, str(self.room / "mark"))
        self.assertTrue((self.room / "mark").exists())
        self.assertEqual(found, wanted)
        later = self.asked(parts, place_of)
        lost = {places[it][0] for it in parts if later[it] != places[it]}
        self.assertEqual(len(lost), 1)
        self.assertEqual({it for it in parts if places[it][0] in lost}, {it for it in parts if later[it] != places[it]})

    @unittest.skipUnless(optional("pandas"), "pandas is not there")
    def test_the_page_s_examples(self):
        text = PAGE.read_text(encoding="utf-8").partition("\n## Many graphs\n")[2].partition("\n## ")[0]
        self.assertEqual(self.run_examples(text), 12)
        self.assertRaises(AssertionError, self.run_examples, text.replace("    4\n", "    5\n"))

    def run_examples(self, text):
        """Runs what stands behind >>> in a text, at the top of the repository, and returns how many such lines there were."""
        here, told = os.getcwd(), []
        os.chdir(TOP)
        self.addCleanup(os.chdir, here)
        examples = doctest.DocTestParser().get_doctest(text.replace(ADDRESS, self.address), {}, PAGE.name, str(PAGE), 0)
        runner = doctest.DocTestRunner(optionflags=doctest.IGNORE_EXCEPTION_DETAIL | doctest.ELLIPSIS)
        done = runner.run(examples, out=told.append)
        self.assertEqual(done.failed, 0, "".join(told))
        return done.attempted


if __name__ == "__main__":
    unittest.main()
