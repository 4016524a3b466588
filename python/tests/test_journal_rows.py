"""What a store's file does apart from SQLite, in rows: who sent what, when a compaction is due, how batches are written."""
import contextlib
import datetime
import unittest
from unittest import mock

from support import Case

from misteluk import Limits
from misteluk.engine.interface import Code
from misteluk.engine.operations import Operations, Post
from misteluk.errors import JournalFault, NoMemory, SequenceTaken, StoreError
from misteluk.feeds.steps import FeedMark, FeedPlace
from misteluk.journal import beside, scripts
from misteluk.journal.beside import Beside
from misteluk.journal.opening import make_engine
from misteluk.journal.passing import Passing
from misteluk.journal.recovery import State
from misteluk.journal.replica import Added, Copy
from misteluk.journal.sources import Sources
from misteluk.journal.tables import Settings, Written
from misteluk.values.answers import Commit

HOUR = 3_600.0


class Sent(Case):
    """Who sent what, without a file."""

    FIRST, OTHER = Commit(1, 1, 0, 0, 0, 0), Commit(2, 0, 1, 0, 0, 0)

    def written(self, version, records, producer=None, sequence=None, feeder=None, feed=None):
        return Written(version, 0, 1, records, None, 0, producer, sequence, feeder, feed)

    def test_numbers(self):
        for number in (0, 1, 7):
            sources = Sources()
            self.assertIsNone(sources.first_answer(Post("a", number), None, b"x"))
            sources.take(self.written(1, b"x", "a", number), self.FIRST)
            for records in (b"x", None):
                self.assertEqual(sources.first_answer(Post("a", number), None, records), self.FIRST)
            for post in (Post("a", number + 1), Post("b", number), Post("b", 0)):
                self.assertIsNone(sources.first_answer(post, None, b"x"), post)
            with self.assertRaisesRegex(SequenceTaken, f"a has sent another batch as {number}$") as caught:
                sources.first_answer(Post("a", number), None, b"y")
            self.assertEqual(caught.exception.last, number)
            if number:
                with self.assertRaisesRegex(SequenceTaken, f"a has sent {number} by now") as caught:
                    sources.first_answer(Post("a", number - 1), None, b"x")
                self.assertEqual(caught.exception.last, number)

    def test_keys(self):
        """One of each who feeds; no number and no producer of this name has to do with it."""
        sources = Sources()
        sources.take(self.written(1, b"x", "one", None, "ana"), self.FIRST)
        sources.take(self.written(2, b"y", "one", None, None), self.OTHER)
        self.assertEqual(sources.first_answer(Post("one", None), "ana", b"x"), self.FIRST)
        self.assertEqual(sources.first_answer(Post("one", None), None, b"y"), self.OTHER)
        for post, feeder in ((Post("one", None), "ben"), (Post("two", None), "ana"), (Post("one", 0), "ana"),
                             (Post("one", 0), None)):
            self.assertIsNone(sources.first_answer(post, feeder, b"x"), (post, feeder))
        with self.assertRaisesRegex(SequenceTaken, "one has sent another batch by this key"):
            sources.first_answer(Post("one", None), "ana", b"z")

    def test_the_last_keys_are_known(self):
        sources = Sources()
        with mock.patch("misteluk.journal.sources.MOST_KEYS", 3):
            for at in range(5):
                sources.take(self.written(at, b"x", f"key {at}"), self.FIRST)
        self.assertEqual([it for _, it in sources.keys], ["key 2", "key 3", "key 4"])

    def test_the_last_files_are_known(self):
        """So many of a path; a number of turn that is missing takes none away."""
        sources = Sources()
        for path, turn in (("/a", 1), ("/b", 1), *(("/a", it) for it in range(2, 19))):
            sources.take(self.written(1, b"x", feed=FeedMark(path, (1, turn), 0, turn=turn).written(FeedPlace())), self.FIRST)
        self.assertEqual(list(sources.feeds), ["1 /b", *(f"{it} /a" for it in range(3, 19))])

    def test_feeds(self):
        """How far each file is in, by the turn in which it was followed."""
        def mark(path, turn, done):
            return FeedMark(path, (1, turn), 0, turn=turn).written(FeedPlace(done=done))
        sources = Sources()
        sources.take(self.written(1, b"x"), self.FIRST)
        self.assertEqual(sources, Sources())
        for version, path, turn, done in ((1, "/a.csv", 1, 5), (2, "/b.csv", 1, 7), (3, "/a.csv", 1, 6), (4, "/a.csv", 2, 1)):
            whose = ("p", 1) if version == 2 else ()
            sources.take(self.written(version, b"x", *whose, feed=mark(path, turn, done)), self.FIRST)
        self.assertEqual(sources.feeds, {"1 /a.csv": mark("/a.csv", 1, 6), "1 /b.csv": mark("/b.csv", 1, 7),
                                         "2 /a.csv": mark("/a.csv", 2, 1)})
        self.assertEqual((list(sources.producers), Sources.read(sources.written())), (["p"], sources))


class Due(unittest.TestCase):
    """When a store compacts its file by itself."""

    def beside(self, history=None, edges=0, since=0.0, behind=0):
        self.made, self.now = [], since
        return Beside(lambda history: self.made.append(history), lambda: edges, history, since, behind)

    def counts(self, it, *operations):
        """How many compactions there were behind each of these batches."""
        found = []
        with mock.patch("time.time", lambda: self.now):
            for count in operations:
                it.grew(count)
                it.join()
                found.append(len(self.made))
        return found

    def test_by_operations(self):
        self.assertEqual(beside.LEAST_OPERATIONS, 250_000)
        self.assertEqual(self.counts(self.beside(), 249_999, 1, 249_999, 1, 1, 249_998, 1), [0, 1, 1, 2, 2, 2, 3])
        self.assertEqual(self.counts(self.beside(edges=300_000), 250_000, 49_999, 1, 299_999, 1), [0, 0, 1, 1, 2])
        self.assertEqual(self.counts(self.beside(edges=10, behind=249_990), 9, 1), [0, 1])

    def test_by_time(self):
        """Behind each quarter of the history, and at most once a minute; never where nothing came in."""
        for history, seconds in ((datetime.timedelta(hours=4), HOUR), (datetime.timedelta(seconds=10), 60.0)):
            it = self.beside(history, since=1_000.0)
            for after, count in ((seconds - 1, 0), (seconds, 1), (seconds + 1, 1), (2 * seconds - 1, 1), (2 * seconds, 2)):
                self.now = 1_000.0 + after
                self.assertEqual(self.counts(it, 1), [count], (history, after))
            self.now += 9 * seconds
            self.assertEqual(self.counts(it, 0, 1), [2, 3])
            self.assertEqual(self.made, [history] * 3)
        it = self.beside(history=5)
        self.now = 1e9
        self.assertEqual(self.counts(it, 1, 1), [0, 0])

    def test_one_at_a_time(self):
        it = self.beside()
        it._thread = mock.Mock()
        it._thread.is_alive.return_value = True
        self.assertEqual(self.counts(it, 250_000), [0])
        it._thread.is_alive.return_value = False
        self.assertEqual(self.counts(it, 1), [1])


class Writers(unittest.TestCase):
    def setUp(self):
        self.engine = make_engine(Limits(), None, 1, False)
        self.addCleanup(self.engine.close)
        self.writer = scripts.Writer(self.engine.library)

    def records_of(self, rows):
        return self.writer.records_of(self.engine.flight(Operations(rows), True))

    def test_room(self):
        """Records that need more room than there is are written too, and the room for the next ones is kept up to a bound."""
        row, text = (0, "k", "a", "b", 1, 1), b"i,k,a,b,1,1\n"
        with mock.patch.multiple(scripts, LEAST_ROOM=20, MOST_ROOM=40):
            self.writer, kept = scripts.Writer(self.engine.library), []
            for count in (1, 2, 4, 3, 1):
                self.assertEqual(self.records_of([row] * count), text * count)
                kept.append(len(self.writer._text))
        self.assertEqual(kept, [20, 24, 24, 36, 36])

    def test_memory_that_is_refused(self):
        """Nothing is written in place of records for which there was no memory."""
        library = mock.Mock()
        library.batch_records.return_value = Code.MEMORY
        flight = self.engine.flight(Operations([(0, "k", "a", "b", 1, 1)]), True)
        self.assertRaises(NoMemory, scripts.Writer(library).records_of, flight)

    def test_records_and_back(self):
        """Each operation, alone and with others, and names that want quotes."""
        insert, add, quoted = (0, "k", "a", "b", -5, 7), (1, "k", "a", "c", 2, 8), (0, "k", 'a"', "b", 1, 1)
        remove, expire = (2, "k", "a", "b", 0, 0), (3, "", "", "", 0, 9)
        like, comma = (0, "r", "x", "i", 3, 4), (1, "x", "r,", "x,", 3, 4)
        tried = [([], b""), ([insert], b"i,k,a,b,-5,7\n"), ([add], b"a,k,a,c,2,8\n"), ([remove], b"r,k,a,b\n"),
                 ([expire], b"x,9\n"), ([like], b"i,r,x,i,3,4\n"), ([comma], b'a,x,"r,","x,",3,4\n'),
                 ([insert, add], b"i,k,a,b,-5,7\na,k,a,c,2,8\n"), ([remove, expire], b"r,k,a,b\nx,9\n"),
                 ([quoted, add], b'i,k,"a""",b,1,1\na,k,a,c,2,8\n'), ([quoted, remove], b'i,k,"a""",b,1,1\nr,k,a,b\n'),
                 ([insert, expire, remove, add], b"i,k,a,b,-5,7\nx,9\nr,k,a,b\na,k,a,c,2,8\n"),
                 ([remove, like, expire], b"r,k,a,b\ni,r,x,i,3,4\nx,9\n")]
        for rows, text in tried:
            self.assertEqual(self.records_of(rows), text)
            self.assertEqual(scripts.operations_of([text]).rows, rows)
        every = [row for rows, _ in tried for row in rows]
        self.assertEqual(scripts.operations_of([text for _, text in tried]).rows, every)
        self.assertRaisesRegex(ValueError, "no records", scripts.operations_of, [b"i,k,a,b,1\n"])


class Phases(Case):
    """What an engine does in two phases, where an interrupt comes between any two steps of them."""

    def setUp(self):
        super().setUp()
        self.engine = make_engine(Limits(), None, 4, False)
        self.addCleanup(self.engine.close)
        self.ready(1)
        self.engine.finish(self.flight)

    def ready(self, weight):
        self.flight = self.engine.flight(Operations([(0, "k", "a", "b", weight, weight)]), True)
        self.engine.begin(self.flight)

    def last(self):
        """The last version that anybody may hold, its edge's weight, and what the engine says of it."""
        with contextlib.closing(self.engine.hold(None)) as held:
            return held.number, held.edge(("k", "a", "b"))[0], self.engine.stat().version

    def test_what_was_decided_is_done(self):
        """By the next call, whichever that is. Before it is decided nobody has the batch."""
        for name, weight in (("desk_finish", 2), ("desk_cancel", 1)):
            for is_made in (False, True):
                self.setUp()
                self.ready(2)
                self.assertEqual(self.last(), (1, 1, 1))
                with mock.patch.object(self.engine.library, name, self.interrupting(name, is_made)), \
                        self.assertRaises(KeyboardInterrupt):
                    self.engine.finish(self.flight) if weight == 2 else self.engine.cancel()
                self.assertEqual(self.last(), (weight, weight, weight), (name, is_made))
                self.assertEqual(self.engine.landed(self.flight), Commit(2, 0, 1, 0, 0, 0) if weight == 2 else None)
                self.engine.cancel()
                self.ready(weight + 1)
                self.assertEqual(self.engine.finish(self.flight).version, weight + 1)
                self.assertEqual(self.last(), (weight + 1,) * 3)

    def interrupting(self, name, is_made):
        """A call of the library that is interrupted once, before it is made or behind it."""
        real, left = getattr(self.engine.library, name), [None]

        def call(*given):
            code = real(*given) if is_made or not left else None
            if left:
                left.clear()
                raise KeyboardInterrupt
            return code
        return call

    def test_the_version_of_before_is_let_go(self):
        """Before the batch is accepted, so that the desk makes the next version in its table; what sessions hold of it stays."""
        library, calls = self.engine.library, []
        for is_shared in (False, True):
            self.ready(2)
            held = self.engine.hold(None) if is_shared else None
            with mock.patch.multiple(library, version_free=self.noting(calls, "version_free"),
                                     desk_finish=self.noting(calls, "desk_finish")):
                self.engine.finish(self.flight)
            self.assertEqual(calls, ["version_free", "desk_finish"])
            calls.clear()
        self.assertEqual((held.edge(("k", "a", "b")), held.number, self.last()), ((2, 1, 2), 2, (3, 2, 3)))
        held.close()

    def noting(self, calls, name):
        """A call of the library of which it is noted where its handle has something."""
        real = getattr(self.engine.library, name)
        return lambda handle, *given: (calls.append(name) if handle.at else None, real(handle, *given))[1]

    def test_a_closed_one_decides_nothing(self):
        self.ready(2)
        self.engine.close()
        for call in (self.engine.stat, lambda: self.engine.hold(None)):
            self.assertRaisesRegex(StoreError, "the store is closed", call)


class Engines(unittest.TestCase):
    def test_what_is_passed_on(self):
        """Each call and value of an engine is that of the one within."""
        inner = mock.Mock()
        passing = Passing(inner)
        for name in ("name", "most_blocks", "seats", "grows", "limits", "feeds", "blocks", "open_count", "has_ended",
                     "is_elsewhere", "operations_kept"):
            self.assertIs(getattr(passing, name), getattr(inner, name), name)
        for name in ("seats", "grows", "limits"):
            setattr(passing, name, name)
            self.assertEqual(getattr(inner, name), name)
        for name, *given in (("told",), ("flight", 1, True), ("fly", 2), ("landed", 3), ("stat",), ("collect",), ("hold", 4),
                             ("rebase", 5), ("renew",), ("fit", 1, 2, 3), ("close",)):
            self.assertIs(getattr(passing, name)(*given), getattr(inner, name).return_value, name)
            getattr(inner, name).assert_called_once_with(*given)

    def test_a_copy(self):
        """It takes settings without batches; and nothing of a first one that has less."""
        state = State(make_engine(Limits(), None, 1, False))
        self.addCleanup(state.engine.close)
        copy, settings = Copy(state, Settings()), Settings(weight_scale=100)
        copy.take(Added([], 0, settings))
        self.assertEqual(copy.settings, settings)
        state.version = 3
        self.assertRaisesRegex(JournalFault, "the first has version 2 only, and had 3", copy.take, Added([], 2, Settings()))
        self.assertEqual(copy.settings, settings)
        for versions, newest, lacks in (((), 3, False), ((), 4, True), ((4,), 4, False), ((4, 5), 9, False), ((5,), 5, True)):
            self.assertEqual(copy.lacks(Added([mock.Mock(version=it) for it in versions], newest, settings)), lacks, versions)
        for version in (2, 3):  # (nothing earlier takes its place, nor the same)
            other = State(make_engine(Limits(), None, 1, False), version)
            self.assertRaisesRegex(JournalFault, f"version 4 is missing, .* begins with {version}", copy.become, other, settings)
            self.assertEqual((other.engine.has_ended, copy.state is state), (True, True))


if __name__ == "__main__":
    unittest.main()
