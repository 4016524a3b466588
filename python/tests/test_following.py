"""Feeds that are followed: files that grow, pipes, expiry, bad rows, interrupts. What is in is compared with a plain model, and
tests that could miss a fault are made again with one that is planted."""
import os
import random
import signal
import threading
import time
import unittest
from unittest import mock

import interrupting
from interrupting import handler, interrupt_in_a_call, made_at_once, places
from support import Case, as_soon_as, kill

import misteluk
from misteluk import Columns, Store, Units
from misteluk.feeds import calls, following, growing

COLUMNS = Columns(1, 2, weight=3, time=4)
KIND = "link"


class Model:
    """What edges are after rows of source, target, weight and time, and expiries; by plain loops."""

    def __init__(self, rows, by="add", keep=None):
        self.rows, self.by, self.keep = rows, by, keep
        self.edges, self.done, self.newest, self.expired = {}, 0, -1, 0

    def go_to(self, count):
        """Takes the rows up to so many, as one batch."""
        if count == self.done:
            return self
        for source, target, weight, at in self.rows[self.done:count]:
            before = self.edges.get((source, target))
            sum_of = weight + (before[0] if before and self.by == "add" else 0)
            self.edges[source, target] = (sum_of, before[1] if before else at, at)
            self.newest = max(self.newest, at)
        self.done = count
        if self.keep is not None:
            old = [it for it, edge in self.edges.items() if edge[2] < self.newest - self.keep]
            self.expired = len(old)
            for it in old:
                del self.edges[it]
        return self

    def weights(self):
        """The weight that goes out of each vertex that has an edge."""
        sums = {}
        for (source, target), edge in self.edges.items():
            sums[source] = sums.get(source, 0) + edge[0]
            sums.setdefault(target, 0)
        return sums


def some_rows(count, seed=3, names=40):
    """Rows whose times go on, and now and then back."""
    made = random.Random(seed)
    return [(f"s{made.randrange(names)}", f"t{made.randrange(names)}", made.randrange(-5, 30), 1000 + 3 * it + made.randrange(40))
            for it in range(count)]


def text_of(rows):
    return "".join(f"{','.join(map(str, it))}\n" for it in rows)


class Following(Case):
    def follow(self, feed, store=None, **options):
        """A store that follows the feed."""
        found = (store or self.store(blocks=8192, seats=2)).follow(
            feed, **{"by": "add", "columns": COLUMNS, "progress": False, **options})
        self.addCleanup(found.close)
        return found

    def enter(self, file):
        """The file, which is closed at the end."""
        self.addCleanup(file.close)
        return file

    def check(self, step, followed, model):
        """Whether the store has what the model has."""
        model.go_to(step.rows)
        with followed.store.open() as session:
            self.assertEqual(step.commit.version, session.version)
            self.assertEqual(session.get_edges([(KIND, *it) for it in model.edges]), list(model.edges.values()))
        self.assertEqual((followed.store.stat().edges, step.newest), (len(model.edges), model.newest))
        self.assertEqual(step.commit.expired, model.expired)

    def test_a_file_that_grows(self):
        rows = some_rows(600)
        text, path = text_of(rows), self.file("grows.csv", "")
        followed, model, written, seen = self.follow(path, every=0.02), Model(rows), [], threading.Semaphore(0)

        def write():
            made, quarter = random.Random(1), len(text) // 4
            with open(path, "a", newline="") as file:
                while sum(written) < len(text):
                    at = sum(written)
                    written.append(made.randrange(1, 400))
                    file.write(text[at:at + written[-1]])
                    file.flush()
                    time.sleep(0.005)
                    # Each quarter waits for a step more, so that there are four also on a slow machine.
                    if at // quarter < sum(written) // quarter:
                        seen.acquire(timeout=60)
        thread = threading.Thread(target=write)
        thread.start()
        steps = [next(followed)]
        while steps[-1].rows < len(rows):
            seen.release()
            self.check(steps[-1], followed, model)
            steps.append(next(followed))
        seen.release()
        thread.join()
        self.check(steps[-1], followed, model)
        self.assertEqual((steps[-1].line, steps[-1].bad, steps[-1].rows), (600, 0, 600))
        self.assertGreater(len(steps), 3)
        followed.stop()
        self.assertEqual(list(followed), [])

    def test_a_file_s_last_line_is_one_when_it_ends(self):
        path = self.file("half.csv", "a,b,1,1\nb,c,12")
        followed = self.follow(path, every=0.01, columns=Columns(1, 2, weight=3))
        self.assertEqual((next(followed).rows, followed._half_line), (1, True))
        with open(path, "a") as file:
            file.write("34\n")
        self.assertEqual((next(followed).rows, followed._half_line), (2, False))
        with followed.store.open() as session:
            self.assertEqual(session.edge(KIND, "b", "c").weight, 1234)
        (step,) = self.follow(self.file("end.csv", "a,b,1,1\nb,c,12,3"), until_end=True)
        self.assertEqual((step.rows, step.line), (2, 2))

    def test_what_wasn_t_read(self):
        """It is told where it was stopped amid a file or pipe: the line that was cut by the reading is no half one."""
        text = text_of(some_rows(9_000)).encode()
        read, write = os.pipe()
        followed = self.follow(self.enter(os.fdopen(read, "rb")), batch=100)
        few = mock.patch.object(growing, "MOST_READ", 2_001)
        few.start()
        self.addCleanup(few.stop)
        (self.room / "long.csv").write_bytes(text)
        os.write(write, text[:10_000])
        for it in (followed, self.follow(str(self.room / "long.csv"), batch=100)):
            next(it)
            it.stop()
            rows = [step.rows for step in it][-1:] or [100]
            self.assertEqual((it._half_line, it._source.has_unread, rows[0]), (False, True, text[:2_001].count(b"\n")))
            it.close()
            self.assertEqual(it._source.has_unread, False)
        os.close(write)

    def test_expiry(self):
        rows = some_rows(5000)
        for by, keep, batch in (("add", 300, 200), ("set", 900, 333), ("add", 0, 500)):
            followed = self.follow(self.file("old.csv", text_of(rows)), by=by, keep=keep, batch=batch, until_end=True)
            model, expired = Model(rows, by, keep), 0
            for step in followed:
                self.check(step, followed, model)
                expired += step.commit.expired
            self.assertEqual(step.rows, len(rows))
            self.assertGreater(expired, 1000)

    def test_expiry_finds_a_fault(self):
        """A bound that is one too late."""
        real = following.Following._commit

        def late(self):
            self._newest += 1
            try:
                return real(self)
            finally:
                self._newest -= 1
        with mock.patch.object(following.Following, "_commit", late), self.assertRaises(AssertionError):
            self.test_expiry()

    def test_expiry_of_late_rows(self):
        """A row that comes too late goes with its own commit, though the newest time is what it was."""
        rows = [("a", "b", 1, 100), ("c", "d", 1, 50), ("a", "b", 1, 95), ("e", "f", 1, 89), ("a", "b", 1, 20), ("g", "h", 1, 90)]
        followed = self.follow(self.file("late.csv", text_of(rows)), keep=10, batch=2, until_end=True)
        model, steps = Model(rows, "add", 10), []
        for step in followed:
            self.check(step, followed, model)
            steps.append(step.commit.expired)
        self.assertEqual(steps, [0, 1, 0, 1, 1, 0])

    def test_expiry_of_what_a_caller_commits(self):
        """The next commit lets it go, also where the newest time is what it was."""
        rows = [("a", "b", 1, 100), ("c", "d", 1, 100), ("e", "f", 1, 100)]
        followed, steps = self.follow(self.file("late.csv", text_of(rows)), keep=10, batch=2, until_end=True), []
        for step in followed:
            steps.append((step.commit.expired, followed.store.stat().edges))
            followed.store.insert(KIND, "x", f"y{step.rows}", 1, 89)
            followed.store.commit()
        self.assertEqual(steps, [(0, 1), (1, 2), (1, 3)])

    def test_a_late_row_s_expiry_is_sent_once(self):
        """Where a batch with an expiry is refused the next step sends the same one."""
        store, rows = self.store(blocks=16), [("a", "b", 1, 100), *((f"s{it}", f"t{it}", 1, 5) for it in range(16))]
        followed = self.follow(self.file("late.csv", text_of(rows)), store, keep=10, batch=20, until_end=True)
        for _ in range(2):
            self.assertRaises(misteluk.errors.PoolEmpty, next, followed)
            self.assertEqual((store.pending, store._ledger.told_pending.count("x,90\n")), (18, 1))

    def test_batches_are_full(self):
        path = self.file("full.csv", text_of(some_rows(10_000)))
        counts = [it.rows for it in self.follow(path, until_end=True, every="1h")]
        self.assertEqual(counts, [4096, 8192, 10_000])
        counts = [it.rows for it in self.follow(path, until_end=True, every="1h", keep="9000", batch=3000)]
        self.assertEqual(counts, [2999, 5998, 8997, 10_000])

    def test_dates(self):
        path = self.file("dates.csv", "a;b;1,50;01.03.2024\na;c;2,00;02.03.2024 12:00:00\nc;d;1;16.03.2024\n")
        (step,) = self.follow(path, until_end=True, keep="14d", units=Units(100), dates="dd.mm.yyyy", decimal=",", delimiter=";")
        self.assertEqual((step.commit.expired, str(step.newest)), (1, "2024-03-16 00:00:00+00:00"))

    def test_a_slow_feed(self):
        """No commit comes before a row has waited so long; none at all where there is no row."""
        read, write = os.pipe()
        file = self.enter(os.fdopen(read, "rb"))
        followed, every, told, at = self.follow(file, every=0.3), 0.3, [], []

        def run():
            for step in followed:
                told.append(step)
                at.append(time.monotonic())
        thread = threading.Thread(target=run)
        thread.start()
        begun, rows = time.monotonic(), 0
        while len(told) < 2:
            self.assertLess(time.monotonic() - begun, 120)
            os.write(write, f"a,b{rows},1,{rows}\n".encode())
            rows += 1
            time.sleep(0.02)
        as_soon_as(lambda: told[-1].rows == rows)
        count = len(told)
        time.sleep(2 * every)
        self.assertEqual(len(told), count)
        os.close(write)
        thread.join(120)
        self.assertEqual((len(told), thread.is_alive()), (count, False))
        self.assertGreaterEqual(at[0] - begun, every)
        self.assertTrue(all(after - before >= every for before, after in zip(at, at[1:])), at)

    def test_bad_rows(self):
        text = "a,b,1,1\nb,c,2,2\nb,,3,3\nc,d,x,4\nd,e,5,5\n"
        followed = self.follow(self.file("bad.csv", text), until_end=True)
        step = next(followed)
        self.assertEqual((step.rows, step.bad, "passed over" in str(step)), (2, 0, False))
        with self.assertRaises(misteluk.BadRows) as told:
            next(followed)
        self.assertIn("can't be taken, and those before line 3 are in, and none behind it\n", str(told.exception))
        self.assertIn("bad.csv:3: BadName: target '': a name has at least one byte", str(told.exception))
        self.assertEqual((followed.store.stat().edges, followed._told), (2, f"{followed.name}: 2 rows to line 2 are in"))
        followed = self.follow(self.file("bad.csv", text), until_end=True, skip_bad=True)
        (step,) = followed
        self.assertEqual((step.rows, step.bad, step.line), (3, 2, 5))
        self.assertEqual(followed._told, f"{followed.name}: 3 rows to line 5 are in; 2 bad rows passed over")
        self.assertEqual([(it.place.line, it.word, it.field) for it in followed._count.faults],
                         [(3, "BadName", "target"), (4, "BadWeight", "amount")])
        followed = self.follow(self.file("good.csv", "a,b,1,1\n"), until_end=True, skip_bad=True)
        self.assertEqual(([it.bad for it in followed], followed._told), ([0], f"{followed.name}: 1 rows to line 1 are in"))

    def test_what_is_refused(self):
        """The error says which rows aren't in; they are pending, and the next step goes on."""
        store = self.store(blocks=16)
        rows = [(f"s{it}", f"t{it}", 1, it) for it in range(30)]
        followed = self.follow(self.file("pool.csv", text_of(rows)), store, until_end=True, batch=20)
        with self.assertRaises(misteluk.errors.PoolEmpty) as told:
            next(followed)
        self.assertRegex(str(told.exception), r"PoolEmpty( \(record 22\))?: 20 rows of")
        self.assertIn("lines 1 to 20, are not in, and pending still; 0 rows before them are in. The batch needs 20 free blocks, "
                      "and 16 are free", str(told.exception))
        self.assertEqual((store.pending, told.exception.needed, told.exception.free), (20, 20, 16))
        self.assertRaises(misteluk.errors.PoolEmpty, next, followed)
        for _ in range(8):
            store.remove(KIND, "no", "such")
        self.assertRaises(misteluk.errors.PoolEmpty, store.commit, batch=14)  # (two batches: one is in, the other is not)
        self.assertEqual((store.pending, store.stat().edges), (14, 14))
        with self.assertRaisesRegex(misteluk.errors.PoolEmpty, "20 rows of .* are not in, and pending still"):
            next(followed)

    def test_what_can_t_be_followed(self):
        store, path = self.store(blocks=64), self.file("p.csv", "a,b,1,1\n")
        for fault, options in (("times are no dates|no dates here", {"keep": "14d"}), ("not 'x'", {"every": "x"}),
                               ("keep is a length of time", {"keep": 3, "units": Units(times="iso")}), ("not 'matrix'",
                                                                                                        {"format": "matrix"}),
                               ("by is 'set'", {"by": "x"}), ("batch is from", {"batch": 0}), ("names is", {"names": "x"}),
                               ("no encoding", {"encoding": "x"}), ("third is", {"format": "snap", "third": "x"})):
            with self.assertRaisesRegex(ValueError, fault):
                self.follow(path, store, **options)
        self.assertRaisesRegex(ValueError, "packed", self.follow, "p.csv.gz", store)
        self.assertRaises(OSError, self.follow, str(self.room / "none.csv"), store)
        store.insert("l", "a", "b")
        self.assertRaisesRegex(misteluk.errors.Uncommitted, "before a feed is followed", self.follow, path, store)

    def test_a_file_that_is_cut(self):
        path = self.file("cut.csv", "a,b,1,1\nb,c,2,2\n")
        followed = self.follow(path, every=0)
        next(followed)
        self.file("cut.csv", "x,y,1,1\n")
        self.assertRaisesRegex(misteluk.errors.FeedFault, "was cut to 8 bytes, and 16 were read", next, followed)
        self.assertEqual(followed.store.stat().edges, 2)

    def interrupted(self, count):
        """Follows a file while its steps are interrupted, and compares all that is in."""
        rows = some_rows(6000)
        followed = self.follow(self.file("i.csv", text_of(rows)), until_end=True, batch=41, keep=900)
        model, steps, interrupts = Model(rows, "add", 900), [], 0
        with handler(interrupt_in_a_call):
            while model.done < len(rows):
                try:
                    signal.setitimer(signal.ITIMER_REAL, random.uniform(1e-6, 8e-4) if interrupts < count else 0)
                    interrupting.IN_A_CALL[0] = True
                    step = next(followed)
                    interrupting.IN_A_CALL[0] = False
                except KeyboardInterrupt:
                    interrupts += 1
                    continue
                finally:
                    signal.setitimer(signal.ITIMER_REAL, 0)
                steps.append(step.commit.version)
                self.assertEqual(step.rows, min(40 * steps[-1], len(rows)))
                while model.done < step.rows:
                    model.go_to(min(model.done + 40, len(rows)))
                self.check(step, followed, model)
        self.assertEqual(list(followed), [])
        self.assertGreaterEqual(interrupts, count)
        self.assertEqual(steps, list(range(1, steps[-1] + 1)))

    def test_interrupts(self):
        self.interrupted(40)

    def places(self):
        path = self.file("places.csv", "a,b,1,1\nb,c,2,2\na,b,4,3\nc,d,8,4\na,b,16,5\n")

        class Scene:
            """A feed that is followed to its end, in three steps, and those that were given."""

            def __init__(self):
                self.store, self.steps = Store(blocks=64), []
                self.followed = self.store.follow(path, by="add", batch=2, until_end=True, progress=False,
                                                    columns=Columns(1, 2, weight=3, time=4))

            def go_on(self):
                for step in self.followed:
                    self.steps.append(step)

            def is_right(self):
                self.go_on()
                found = [(it.commit.version, it.rows, it.line) for it in self.steps]
                assert found == [(1, 2, 2), (2, 4, 4), (3, 5, 5)], found
                with self.store.open() as session:
                    assert session.edge("link", "a", "b") == (21, 1, 5) and session.edge_count == 3

            def end(self):
                self.followed.close()
                kill(self.store)
        return places(Scene, Scene.go_on, Scene.is_right)

    def test_a_call_that_nobody_waits_for(self):
        """It isn't made where it was left before it was begun."""
        for is_left, count in ((False, 1), (True, 0)):
            made = mock.Mock()
            call = calls.Call(made)
            call.left = is_left
            call.make()
            self.assertEqual((made.call_count, call.done.locked()), (count, False))

    def test_each_step_is_given_once(self):
        count, wrong = self.places()
        self.assertGreater(count, 100)
        self.assertEqual(wrong, [])

    def test_interrupts_find_a_fault(self):
        """Where a step is lost the feed ends early, and an alarm may still come in the place of that."""
        self.let_go = self.kill
        with mock.patch.object(calls.Calls, "make", made_at_once), self.assertRaises((Exception, KeyboardInterrupt)):
            for _ in range(9):  # (where a timer's interrupts miss it, others don't)
                self.interrupted(60)

        def early(call, *given):
            """That it is given is noted before it is."""
            call(*given)
            return iter(())
        with mock.patch.object(following, "noting", early), mock.patch.dict(os.environ, {"MISTELUK_INTERRUPTS": "all"}), \
                interrupting.one_wrong():
            self.assertEqual(len(self.places()[1]), 1)

    def test_an_edge_list(self):
        path = self.file("list.txt", "# edges\n1 2 7\n2\t3\t8\n")
        (step,) = self.follow(path, until_end=True, columns=Columns(), third="time")
        self.assertEqual((step.rows, step.line, step.newest), (2, 3, 8))
        followed = self.follow(self.file("list.txt", "# edges\n1 2 7\n2 3\n4 5 9\n"), until_end=True, third="time")
        self.assertRaisesRegex(misteluk.errors.FeedFault, "list.txt:3: 2 fields", list, followed)


if __name__ == "__main__":
    unittest.main()
