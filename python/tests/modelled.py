"""A store beside a model of it, which counts by hand, while a timer interrupts its calls.

    python3 modelled.py 10000 7         so many interrupts, from this seed on
    python3 modelled.py 10000 7 file    the same over a store with a file, which is opened again and again
"""
import os
import random
import signal
import sys
import tempfile
import time
import warnings

from interrupting import IN_A_CALL, handler, interrupt_in_a_call
from support import kill

import misteluk
from misteluk import Store, survey


class Model:
    """A store, and beside it what its edges, sessions and pending operations are, counted here by hand. Each call may be
    interrupted; it is made again then, where it is one that is, and what both told is compared with what is to be."""

    def __init__(self, room, seed=7):
        self.random, self.room = random.Random(seed), room
        self.store = self.made()
        # The edges, with weight, first and recent time; what is pending; the sessions, each with its edges; the last version.
        self.edges, self.pending, self.held, self.version = {}, [], [], 0
        self.steps = self.interrupts = self.clock = 0
        # How long each call took that wasn't interrupted: an interrupt comes within that, or a little later.
        self.seconds = {}

    @staticmethod
    def made():
        return Store(blocks=1024, seats=4)

    def call(self, what, name):
        """Makes a call with an interrupt on its way; gives what it gave, and whether it was interrupted."""
        try:
            begun = time.perf_counter()
            signal.setitimer(signal.ITIMER_REAL, self.random.uniform(1e-6, 1.1 * self.seconds.get(name, 4e-4) + 1e-5))
            IN_A_CALL[0] = True
            value = what()
            IN_A_CALL[0] = False
            self.seconds[name] = time.perf_counter() - begun
            return value, False
        except KeyboardInterrupt:
            self.interrupts += 1
            return None, True
        finally:
            IN_A_CALL[0] = False
            signal.setitimer(signal.ITIMER_REAL, 0)

    def run(self, interrupts):
        calls = [self.operate] * 4 + [self.commit] * 3 + [self.open, self.close, self.ask, self.ask, self.table, self.count]
        calls += [self.load, self.told_late, self.rebase, self.save, self.commit_more]
        calls += [self.renew, self.collect, self.end_store, self.walk, self.compare, *self.others()]
        with warnings.catch_warnings():
            warnings.simplefilter("ignore", ResourceWarning)  # (Python closes what an interrupted `open` gave nobody)
            while self.interrupts < interrupts:
                self.steps += 1
                self.random.choice(calls)()
        self.commit()
        self.open()
        for session, edges in self.held:
            assert session.get_edges(list(edges)) == list(edges.values())

    @staticmethod
    def others():
        """More calls."""
        return []

    def edge(self):
        return "l", f"s{self.random.randrange(6)}", f"t{self.random.randrange(6)}"

    def operate(self):
        """An operation is pending once or not at all."""
        self.clock += 1
        for _ in range(self.random.randrange(1, 6)):
            word = self.random.choice(("insert", "add", "add", "add", "remove", "expire"))
            given = ((self.clock - 9,) if self.clock > 9 else (0,)) if word == "expire" else self.edge()
            given += (self.random.randrange(9), self.clock) * (word in ("insert", "add"))
            before = self.store.pending
            self.call(lambda: getattr(self.store, word)(*given), word)
            assert self.store.pending - before in (0, 1)
            self.pending += [(word, given)] * (self.store.pending - before)

    def applied(self, operations):
        """What they do, by the counts that are told: inserted, updated, removed, absent, overflowed and expired."""
        counts = dict.fromkeys(("inserted", "updated", "removed", "absent", "overflowed", "expired"), 0)
        for word, given in operations:
            edge, known = given[:3], self.edges.get(given[:3])
            if word == "expire":
                gone = [it for it, marks in self.edges.items() if marks[2] < given[0]]
                counts["expired"] += len(gone)
                for it in gone:
                    del self.edges[it]
            elif word == "remove":
                counts["removed" if known else "absent"] += 1
                self.edges.pop(edge, None)
            else:
                weight, at = given[3:]
                counts["updated" if known else "inserted"] += 1
                self.edges[edge] = (weight + (known[0] if known and word == "add" else 0), known[1] if known else at, at)
        return counts

    def is_told(self, receipt, counts):
        """Whether that was told which wasn't yet, once, and as many batches as there are versions more."""
        assert {it: getattr(receipt, it) for it in counts} == counts, (receipt, counts)
        stat = self.store.stat()
        assert (stat.version, stat.edges) == (self.version + receipt.batches, len(self.edges)), (stat, receipt, self.version)
        self.version = stat.version

    def commit(self, batch=3):
        """An interrupted commit is made again, perhaps once more is pending; each operation is in the graph, and told, once."""
        receipt, interrupted = self.call(lambda: self.store.commit(batch=batch), "commit")
        if interrupted:
            if self.random.randrange(2):
                edge = self.edge()
                self.store.add(*edge, 1, self.clock)
                self.pending.append(("add", (*edge, 1, self.clock)))
            receipt = self.store.commit()
        assert self.store.pending == 0
        done, self.pending = self.pending, []
        self.is_told(receipt, self.applied(done))

    def commit_more(self):
        self.commit(4_096)

    def load(self):
        """Of an interrupted load the first batches are in, as many as the versions tell; of another one all."""
        self.commit()
        rows = [self.edge() for _ in range(self.random.randrange(1, 12))]
        feed, how, at = self.random.choice((self.surveyed, self.columns, self.file))(rows)
        _, interrupted = self.call(lambda: self.store.load(feed, by="add", **how), "load")
        batches = self.store.stat().version - self.version
        assert batches == -(-len(rows) // 3) or interrupted and 0 <= batches < -(-len(rows) // 3)
        self.applied([("add", (*it, 1, at)) for it in rows[:3 * batches]])
        self.version += batches
        assert self.store.stat().edges == len(self.edges)

    def surveyed(self, rows):
        return survey([(*it[1:], 1, 1, "l") for it in rows], by="add", batch=3), {}, 1

    def columns(self, rows):
        kinds, sources, targets = map(list, zip(*rows))
        return {"from": sources, "to": targets, "of": kinds}, self.how, 0

    def file(self, rows):
        path = os.path.join(self.room, "rows.csv")
        with open(path, "w") as file:
            file.write("".join(",".join(it) + "\n" for it in [("of", "from", "to"), *rows]))
        return path, self.how, 0

    how = {"batch": 3, "columns": misteluk.Columns("from", "to", kind="of")}

    def told_late(self):
        """What an interrupted commit did is told by the next one, also where a load comes between."""
        receipt, interrupted = self.call(self.store.commit, "commit")
        self.store.kinds()  # (which asks what became of it)
        loads = interrupted and not self.store.pending
        counts, self.pending = self.applied(self.pending), []
        if loads:
            self.store.load([("s1", "t1", 1, 1, "l")], by="add")
            self.applied([("add", ("l", "s1", "t1", 1, 1))])
            self.version += 1
        self.is_told(self.store.commit() if interrupted else receipt, counts)

    def rebase(self):
        """An interrupted one is done once, though it is made again, and gives what it did."""
        self.commit()
        if not self.held:
            self.held.append((self.store.open(), dict(self.edges)))
        session, edges = self.random.choice(self.held)
        self.commit()
        found, interrupted = self.call(lambda: self.store.compact(session), "rebase")
        if not interrupted or self.store.stat().version == 0:
            self.edges, self.version = dict(edges), 0
        if interrupted and self.version == 0:
            self.operate()
            self.commit()
        version = self.version
        found = self.store.compact(session) if interrupted else found
        if version:
            assert self.store.stat().version in (0, version)
        if self.store.stat().version == 0:
            self.edges, self.version = dict(edges), 0
        assert (found.version, found.vertices, found.edges) == (0, session.vertex_count, len(edges)), found
        try:
            self.store.compact(session)
        except misteluk.SessionClosed:
            self.held = []
            return
        raise AssertionError("a rebase was told twice")

    def save(self):
        """A file has what was saved last, whole; what is restored of it has that."""
        if not self.held:
            return
        (session, edges), path = self.random.choice(self.held), os.path.join(self.room, "saved.csv")
        _, interrupted = self.call(lambda: session.save(path), "save")
        if interrupted:  # (it is written, or what was there is there still)
            self.saved = [*self.saved, edges] if self.saved else []
        else:
            self.saved = [edges]
        if self.saved:
            store, is_broken = self.call(lambda: Store.restore(path), "restore")
            if not is_broken:
                with store, store.open() as restored:
                    found = {it[:3]: it[3] for it in restored.edges()}
                assert found in self.saved, (found, self.saved)
                self.saved = [found]

    saved = ()

    def open(self):
        """There is a seat, as long as the held sessions don't take all."""
        if len(self.held) < 3:
            self.commit()
            self.held.append((self.asked(self.store.open, "open"), dict(self.edges)))

    def close(self):
        if self.held:
            session, _ = self.held.pop(self.random.randrange(len(self.held)))
            self.call(session.close, "end of a session")
            session.close()

    def asked(self, what, name):
        """What a question gives, which is asked again where it is interrupted."""
        found, interrupted = self.call(what, name)
        return what() if interrupted else found

    def ask(self):
        if self.held:
            session, known = self.random.choice(self.held)
            edges = self.random.sample(sorted(known), min(3, len(known)))
            found = self.asked(lambda: session.get_edges(edges), "edges")
            assert found == [known[it] for it in edges], (found, known)
            for it in edges[:1]:
                found = self.asked(lambda: session.edge(*it), "edge")
                assert found == known[it], (found, known)
                found = self.asked(lambda: session.successors(it[1]), "out_of")
                assert found == {edge[2]: marks for edge, marks in known.items() if edge[1] == it[1]}, found

    def table(self):
        if self.held:
            session, known = self.random.choice(self.held)
            found = self.asked(session.degrees, "degrees")
            assert sum(it.weight_out for it in found.values()) == sum(it[0] for it in known.values())
            found = self.asked(session.components, "components")
            assert {it for edge in known for it in edge[1:]} <= set(found)

    def walk(self):
        """From a source one step leads to its targets, from which none leads on."""
        if self.held:
            session, known = self.random.choice(self.held)
            for _, source, target in self.random.sample(sorted(known), min(1, len(known))):
                targets = {it[2] for it in known if it[1] == source}
                found = self.asked(lambda: session.neighborhood(source, 2), "neighborhood")
                assert found == {source: 0, **dict.fromkeys(targets, 1)}, (found, known)
                found = self.asked(lambda: session.path(source, target), "path")
                assert found == [source, target], found
                found = self.asked(lambda: session.in_edges(target), "edges in")
                assert {it[:3]: it[3] for it in found} == {it: marks for it, marks in known.items() if it[2] == target}, found

    def compare(self):
        """All edges of a session, and what another one has that it hasn't."""
        if self.held:
            (session, known), (later, others) = self.random.choice(self.held), self.random.choice(self.held)
            found = self.asked(session.edges, "all edges")
            assert {it[:3]: it[3] for it in found} == known, (found, known)
            changed = {it for it in known.keys() & others.keys() if known[it] != others[it]}
            found = self.asked(lambda: session.diff(later), "diff")
            assert found.counts() == {"gone": len(known.keys() - others.keys()), "new": len(others.keys() - known.keys()),
                                      "changed": len(changed)}, (found, known, others)

    def count(self):
        stat, interrupted = self.call(self.store.stat, "stat")
        assert interrupted or (stat.edges, stat.version) == (len(self.edges), self.version), (stat, self.version)

    def renew(self):
        self.call(self.store.compact, "renew")
        self.count()

    def collect(self):
        self.call(self.store.collect, "collect")
        self.count()

    def end_store(self):
        """What is lost is told once, and another store begins."""
        def close():
            try:
                self.store.close()
            except misteluk.errors.Uncommitted as fault:
                return fault.operations
            return []
        self.operate()
        lost, interrupted = self.call(close, "close")
        lost = close() if interrupted else lost
        assert (len(lost), close(), self.store.is_closed) == (len(self.pending), [], True), (lost, self.pending)
        self.__dict__.update(pending=[], held=[])
        self.begin()

    def begin(self):
        self.__dict__.update(store=self.made(), edges={}, version=0)

    def end(self):
        kill(self.store)


class OfFile(Model):
    """The same of a store with a file: what was closed or killed is there again, and what a producer sends is in once."""

    sent = 0

    def made(self):
        return Store(os.path.join(self.room, "graph.db"), sync="off", seats=4)

    def others(self):
        return [self.numbered, self.numbered, self.compact, self.kill]

    def begin(self):
        """It is opened, perhaps at the second try, and has what the model has."""
        store, interrupted = self.call(self.made, "an opening")
        self.store = self.made() if interrupted else store
        with self.store.open() as session:
            found = {tuple(it[:3]): tuple(it[3]) for it in session.edges()}
        assert (session.version, found) == (self.version, self.edges), (session.version, self.version)

    def kill(self):
        self.commit()
        kill(self.store)
        self.held = []
        self.begin()

    def rebase(self):
        """An older version can't be what the store begins with."""

    def compact(self):
        """What an interrupt leaves of it changes nothing."""
        self.call(lambda: self.store.file.compact(self.random.choice((None, 0, 3))), "compaction")
        self.count()

    def numbered(self):
        """A producer's batch, which is sent until its answer comes, and once more: each answer is the first one's."""
        self.commit()
        self.operate()
        self.sent += 1

        def send():
            return self.store.commit(producer="feed", sequence=self.sent)
        done, interrupted = self.call(send, "numbered")
        done = send() if interrupted else done
        assert (send(), self.store.pending, self.store.file.last_sequence("feed")) == (done, 0, self.sent)
        counts, self.pending = self.applied(self.pending), []
        self.is_told(done, counts)


if __name__ == "__main__":
    with handler(interrupt_in_a_call), tempfile.TemporaryDirectory() as ROOM:
        MODEL = (OfFile if sys.argv[3:] == ["file"] else Model)(ROOM, int(sys.argv[2]) if len(sys.argv) > 2 else 7)
        MODEL.run(int(sys.argv[1]))
        MODEL.end()
    print(f"{sys.version.split()[0]}: {MODEL.interrupts} interrupts in {MODEL.steps} steps: nothing wrong, nothing lost")
