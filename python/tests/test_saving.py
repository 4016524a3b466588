"""A saved version is restored exactly, by the client and by the program alone.

Graphs are random, with removals, expiries, windows, loads and held sessions, beside a model in plain dicts. Comparisons are made
again with faults that are planted, and have to find them.
"""
from dataclasses import replace
import gzip
import hashlib
import itertools
import subprocess
import unittest
from unittest import mock

from graphs import NAMES, Play
from support import Case, find_program, row

import misteluk
from misteluk import Store, Units, names, saving
from misteluk.engine import copies as copying
from misteluk.engine.protocol import WHOLE
from misteluk.engine.operations import INSERT, Numbered, Operations
from misteluk.values import records

WINDOWS = ((0, records.MOST_TIME), (30, records.MOST_TIME), (10, 40))
ENDINGS = ("", ".gz", ".xz", ".bz2")


def answers_of(session, of_names):
    """What a session says to every request, and in which order, but for neighbors: those come as the blocks have them."""
    told, store = [session.store.kinds(), session.store.units, session.edge_count], session.store
    asks = ((session.degrees,), (session.components,), (session.cores,), (session.weights_in,),
            *((ask, it) for it in of_names for ask in (session.levels, session.neighbors)))
    for kind, (since, until), (ask, *given) in itertools.product((None, *store.kinds(), "no kind"), WINDOWS, asks):
        try:
            found = list(ask(*given, kind=kind, since=since, until=until).items())
            told.append(sorted(found) if ask == session.neighbors else found)
        except (misteluk.errors.NoKind, misteluk.NoVertex) as fault:
            told.append(fault.word)
    return told + sorted(session.edges()) + [session.has_vertex(of_names[0]), session.path(*session.degrees().top(2)[0][:1] * 2)
                                             if session.degrees() else None]


def rows_of(session):
    """The rows of every table of a session, in the program's names."""
    held, names = session._held, session._held.names()
    tables = zip(*held.degrees(WHOLE)), [(names[it],) for it in held.labels(WHOLE)], [(it,) for it in held.cores(WHOLE)]
    return [" ".join(map(str, (name, *values))) for table in tables for name, values in zip(names, table)]


def run_alone(script, *requests):
    """What the program writes for a saved script and requests behind it, and its status."""
    text = script + "".join(f"{it}\n" for it in requests).encode("ascii")
    done = subprocess.run([find_program(), "run"], input=text, stdout=subprocess.PIPE, stderr=subprocess.DEVNULL, timeout=60)
    return done.stdout.decode("ascii").splitlines(), done.returncode


class Saving(Case):
    def played(self, seed, steps=10):
        """The sessions of a random store, each with what it holds; the last version's is the last."""
        play = Play(seed)
        self.addCleanup(play.end)
        for _ in range(steps):
            play.step()
        return [*play.held, (play.store.open(), play.now)]

    def restored(self, path, **options):
        store = Store.restore(path, **options)
        self.addCleanup(store.close)
        return store

    def differ(self, seed, ending=""):
        """In how many versions of a random store the restored one is another than the model's, or says anything else."""
        count = 0
        for at, (session, graph) in enumerate(self.played(seed)):
            path = self.room / f"{seed}.{at}.csv{ending}"
            session.save(path)
            with Store.restore(path, blocks=2048) as store, store.open() as copy:
                is_model = (sorted(copy.edges()) == sorted((*it, edge) for it, edge in graph.items())
                            and list(copy.degrees()) == list(graph.names) and store.kinds() == list(graph.kinds))
                with mock.patch.object(Store, "kinds", lambda _, kinds=list(graph.kinds): kinds):
                    count += not is_model or answers_of(copy, NAMES[::3]) != answers_of(session, NAMES[::3])
        return count

    def test_random_graphs(self):
        self.assertEqual([self.differ(seed, ENDINGS[seed % 4]) for seed in range(6)], [0] * 6)

    def test_faults_are_found(self):
        def recent_alone(found, edges, items):
            put(found, edges._replace(firsts=edges.recents), items)
        put = copying._put
        for where, name, fault in ((copying, "_put", recent_alone), (copying, "_put_loop", lambda *_: None),
                                   (names.NameTable, "put", lambda *_: None)):
            with self.subTest(name), mock.patch.object(where, name, fault):
                try:
                    found = any(map(self.differ, range(2)))
                except misteluk.StoreError as refused:  # (there are fewer names than the head tells)
                    found = "came of" in str(refused)
                self.assertTrue(found)

    def test_a_file_by_hand(self):
        """What is written of a small store: units, a text and its id, an edge of two times, a kind and names without edges."""
        store = self.store(blocks=64, units=Units(weight_scale=100, times="iso"))
        store.insert("owes", "ann", "bob smith", "1.50", "1970-01-01T00:00:01")
        store.insert("owes", "ann", "bob smith", "2.50", "1970-01-01T00:00:02")
        store.insert("knows", "cat", "cat")
        store.remove("knows", "cat", "cat")
        store.commit()
        done = store.open().save(self.room / "s.csv")
        bob = names.id_of("bob smith")
        behind = ["i,misteluk,version,1,0,0", "i,misteluk,names,3,0,0", "i,misteluk,edges,1,0,0", "i,misteluk,blocks,64,0,0",
                  "i,misteluk,needed,16384,0,0", "i,misteluk,weight_scale,100,0,0", "i,misteluk,times,iso,0,0",
                  f"i,misteluk,{bob},bob%20smith,0,0", "i,misteluk,end,of-head,0,0", "commit", "rebase,0",
                  "i,owes,ann,ann,0,0", "r,owes,ann,ann", "i,knows,ann,ann,0,0", "r,knows,ann,ann",
                  f"i,owes,ann,{bob},250,1000000", f"i,owes,ann,{bob},250,2000000", "i,owes,cat,cat,0,0", "r,owes,cat,cat",
                  "commit", "collect", ""]
        digest = hashlib.sha256("\n".join(behind).encode()).hexdigest()
        wanted = ["open,0", f"i,misteluk,form:1,{digest},0,0", *behind]
        self.assertEqual((self.room / "s.csv").read_text().split("\n"), wanted)
        self.assertEqual(row(done)[1:], (1, 3, 1, len(wanted) - 1, 16384))
        self.assertEqual(str(done), f"{self.room}/s.csv: version 1 with 3 names and 1 edge, in {len(wanted) - 1} records for "
                         "`stinger run --blocks 16384`")
        copy = self.restored(self.room / "s.csv", units=Units(decimals="float"))
        self.assertEqual((copy.blocks, copy.units), (64, replace(store.units, decimals="float")))
        self.assertEqual((copy.open().edge("owes", "ann", "bob smith").weight, copy.kinds()), (2.5, ["owes", "knows"]))

    def test_empty_stores(self):
        for options in ({}, {"units": Units(weight_scale=10)}):
            store = self.store(**options)
            store.open().save(self.room / "s.csv")
            copy = self.restored(self.room / "s.csv")
            self.assertEqual((row(copy.stat())[:3], copy.units), ((0, 0, 0), store.units))
            self.assertEqual(copy._ledger.units_are_set, bool(options))

    def test_it_goes_on(self):
        """A restored store takes operations, loads and expiries as the saved one does, and can be saved again."""
        *held, (session, _) = self.played(5)
        session.save(self.room / "s.csv")
        for it, _ in held:
            it.close()
        copy = self.restored(self.room / "s.csv", seats=3)
        for store in (copy, session.store):
            store.insert("k", "new one", "v1", 3, 9)
            store.expire(20)
            store.commit(collect=True)
            store.load([("v1", "v2", 2, 8, "l,m")], by="add")
        last = session.store.open()
        with mock.patch.object(Store, "kinds", lambda _, kinds=session.store.kinds(): kinds):
            self.assertEqual(answers_of(copy.open(), NAMES[:3]), answers_of(last, NAMES[:3]))
        copy.open().save(self.room / "t.csv")
        last.save(self.room / "u.csv")
        again = (self.restored(self.room / it).open() for it in ("t.csv", "u.csv"))
        self.assertEqual(*(list(sorted(it.edges())) for it in again))

    def test_many_texts(self):
        """More texts than a batch of the head has, one of many signs."""
        texts = [f"name {it}" for it in range(6_000)] + ["Ы" * 5_000, "~~" + "A" * 20, "a\nb", "100%25"]
        store = self.store(blocks=16_384)
        for it in texts:
            store.insert("link", it, texts[0], 1, 1)
        store.commit(collect=True)
        store.open().save(self.room / "s.csv.gz")
        told, status = run_alone(gzip.open(self.room / "s.csv.gz").read(), "stat")
        self.assertEqual((status, told[-1].split()[2:4]), (0, ["names=6004", "edges=6004"]))
        self.assertEqual(list(self.restored(self.room / "s.csv.gz").open().degrees()), texts)

    def test_the_program_alone(self):
        for seed in range(4):
            session, graph = self.played(seed)[-1]
            done = session.save(self.room / "s.csv.gz")
            script = gzip.open(self.room / "s.csv.gz").read()
            self.assertEqual((done.records, done.edges, done.vertices), (script.count(b"\n"), len(graph), len(graph.names)))
            to_program = session.store._ledger.terms.names.to_program
            whole = f"*,0,{records.MOST_TIME}"
            edges = [records.record(("edge", "0", *map(to_program, it))).strip() for it in graph]
            told, status = run_alone(script, "open,0", *(f"{it},0,{whole}" for it in ("deg", "comp", "core")), *edges, "stat")
            self.assertEqual((status, [it for it in told if it.startswith("error")]), (0, []))
            opened = max(at for at, it in enumerate(told) if it.startswith("open 0 v="))
            rows = [it for it in told[opened + 1:len(told) - 1 - len(edges)]
                    if not it.startswith(("deg 0 ", "comp 0 ", "core 0 "))]
            self.assertEqual(rows, rows_of(session))
            wanted = [f"edge 0 {it.weight} {it.first} {it.recent}" for it in graph.values()]
            self.assertEqual(told[len(told) - 1 - len(edges):-1], wanted)
            self.assertIn(f" names={len(graph.names)} edges={len(graph)} ", told[-1])


class Limits(Case):
    """What a copy takes."""

    def test_records_of_a_copy(self):
        """A file of more records than a run takes is written, and says so."""
        store = self.store(*(f"insert k a t{it} 1 {it}" for it in range(20)), *(f"add k a t{it} 1 99" for it in range(20)))
        with mock.patch.object(records, "MOST_RECORDS", 40):
            self.assertTrue(str(store.open().save(self.room / "s.csv")).endswith("more than `stinger run` takes"))
        with Store.restore(self.room / "s.csv") as restored:
            self.assertEqual(restored.stat().edges, 20)

    def test_blocks(self):
        """Batches are as small as the blocks want it; where even one operation finds no room, nothing is begun."""
        touched = (f"add k s{it} t{it} 1 99" for it in range(9))
        store = self.store(*(f"insert k s{it % 50} t{it} 1 {it}" for it in range(60)), *touched, "insert k lone lone",
                           "remove k lone lone")
        session = store.open()
        session.save(self.room / "s.csv")
        wanted = sorted(session.edges())
        for blocks in (52, 53, 60, 130, 16_384):
            with Store.restore(self.room / "s.csv", blocks=blocks) as copy, copy.open() as session:
                self.assertEqual((copy.stat().used, sorted(session.edges())), (50, wanted))
        with self.assertRaisesRegex(misteluk.errors.PoolEmpty, "needs at least 52 blocks, and 51 are said"):
            Store.restore(self.room / "s.csv", blocks=51)

    def test_room_is_what_the_program_uses(self):
        for seed in range(3):
            play = Play(seed)
            self.addCleanup(play.end)
            for _ in range(14):
                play.step()
            operations = copying.operations_of(copying.content_of(play.store.open()._held))
            room, store = saving.Room(operations), self.store(blocks=64)
            for at in range(0, len(operations.codes), 5):
                part = Operations(columns=operations.some(slice(at, at + 5)))
                store._ledger.apply(part, True)
                self.assertEqual(store.stat().used, room.behind[at + part.size])

    def test_room_of_a_loop_that_comes_again(self):
        """The loops by which kinds are made known go before the edges, which may be the same loops."""
        store = self.store("insert k a a 1 1", "insert l a a 1 1")
        operations = copying.operations_of(copying.content_of(store.open()._held))
        self.assertEqual(list(saving.Room(operations).behind), [0, 1, 0, 1, 0, 1, 2])

    def test_a_graph_of_all_blocks(self):
        """Where batches of the usual size need more blocks than there are, they are smaller."""
        operations = [(INSERT, "k", f"s{it}", "t", 1, 1) for it in range(records.MOST_BLOCKS - 10)]
        room = saving.Room(Numbered.of(operations))
        self.assertEqual((room.fitting(), room.batch(records.MOST_BLOCKS), room.batch(room.needed(1) - 1)), (65_526, 4096, 0))
        self.assertEqual(saving.Room(Numbered.of([*operations, operations[0]])).batch(records.MOST_BLOCKS), 4096)
        full = saving.Room(Numbered.of([*operations, *[operations[0]] * 4_000]))
        self.assertEqual((full.batch(records.MOST_BLOCKS), full.batch(records.MOST_BLOCKS - 9)), (8, 1))


if __name__ == "__main__":
    unittest.main()
