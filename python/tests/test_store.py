"""A store and its sessions. Values are worked out by hand."""
import pickle
import unittest
from unittest import mock

from support import Case, kill, row

import misteluk
from misteluk import Commit, Degree, Edge, Stat, Store, Units, walks

FUNNEL = ("insert transfer ana funnel 980 1", "insert transfer ben funnel 950 1", "insert transfer cyd funnel 990 2",
          "insert transfer dan funnel 970 2", "insert transfer funnel offshore 3850 3")


class Stores(Case):
    def test_a_session_keeps_its_version(self):
        store = self.store(*FUNNEL)
        old = store.open()
        store.remove("transfer", "ben", "funnel")
        store.add("transfer", "funnel", "offshore", -940, time=4)
        self.assertEqual(store.commit(), Commit(2, 0, 1, 1, 0, 0, 1))
        new = store.open()
        self.assertEqual((old.version, new.version), (1, 2))
        self.assertEqual(old.edge("transfer", "ben", "funnel"), Edge(950, 1, 1))
        self.assertIsNone(new.edge("transfer", "ben", "funnel"))
        self.assertEqual(new.edge("transfer", "funnel", "offshore"), Edge(2910, 3, 4))
        self.assertEqual(sum(it.weight for it in old.predecessors("funnel").values()), 3890)
        self.assertEqual(sum(it.weight for it in new.predecessors("funnel").values()), 2940)

    def test_answers(self):
        session = self.store(*FUNNEL, "insert owns ana zed 1 9").open()
        self.assertEqual(session.vertex_count, 7)
        self.assertEqual(session.levels("ana"), {"ana": 0, "funnel": 1, "zed": 1, "offshore": 2})
        self.assertEqual(session.levels("ana", "transfer", until=2), {"ana": 0, "funnel": 1})
        self.assertEqual(set(session.components().values()), {"ana"})
        self.assertEqual(session.components("owns")["zed"], "ana")
        self.assertEqual(session.cores(), dict.fromkeys(("ana", "funnel", "ben", "cyd", "dan", "offshore", "zed"), 1))
        self.assertEqual(session.degrees("transfer")["funnel"], Degree(1, 4, 3850))
        self.assertEqual(session.degrees(since=2, until=2)["funnel"], Degree(0, 2, 0))
        self.assertEqual(session.successors("funnel", "transfer"), {"offshore": Edge(3850, 3, 3)})
        self.assertEqual(list(session.predecessors("funnel", "transfer", since=2)), ["cyd", "dan"])
        asked = [("transfer", "ana", "funnel"), ("transfer", "zed", "ana"), ("x", "ana", "zed"), ("owns", "ana", "z")]
        self.assertEqual(session.get_edges(asked, missing=0), [Edge(980, 1, 1), None, 0, 0])
        self.refused(misteluk.errors.NoKind, "edge('x', 'ana', 'zed')", lambda: session.get_edges(asked))
        self.refused(misteluk.NoVertex, "edge('owns', 'ana', 'z')", lambda: session.get_edges(asked[:2] + asked[3:]))

    def test_the_greatest(self):
        degrees = self.store(*FUNNEL).open().degrees("transfer")
        funnel, ana, cyd = ("funnel", Degree(1, 4, 3850)), ("ana", Degree(1, 0, 980)), ("cyd", Degree(1, 0, 990))
        self.assertEqual((degrees.top(2), degrees.top(2, by="out")), ([ana, funnel],) * 2)
        self.assertEqual(degrees.top(2, by="weight_out"), [funnel, cyd])
        self.assertEqual(degrees.top(1, by="into"), [funnel])
        self.refused(ValueError, "by is a column, 'out' or 'into' or 'weight_out', and not 'weight'",
                     lambda: degrees.top(1, by="weight"))
        received = self.store(*FUNNEL).open().weights_in()
        self.assertEqual((received.top(1), received.top(1, by="weight_in")), ([("funnel", 3890)],) * 2)
        self.refused(ValueError, "by is a column, 'weight_in', and not 'out'", lambda: received.top(1, by="out"))
        self.assertEqual(misteluk.Answer(a=1, b=2).top(), [("b", 2), ("a", 1)])
        self.assertEqual(misteluk.Answer().top(by="weight"), [])

    def test_what_a_compaction_tells(self):
        self.assertRegex(str(self.store(*FUNNEL).compact()),
                         r"^began again at version 1: 5 edges and 6 vertices, in 5 blocks and \d+\.\d s$")

    def test_a_step_that_no_edge_makes(self):
        edges = self.store(*FUNNEL).open().out_edges("ben")
        self.assertEqual(walks.step(edges, "funnel")[:3], ("transfer", "ben", "funnel"))
        self.refused(misteluk.StoreError, "no edge leads to 'ana' from where it was reached", lambda: walks.step(edges, "ana"))

    def test_a_vertex_where_a_kind_stands(self):
        session = self.store(*FUNNEL).open()
        told = "NoKind: edges(kind='ana'). 'ana' is a vertex: out_edges, in_edges and neighbors take one"
        self.refused(misteluk.errors.NoKind, told, lambda: session.edges("ana"))
        self.refused(misteluk.errors.NoKind, "degrees(kind='zed', since=1). The version", lambda: session.degrees("zed", since=1))

    def test_the_largest_components(self):
        components = self.store(*FUNNEL, "insert owns zed yan 1 9", "insert owns loner loner 1 9").open().components()
        self.assertEqual((components.top(2), components.top(1)), ([("ana", 6), ("zed", 2)], [("ana", 6)]))
        self.assertEqual(components.sizes(), {"ana": 6, "zed": 2, "loner": 1})
        self.refused(ValueError, "by is for degrees", lambda: components.top(by="weight"))
        self.assertEqual(pickle.loads(pickle.dumps(components)).top(1), [("ana", 6)])

    def test_what_a_notebook_shows_of_a_store(self):
        store = self.store("insert k<l a b 5 1", blocks=64)
        session = store.open()
        self.assertEqual(session._repr_html_(), (
            "<table><caption>Session of version 1</caption><tr><th>vertices</th><td>2</td></tr><tr><th>edges</th><td>1</td></tr>"
            "<tr><th>kinds</th><td>k&lt;l</td></tr></table>"))
        shown = store._repr_html_()
        for it in ("<th>state</th><td>1 of 2 seats open, 0 pending</td>", "<th>edges</th><td>1</td>", "1 used of 64, 0 retired"):
            self.assertIn(it, shown)
        session.close()
        store.close()
        self.assertIn("<td>closed</td>", session._repr_html_())
        self.assertIn("<td>closed</td>", store._repr_html_())

    def test_a_store_that_is_killed(self):
        store = self.store(*FUNNEL, blocks=64, seats=3)
        session = store.open()
        store.remove("transfer", "ana", "funnel")
        self.assertRegex(repr(store), "^<Store of 64 blocks: 1 of 3 seats open, 1 pending, by .+>$")
        store.discard()
        kill(store)
        self.assertTrue(store.is_closed)
        self.assertEqual(repr(store), "<Store of 64 blocks: closed>")
        self.assertRaises(misteluk.StoreError, session.levels, "ana")
        self.assertRaises(misteluk.StoreError, store.open)

    def test_what_a_notebook_shows(self):
        session = self.store("insert k a<b c 5 1").open()
        self.assertEqual(session.degrees()._repr_html_(), (
            "<table><tr><td>name</td><td>out</td><td>into</td><td>weight_out</td></tr><tr><td>a&lt;b</td><td>1</td><td>0</td>"
            "<td>5</td></tr><tr><td>c</td><td>0</td><td>1</td><td>0</td></tr></table>"
            "<p>2 names of version 1: degrees()</p>"))
        self.assertIn("<tr><td>name</td><td>core</td></tr></table><p>0 names", self.store().open().cores()._repr_html_())
        long = misteluk.Answer({f"v{it}": it for it in range(99)})._repr_html_()
        self.assertTrue("<td>v9</td>" in long and "<td>v10</td>" not in long and "<p>99 names" in long)

    def test_a_neighbor_s_edge_outside_of_the_window(self):
        """ana has an edge within the window, and the one to bob isn't."""
        session = self.store("insert k ana bob 1 1", "insert k ana cyd 1 5", "insert k dan bob 1 6").open()
        self.assertEqual(session.predecessors("bob", since=5), {"dan": Edge(1, 6, 6)})
        self.assertEqual(session.successors("ana", until=4), {"bob": Edge(1, 1, 1)})

    def test_an_empty_store(self):
        session = self.store().open()
        self.assertEqual((session.degrees(), session.components(), session.cores()), ({}, {}, {}))

    def test_batches_are_cut(self):
        store = self.store()
        for at in range(5_000):
            store.insert("k", f"s{at % 100}", f"t{at}")
        self.assertEqual(store.commit(), Commit(2, 5000, 0, 0, 0, 0, 2))
        self.assertEqual(store.commit(), Commit(3, 0, 0, 0, 0, 0, 1))

    def test_outcomes_are_counted(self):
        store = self.store("insert k a b 1099511627776 1")
        for it in (lambda: store.add("k", "a", "b", 1), lambda: store.remove("k", "b", "a"), lambda: store.remove("k", "a", "b")):
            it()
        self.assertEqual(store.commit(), Commit(2, 0, 0, 1, 1, 1, 1))

    def test_old_edges_expire(self):
        store = self.store("insert k a b 1 10", "insert k a c 2 20", "insert k b a 3 15")
        held = store.open()
        store.expire(15)
        store.insert("k", "a", "d", 4, 5)
        self.assertEqual(store.commit(), Commit(2, 1, 0, 0, 0, 0, 1, 1))
        last = store.open()
        self.assertEqual((held.edge("k", "a", "b"), last.edge("k", "a", "b")), (Edge(1, 10, 10), None))
        self.assertEqual(store.commit(), Commit(3, 0, 0, 0, 0, 0, 1, 0))
        store.expire(0)
        self.assertEqual(store.commit(), Commit(4, 0, 0, 0, 0, 0, 1, 0))

    def test_an_expiry_asks_for_the_used_blocks_too(self):
        store = self.store(*(f"insert k s{it} t 1 1" for it in range(9)), blocks=16)
        store.expire(0)
        with self.assertRaises(misteluk.errors.PoolEmpty) as told:
            store.commit()
        self.assertEqual((told.exception.needed, told.exception.free, store.pending), (10, 7, 1))

    def test_no_time_to_expire_by(self):
        store = self.store()
        for time in (-1, 2 ** 63):
            with self.assertRaises(misteluk.errors.BadTime):
                store.expire(time)
        self.assertEqual(store.pending, 0)

    def test_a_refused_batch_stays_pending(self):
        store = self.store(*(f"insert k s{it} t 1 1" for it in range(10)), blocks=16)
        session = store.open()
        for it in range(7):
            store.add("k", f"s{it}", "t")
        with self.assertRaises(misteluk.errors.PoolEmpty) as told:
            store.commit()
        self.assertEqual((told.exception.needed, told.exception.free, store.pending), (7, 6, 7))
        session.close()
        self.assertEqual(store.commit(batch=6, collect=True), Commit(3, 0, 7, 0, 0, 0, 2))
        self.assertEqual(store.stat().used, 10)

    def test_what_helps_a_batch_of_two(self):
        store = self.store(*(f"insert k s{it} t 1 1" for it in range(15)), blocks=16)
        for it in range(15, 17):
            store.insert("k", f"s{it}", "t", 1, time=1)
        with self.assertRaises(misteluk.errors.PoolEmpty) as told:
            store.commit()
        self.assertRegex(told.exception.advice, r"^Make batches smaller; or give the store more blocks \([\d,]+ at most\)$")

    def test_operations_on_their_way_are_not_discarded(self):
        store = self.store()
        store.insert("k", "a", "b", 1, time=1)
        with mock.patch.object(store._engine, "fly", side_effect=KeyboardInterrupt):
            self.assertRaises(KeyboardInterrupt, store.commit)
        store.insert("k", "a", "c", 1, time=1)
        self.assertEqual((store.discard(), store.pending), (1, 1))
        store.commit()
        self.assertEqual([it[2] for it in store.open().edges()], ["b"])

    def test_batches_behind_a_refused_one_are_not_sent(self):
        store = self.store(blocks=16)
        for it in range(40):
            store.insert("k", f"s{it}", "t")
        with self.assertRaises(misteluk.errors.PoolEmpty) as told:
            store.commit(batch=10)
        self.assertEqual((store.stat().version, store.pending), (1, 30))
        self.assertEqual(told.exception.applied, Commit(1, 10, 0, 0, 0, 0, 1))

    def test_a_commit_collects(self):
        """Each one of the fifth's size replaces as many blocks as the first one took; nobody needs those before."""
        store = self.store()
        for at in range(1, 7):
            for it in range(4_096):
                store.add("k", f"s{it}", "t")
            self.assertEqual(store.commit().version, at)
        self.assertEqual(store.stat().used, 4_096)
        for it in range(60_000):
            store.add("k", f"s{it % 4_096}", "t")
        self.assertEqual(store.commit(), Commit(21, 0, 60_000, 0, 0, 0, 15))

    def test_a_commit_behind_a_session_that_was_closed(self):
        """The blocks of its version are retired, and freed behind the batch that finds no other ones; it is sent once more."""
        for load in (False, True):
            store = self.store(*(f"insert k s{it} t 1 1" for it in range(10)), blocks=32)
            with store.open():
                self.feed(store, *(f"add k s{it} t 1 1" for it in range(10)))
                self.assertEqual((store.stat().free, store.stat().retired), (12, 10))
            for it in range(0 if load else 15):
                store.add("k", f"s{it % 10}", "t")
            done = store.load([(f"s{it % 10}", "t", 1, 0, "k") for it in range(15)], by="add").commit if load else store.commit()
            self.assertEqual(done, Commit(3, 0, 15, 0, 0, 0, 1))
            self.assertEqual(store.open().edge("k", "s0", "t"), Edge(4, 1, 0))

    def test_collect(self):
        store = self.store("insert k a b 1 1")
        store.insert("k", "a", "b", 2, 1)
        store.commit(collect=False)
        self.assertEqual(store.stat().retired, 1)
        store.collect()
        self.assertEqual(store.stat().retired, 0)

    def test_a_store_begins_anew(self):
        store = self.store("insert knows ann bob 5 10", "insert knows bob cat 2 11", blocks=16)
        held, beside = store.open(), store.open()
        self.feed(store, "add knows ann bob 1 20")
        store.add("knows", "ann", "bob", 1, 30)
        self.assertEqual(row(store.compact(held))[:4], (0, 3, 2, 2))
        self.assertEqual((store.stat(), store.pending), (Stat(0, 3, 2, 14, 0, 2), 1))
        for it in (held.degrees, beside.degrees, lambda: store.compact(held)):
            self.refused(misteluk.SessionClosed, "the session of version 1 is closed", it)
        first = store.open()
        self.assertEqual((first.version, first.vertex_count, first.edge("knows", "ann", "bob")), (0, 3, Edge(5, 10, 10)))
        self.assertEqual(store.commit(), Commit(1, 0, 1, 0, 0, 0, 1))
        second = store.open()
        self.assertEqual((second.edge("knows", "ann", "bob"), store.stat().retired), (Edge(6, 10, 30), 1))
        self.assertEqual(row(store.compact(second))[:4], (0, 3, 2, 2))
        self.assertEqual(store.stat(), Stat(0, 3, 2, 14, 0, 2))

    def test_another_store_s_session(self):
        store, other = self.store(), self.store()
        session = other.open()
        self.refused(ValueError, "is another store's", lambda: store.compact(session))
        self.assertEqual(session.degrees(), {})

    def test_wrong_operations_are_told_at_once(self):
        store = self.store()
        self.refused(misteluk.errors.BadName, "source '': a name has at least one byte", lambda: store.insert("k", "", "c"))
        self.refused(misteluk.errors.BadName, "a kind is not *", lambda: store.insert("*", "a", "c"))
        self.refused(misteluk.errors.BadWeight, "amount '1099511627777': a weight is from",
                     lambda: store.add("k", "a", "b", 1 << 40 | 1))
        self.refused(misteluk.errors.BadTime, "time '-1'", lambda: store.insert("k", "a", "b", 1, -1))
        self.refused(misteluk.errors.BadWeight, "weight '5.5'", lambda: store.insert("k", "a", "b", 5.5))
        self.refused(misteluk.errors.BadWeight, "weight 'inf'", lambda: store.insert("k", "a", "b", float("inf")))
        self.refused(TypeError, "a kind and a name are texts, and not 7", lambda: store.insert("k", "a", 7))
        self.assertEqual(store.pending, 0)

    def test_floats_that_are_whole(self):
        """A float that is a whole number is that number, as in a row."""
        store = self.store()
        store.insert("k", "a", "b", 1.0, 3.0)
        store.add("k", "a", "b", 2.0, 4.0)
        store.commit()
        store.load([("a", "c", 1.0, 3.0, "k")], by="set")
        self.assertEqual(store.open().get_edges([("k", "a", "b"), ("k", "a", "c")]), [Edge(3, 3, 4), Edge(1, 3, 3)])
        store.expire(4.0)
        self.assertEqual(store.commit().expired, 1)

    def test_operations_at_the_limits(self):
        store = self.store()
        for it in ((1 << 40, (1 << 63) - 1), (-(1 << 40), 0), (-0, 10 ** 18)):
            store.insert("k", "x" * 64, '",*' * 21, *it)
        store.insert("**", "*", "!", 999_999_999_999, 999_999_999_999_999_999)
        store.remove("k", "a,b", "c")
        self.assertEqual(store.commit(), Commit(1, 2, 2, 0, 1, 0, 1))
        edges = store.open().get_edges([("k", "x" * 64, '",*' * 21), ("**", "*", "!")])
        late = 999_999_999_999_999_999
        self.assertEqual(edges, [Edge(0, (1 << 63) - 1, 10 ** 18), Edge(999_999_999_999, late, late)])

    def test_refused_requests(self):
        store = self.store("insert k a b 1 1")
        session = store.open()
        self.refused(misteluk.NoVertex, "edge('k', 'a', 'z')", lambda: session.edge("k", "a", "z"))
        self.refused(misteluk.errors.NoKind, "no edge of this kind", lambda: session.degrees("other"))
        self.refused(misteluk.errors.BadWindow, "levels('a', since=3, until=2)", lambda: session.levels("a", since=3, until=2))
        self.refused(misteluk.errors.BadName, "source ''", lambda: session.levels(""))
        self.refused(misteluk.errors.BadName, "target ''", lambda: session.get_edges([("k", "a", "b"), ("k", "a", "")]))
        self.refused(misteluk.errors.BadName, "kind '*'", lambda: session.get_edges([("*", "a", "b")], missing=None))
        self.refused(misteluk.errors.BadSlot, "the slots are 0 to 1", lambda: store._open(2))
        self.refused(misteluk.errors.AlreadyOpen, "open(0)", lambda: store._open(0))
        self.refused(LookupError, "", lambda: session.predecessors("z", "k"))
        self.refused(misteluk.errors.BadWindow, "since 2 is after until 1", lambda: session.predecessors("a", since=2, until=1))
        self.assertEqual(session.degrees()["a"], Degree(1, 0, 1))

    def test_what_a_session_has(self):
        """It is said of what a store is asked for in a session's place, and of nothing else."""
        store = self.store()
        for name in ("edges", "degrees", "edge_count", "vertex_count", "version"):
            with self.assertRaisesRegex(AttributeError, f"a store has no '{name}', but a session does: .*`session.{name}`"):
                getattr(store, name)
        for name in ("edgez", "_terms", "__wrapped__"):
            self.assertRaisesRegex(AttributeError, f"object has no attribute '{name}'", getattr, store, name)

    def test_seats(self):
        store = self.store(seats=1)
        with store.open() as session:
            self.refused(misteluk.errors.NoSeat, "all 1 seats hold sessions", store.open)
        self.refused(misteluk.SessionClosed, "the session of version 0 is closed", session.degrees)
        session.close()
        store.open().close()

    def test_arguments(self):
        for wrong in ({"blocks": 15}, {"blocks": 1 << 32}, {"seats": 17}, {"seats": 0}):
            with self.assertRaises(ValueError):
                Store(**wrong)
        for wrong in ({"weight_scale": 0}, {"weight_scale": -1}, {"weight_scale": 3}, {"times": "iso8601"},
                      {"decimals": "exact"}):
            with self.assertRaises(ValueError):
                Units(**wrong)
        self.assertEqual(self.store("insert k a b 1 1", blocks=16, seats=16)._open(15).version, 1)

    def test_nothing_is_lost_unsaid(self):
        with self.assertRaises(misteluk.errors.Uncommitted) as told:
            with Store() as store:
                store.insert("k", "a", "b")
        self.assertEqual(told.exception.operations, ["i,k,a,b,1,0\n"])
        self.refused(misteluk.StoreError, "the store is closed", lambda: store.load([("a", "b")], by="set"))
        with self.assertWarnsRegex(UserWarning, "1 operations were pending"), self.assertRaises(KeyError):
            with Store() as store:
                store.insert("k", "a", "b")
                raise KeyError
        with Store() as store:
            store.insert("k", "a", "b")
            self.assertEqual(store.discard(), 1)
        self.refused(misteluk.StoreError, "the store is closed", store.stat)


if __name__ == "__main__":
    unittest.main()
