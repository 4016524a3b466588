"""Amounts of a period, as what became of edges from one version to a later one, beside pandas and plain sums of the rows; and
degrees by the edges among some vertices."""
import pickle
import random
import unittest
from array import array
from collections import defaultdict
from decimal import Decimal

from support import IN_PROCESS, IS_SERVED, Case, optional

import misteluk
from misteluk import Columns, Degree, Flow, Limits, Units, errors, totals

pandas = optional("pandas")
MONTHS, PEOPLE = range(1, 7), [f"p{it}" for it in range(9)]
OF_BANK = Columns("from", "to", weight="amount", time="day", default_kind="transfer")


def transfers(seed):
    """A year's half of transfers: standing orders, which come each month, of which one ends and one begins, and others. Some come
    several times in a month, and some go back."""
    random_, rows = random.Random(seed), []
    for month in MONTHS:
        day = f"2024-{month:02}-01"
        rows += [(day, person, "landlord", f"{500 + at}.25") for at, person in enumerate(PEOPLE)]
        rows += [(day, "employer", person, "2000") for person in PEOPLE[:7 - month]]
        rows += [(f"2024-{month:02}-{random_.randrange(2, 28):02}", *random_.sample(PEOPLE, 2),
                  f"{random_.randrange(-300, 9_000) / 100:.2f}") for _ in range(25)]
    return sorted(rows)


def by_hand(rows):
    """By name how many others got money from them and gave them some, and how much went out and came in."""
    pairs, amounts = {(source, target) for _, source, target, _ in rows}, defaultdict(Decimal)
    for _, source, target, amount in rows:
        amounts["out", source] += Decimal(amount)
        amounts["in", target] += Decimal(amount)
    names = {it for pair in pairs for it in pair}
    return {it: Flow(sum(pair[0] == it for pair in pairs), sum(pair[1] == it for pair in pairs), amounts["out", it],
                     amounts["in", it]) for it in names}


def by_pandas(rows):
    frame = pandas.DataFrame(rows, columns=["day", "from", "to", "amount"])
    frame["amount"] = frame["amount"].map(Decimal)
    pairs = frame.drop_duplicates(["from", "to"])
    return pandas.DataFrame({"out": pairs.groupby("from").size(), "into": pairs.groupby("to").size(),
                             "weight_out": frame.groupby("from")["amount"].sum(),
                             "weight_in": frame.groupby("to")["amount"].sum()}).fillna(0)


class Months(Case):
    def months(self, rows):
        """By month the session that was opened at its end, and its rows."""
        store = self.store(units=Units(weight_scale=100, times="iso"), seats=16)
        found = {0: (store.open(), [])}
        for month in MONTHS:
            of_month = [it for it in rows if int(it[0][5:7]) == month]
            columns = dict(zip(("day", "from", "to", "amount"), map(list, zip(*of_month))))
            store.load(columns, by="add", columns=OF_BANK)
            found[month] = store.open(), of_month
        return found

    def test_amounts_of_each_month_and_of_several(self):
        for seed in range(3):
            months = self.months(transfers(seed))
            for first, last in [*((it - 1, it) for it in MONTHS), (0, 6), (2, 5), (3, 3)]:
                flows = months[last][0].flows(months[first][0])
                wanted = by_hand([row for month in range(first + 1, last + 1) for row in months[month][1]])
                self.assertEqual({it: flow for it, flow in flows.items() if flow != Flow(0, 0, 0, 0)}, wanted)
                self.assertEqual((flows.names, flows.version), (months[last][0].vertices(), months[last][0].version))

    @unittest.skipUnless(pandas, "pandas is not there")
    def test_they_are_those_of_pandas(self):
        months = self.months(transfers(7))
        for month in MONTHS:
            frame = months[month][0].flows(months[month - 1][0]).to_pandas()
            wanted = by_pandas(months[month][1])
            self.assertEqual(frame.loc[wanted.index].astype(object).to_dict(), wanted.astype(object).to_dict())
            self.assertFalse(frame.drop(wanted.index).astype(float).to_numpy().any())

    def test_what_a_window_says_is_something_else(self):
        """The whole weight of the edges that were used in it: of a standing order that of all months."""
        months = self.months([(f"2024-{month:02}-01", "ana", "landlord", "700") for month in MONTHS])
        june, may = months[6][0], months[5][0]
        self.assertEqual((june.degrees(since="2024-06-01")["ana"].weight_out, june.flows(may)["ana"].weight_out), (4200, 700))

    def test_months_as_kinds_and_counts_as_one(self):
        """What nobody held versions for: each month's transfers are a kind, and so are their numbers."""
        rows = transfers(5)
        store = self.store(units=Units(weight_scale=100, times="iso"))
        kinds = [(source, target, amount, day, day[:7]) for day, source, target, amount in rows]
        store.load(kinds + [(source, target, 1, day, "count") for day, source, target, _ in rows], by="add")
        session = store.open()
        for month in MONTHS:
            kind, wanted = f"2024-{month:02}", by_hand([it for it in rows if int(it[0][5:7]) == month])
            weights, degrees = session.weights_in(kind), session.degrees(kind)
            self.assertEqual({it: (degrees[it].out, degrees[it].into, degrees[it].weight_out, weights[it]) for it in wanted}, {
                it: (flow.out, flow.into, flow.weight_out, flow.weight_in) for it, flow in wanted.items()})
        self.assertEqual({it: degree.weight_out for it, degree in session.degrees("count").items()}, {
            it: sum(row[1] == it for row in rows) for it in session.vertices()})

    def test_what_was_removed_and_used_without_an_amount(self):
        """A removed edge goes with its weight; one with another time alone is changed, and so is one whose weight fell."""
        store = self.store("insert k a b 5 1", "insert k b c 7 2", "insert l c a 9 3", "insert l c b 2 4")
        before = store.open()
        self.feed(store, "remove k a b", "insert k b c 7 5", "add l c a -4 6", "insert m d d 3 7")
        after = store.open()
        flows = after.flows(before)
        self.assertEqual(flows, {"a": Flow(1, 1, -5, -4), "b": Flow(1, 1, 0, -5), "c": Flow(1, 1, -4, 0), "d": Flow(1, 1, 3, 3)})
        self.assertEqual(after.flows(before, kind="l"), {"a": Flow(0, 1, 0, -4), "b": Flow(0, 0, 0, 0), "c": Flow(1, 0, -4, 0),
                                                         "d": Flow(0, 0, 0, 0)})
        self.assertEqual(after.flows(before, "m")["d"], Flow(1, 1, 3, 3))
        self.assertEqual((flows.top(1, by="weight_in"), flows.request, flows.value, after.flows(before, "m").request), (
            [("d", Flow(1, 1, 3, 3))], "flows()", "flow", "flows(kind='m')"))
        copy = pickle.loads(pickle.dumps(flows))
        self.assertEqual((copy, list(copy.columns)), (flows, ["out", "into", "weight_out", "weight_in"]))
        self.assertEqual(set(after.flows(after).values()), {Flow(0, 0, 0, 0)})
        self.assertIn("<td>weight_in</td>", flows._repr_html_())

    def test_what_is_refused(self):
        store = self.store("insert k a b 5 1", seats=4)
        first = store.open()
        self.feed(store, "insert k b c 7 2")
        second, other = store.open(), self.store("insert k x y 1 1").open()
        self.refused(ValueError, "version 2 has names that version 1 has in other places, or not at all",
                     lambda: first.flows(second))
        self.refused(ValueError, "diff compares any two", lambda: second.flows(other))
        self.refused(ValueError, "have other units", lambda: self.store(units=Units(weight_scale=10)).open().flows(
            self.store().open()))
        self.refused(errors.NoKind, "flows(kind='sea')", lambda: second.flows(first, "sea"))
        self.refused(errors.NoKind, "'a' is a vertex", lambda: second.flows(first, kind="a"))
        first.close()
        self.refused(errors.SessionClosed, "version 1", lambda: second.flows(first))
        second.close()
        self.refused(errors.SessionClosed, "version 2", lambda: second.flows(other))

    @unittest.skipIf(IS_SERVED, IN_PROCESS)
    def test_names_that_changed_places(self):
        """A store that dropped names, or has begun anew from an older version and got others, has them elsewhere; one that is
        restored has them where they were."""
        store = self.store(endless=True, limits=Limits(vertices=3))
        self.feed(store, "insert k a b 5 1", "insert k b c 6 2")
        before = store.open()
        self.feed(store, "remove k a b")
        self.feed(store, "insert k c d 7 3")
        after = store.open()
        self.assertEqual(after.vertices(), ("b", "c", "d"))
        self.refused(ValueError, "in other places", lambda: after.flows(before))
        self.assertEqual(before.diff(after).counts(), {"gone": 1, "new": 1, "changed": 0})
        before.save(self.room / "saved.csv")
        with misteluk.Store.restore(self.room / "saved.csv") as restored:
            self.feed(restored, "add k a b 2 9")
            self.assertEqual(restored.open().flows(before), {"a": Flow(1, 0, 2, 0), "b": Flow(0, 1, 0, 2), "c": Flow(0, 0, 0, 0)})


class Among(Case):
    def test_among_some(self):
        session = self.store("insert k a b 5 1", "insert k b c 7 2", "insert l c a 9 3", "insert l a c -2 4", "insert k a a 1 5",
                             units=Units(weight_scale=10)).open()
        for among in (["c", "a"], ("a", "c", "a"), {"a", "c"}, iter(["c", "a"])):
            found = session.degrees(among=among)
            self.assertEqual(found, {"a": Degree(2, 2, Decimal(-1)), "c": Degree(1, 1, Decimal(9))})
            self.assertEqual((list(found), found.request), (["a", "c"], "degrees(among=['a', 'c'])"))
        self.assertEqual(session.degrees("l", among=["a", "c"]), {"a": Degree(1, 1, Decimal(-2)), "c": Degree(1, 1, Decimal(9))})
        self.assertEqual(session.degrees(since=2, until=3, among="abc".replace("", " ").split()), {
            "a": Degree(0, 1, 0), "b": Degree(1, 0, Decimal(7)), "c": Degree(1, 1, Decimal(9))})
        self.assertEqual(session.degrees(among=session.vertices()), session.degrees())
        self.assertEqual(session.degrees(among=[]), {})

    def test_what_is_refused(self):
        session = self.store("insert k a b 5 1").open()
        self.refused(TypeError, "among has names of vertices, as ['a'], and isn't one itself", lambda: session.degrees(among="a"))
        self.refused(errors.NoVertex, "degrees(among=['nobody'])", lambda: session.degrees(among=["a", "nobody"]))
        self.refused(errors.NoKind, "'sea'", lambda: session.degrees("sea", among=["a"]))
        self.refused(TypeError, "7", lambda: session.degrees(among=["a", 7]))

    def test_many_edges(self):
        """A sum beyond what 64 bits hold is whole too."""
        random_ = random.Random(3)
        rows = {(f"v{random_.randrange(60)}", f"v{random_.randrange(60)}"): random_.randrange(-999, 999) for _ in range(600)}
        store = self.store()
        store.load([(*ends, weight) for ends, weight in rows.items()], by="set")
        some = [f"v{it}" for it in range(0, 60, 2)]
        inner = {ends: weight for ends, weight in rows.items() if set(ends) <= set(some)}
        with store.open() as session:
            self.assertEqual(session.degrees(among=some), {it: Degree(
                sum(ends[0] == it for ends in inner), sum(ends[1] == it for ends in inner),
                sum(weight for ends, weight in inner.items() if ends[0] == it)) for it in some})
        self.assertEqual(totals.summed(array("I", [1]) * 512, array("q", [1 << 54]) * 512, 2), [0, 1 << 63])


if __name__ == "__main__":
    unittest.main()
