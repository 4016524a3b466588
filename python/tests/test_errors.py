"""What errors tell, each text worked out by hand, and what a server and a command make of them."""
import pickle
import unittest

from support import Case

from misteluk import errors
from misteluk.errors import Place, refusal
from misteluk.values.records import Fault

NO_VERTEX = "The version that the session holds has no such name; a later one may"
OF_DATES = "Dates are taken by a store with Units(times='iso') (--times iso)"
LESS = "Make batches smaller, or give the store more blocks"
WITHOUT = "The others can be loaded without them: skip_bad=True (--skip-bad)"
AT, A_TIME = Place("f.csv", 7), Fault("BadTime", "time", "x", "it is no number")
# By the status of a server's answer the errors that have it; 400 have all others.
STATUSES = {403: "NotAllowed ReadOnly", 404: "NoKind NoVertex", 410: "SessionClosed", 413: "TooLarge",
            409: "BatchLimit NamesFull KindsFull PoolEmpty Busy Locked SequenceTaken",
            503: "NoMemory NoSeat NoAnswer JournalError JournalFault NotWritten"}


class Refusals(Case):
    def test_what_is_told(self):
        """The place, the word, and why; and all of it with the advice."""
        for fault, told, advice in (
                (errors.NoVertex(), "NoVertex", NO_VERTEX),
                (errors.NoVertex("edge('k', 'a', 'b')"), "NoVertex: edge('k', 'a', 'b')", NO_VERTEX),
                (errors.NoVertex("x", advice="Look"), "NoVertex: x", "Look"),
                (errors.NoVertex("x", advice=""), "NoVertex: x", ""),
                (errors.BadTime("why", place=AT), "f.csv:7: BadTime: why", OF_DATES),
                (errors.BadTime(place=AT, fault=A_TIME), "f.csv:7: BadTime: time 'x': it is no number", OF_DATES),
                (errors.BadTime("why", fault=A_TIME), "BadTime: why", OF_DATES),
                (errors.BadWeight("why", word="Other"), "Other: why", ""),
                (refusal("NoVertex", "x", place=AT), "f.csv:7: NoVertex: x", NO_VERTEX),
                (refusal("Strange", "x"), "Strange: x", ""), (refusal("PoolEmpty", "x", advice="Look"), "PoolEmpty: x", ""),
                (errors.PoolEmpty(needed=7, free=3), "PoolEmpty: the batch needs 7 free blocks, and 3 are free", LESS),
                (errors.PoolEmpty(needed=7, free=0, place=AT),
                 "f.csv:7: PoolEmpty: the batch needs 7 free blocks, and 0 are free", LESS),
                (errors.PoolEmpty(needed=7, free=None), "PoolEmpty: the batch needs 7 free blocks", LESS),
                (errors.PoolEmpty(needed=7, free=3, text="no room", advice=""), "PoolEmpty: no room", "")):
            self.assertEqual((fault.message, fault.advice), (told, advice))
            self.assertEqual(str(fault), f"{told}. {advice}" if advice else told)

    def test_what_it_has(self):
        found = refusal("BadTime", place=AT, fault=A_TIME)
        self.assertEqual((type(found), found.word, found.place, found.field, found.reason, found.applied),
                         (errors.BadTime, "BadTime", AT, "time", "it is no number", None))
        bare = refusal("BadTime", "x")
        self.assertEqual((bare.word, bare.place, bare.fault, bare.field, bare.reason), ("BadTime", None, None, None, None))
        self.assertEqual([(type(it), it.word) for it in (refusal("Strange"), refusal("PoolEmpty"), refusal("NoKind"))],
                         [(errors.Refused, "Strange"), (errors.Refused, "PoolEmpty"), (errors.NoKind, "NoKind")])
        full = errors.PoolEmpty(needed=7, free=3)
        self.assertEqual((full.needed, full.free, full.word), (7, 3, "PoolEmpty"))
        again = pickle.loads(pickle.dumps(full))
        self.assertEqual((type(again), again.needed, again.free, str(again)), (errors.PoolEmpty, 7, 3, str(full)))
        over = errors.OverLimit("too many", {"names": 9})
        self.assertEqual((str(over), over.counts), ("too many", {"names": 9}))


class Rows(Case):
    def bad(self, count, rows, *lines, **more):
        """An error of so many of these rows, of which those in some lines are told."""
        faults = [errors.BadTime(f"t{line}", place=Place("f", line)) for line in lines]
        return str(errors.BadRows("f", count, rows, faults, **more)).split("\n  ")

    def test_how_many(self):
        first = "f:1: BadTime: t1"
        for count, rows, lines, head, tail in (
                (1, 9, [1], "f: 1 of 9 rows can't be taken, and none is loaded", [first, OF_DATES, WITHOUT]),
                (9, 9, [1], "f: 9 of 9 rows can't be taken, and none is loaded", [first, "and 8 more rows", OF_DATES]),
                (8, 9, [1], "f: 8 of 9 rows can't be taken, and none is loaded", [first, "and 7 more rows", OF_DATES, WITHOUT]),
                (2, 9, [1], "f: 2 of 9 rows can't be taken, and none is loaded", [first, "and 1 more row", OF_DATES, WITHOUT]),
                (3, 9, [1], "f: 3 of 9 rows can't be taken, and none is loaded", [first, "and 2 more rows", OF_DATES, WITHOUT]),
                (2, 2, [1, 2], "f: 2 of 2 rows can't be taken, and none is loaded", [first, "f:2: BadTime: t2", OF_DATES]),
                (1, 1, [1, 1], "f: 1 of 1 rows can't be taken, and none is loaded", [first, first, OF_DATES]),
                (2, 2, [1, 1], "f: 2 of 2 rows can't be taken, and none is loaded", [first, first, "and 1 more row", OF_DATES])):
            self.assertEqual(self.bad(count, rows, *lines), [head, *tail])
        self.assertEqual(self.bad(1, 2, 1, stands="no row is in")[0], "f: 1 of 2 rows can't be taken, and no row is in")

    def test_rules(self):
        """How many rows break each is told of several."""
        self.assertEqual(self.bad(3, 3, 1, fault_counts={"BadTime time": 3}), self.bad(3, 3, 1))
        told = self.bad(3, 3, 1, fault_counts={"BadTime time": 2, "BadName source": 1})
        self.assertEqual(told[3:], ["In all 2 BadTime time, 1 BadName source", OF_DATES])
        found = errors.BadRows("f", 3, 9, [errors.BadTime()], {"BadTime time": 3})
        self.assertEqual((found.feed, found.count, found.rows, len(found.faults), found.fault_counts),
                         ("f", 3, 9, 1, {"BadTime time": 3}))
        self.assertEqual(errors.BadRows("f", 3, 9, []).fault_counts, {})


class Outside(unittest.TestCase):
    def test_statuses(self):
        wanted = {name: status for status, names in STATUSES.items() for name in names.split()}
        self.assertEqual({name: it.status for name, it in errors.TABLE.items()},
                         {name: wanted.get(name, 400) for name in errors.TABLE})

    def test_what_is_missing(self):
        with self.assertRaises(errors.Missing) as caught:
            errors.needed("nowhere.at_all", "a graph")
        self.assertEqual(str(caught.exception),
                         "a graph needs nowhere: apt-get install python3-nowhere, or pip install nowhere")
        self.assertIs(errors.needed("pickle", "a graph"), pickle)


if __name__ == "__main__":
    unittest.main()
