"""What a server tells of each version: which vertices its batches touched, also to a reader that comes again, over a restart of
the server too; and what was fed over an hour."""
import http.client
import json
import random
import unittest
from unittest import mock

from described import faults
from serving import ROWS, Clock, FollowCase, ServeCase
from support import as_soon_as

import misteluk
from misteluk import Store
from misteluk.engine.operations import INSERT, Operations
from misteluk.journal import recovery
from misteluk.serve import recent, schemas
from misteluk.serve.rate import STEP, STEPS, Rate
from misteluk.serve.recent import Known, Recent
from misteluk.serve.replica import Replica
from misteluk.serve.server import Server


class Listening(ServeCase):
    def events(self, known="", port=None):
        """A stream of events."""
        link = http.client.HTTPConnection("127.0.0.1", port or self.server.address.port, timeout=60)
        self.addCleanup(link.close)
        link.request("GET", "/v1/events", headers={"Last-Event-ID": known} if known else {})
        return link.getresponse()

    def event(self, stream):
        """The next event's id and what it tells, which is as it is described."""
        fields = {}
        while not fields.get("data"):
            name, _, text = stream.readline().decode().rstrip("\n").partition(": ")
            fields[name] = text
        told = json.loads(fields["data"])
        self.assertEqual(list(faults(told, schemas.EVENT)), [])
        return fields["id"], told

    def touched(self, stream):
        return self.event(stream)[1]["touched"]

    def add(self, *rows):
        self.assertEqual(self.post("/v1/rows", {"rows": [["add", "k", *it, 1, 1] for it in rows]}).status, 200)


class Touched(Listening):
    def test_names(self):
        """Of each row, whatever it does; each once, in the order of the rows, and as a user has them."""
        self.serve()
        stream = self.events()
        self.assertIsNone(self.touched(stream))
        odd = ["-", "~~0123456789abcdefghij"]
        for rows, names in (([["add", "k", "b", "a", 1, 1], ["insert", "k", "Иван", "a", 1, 1]], ["b", "a", "Иван"]),
                            ([["remove", "k", "b", "a"], ["remove", "k", "x", "b"]], ["b", "a", "x"]),
                            ([["expire", 9], ["add", "k", *odd, 1, 9]], odd),
                            ([["expire", 9]], [])):
            version = self.server.board.stat.version
            self.assertEqual(self.post("/v1/rows", {"rows": rows}).status, 200)
            told = self.event(stream)[1]
            self.assertEqual(told["touched"], {"after": version, "count": len(names), "names": names})
        self.assertEqual((told["version"], told["expired"]), (4, 1))

    def test_a_reader_that_comes_again(self):
        """It is told what all batches touched behind the version that it knows; who knows another store's is told nothing."""
        self.serve()
        self.add(("a", "b"))
        first, _ = self.event(self.events())
        self.add(("c", "b"))
        self.add(("d", "c"), ("a", "d"))
        self.assertEqual(self.touched(self.events(first)), {"after": 1, "count": 4, "names": ["c", "b", "d", "a"]})
        run = self.ask("/v1/stat").json["server"]
        self.assertEqual(self.touched(self.events(f"{run}:2")), {"after": 2, "count": 3, "names": ["d", "c", "a"]})
        for known in (f"{run}x:1", "other:1", f"{run}:4", f"{'00' * 16}:0", run, ":", f"{run}:x", f"{run}:{'9' * 18}"):
            self.assertIsNone(self.touched(self.events(known)), known)

    def test_a_client_s_batches(self):
        """Those of a client in Python, of several batches that are one version, and of columns."""
        self.serve()
        stream = self.events()
        self.event(stream)
        with misteluk.connect(self.server.url) as store:
            for it in range(3):
                store.add("k", "hub", f"n{it}")
            store.commit()
            self.assertEqual(self.touched(stream)["names"], ["hub", "n0", "n1", "n2"])
            store.load([("x", "y")], by="set", progress=False)
        self.assertEqual(self.touched(stream)["names"], ["x", "y"])
        self.add(*((f"s{it}", "t") for it in range(5_000)))
        self.assertEqual(self.touched(stream), {"after": 2, "count": 5_001})

    def test_a_client_that_follows(self):
        """A feed that a client reads by itself and commits at a server: it is told of each batch too."""
        self.serve()
        path, told = self.file("feed.csv", "ana,Иван Петров,5,1\nana,bob,5,1\ncat,bob,5,1\n"), []
        with misteluk.connect(self.server.url) as store:
            with store.follow(path, by="add", columns=ROWS, batch=2, every=0, until_end=True, on=told.append) as following:
                self.assertEqual([it.commit.version for it in following], [1, 2])
        self.assertEqual(told, [misteluk.Touched(1, ("ana", "Иван Петров", "bob")), misteluk.Touched(2, ("cat", "bob"))])

    def test_how_many_are_told(self):
        """Up to a thousand their names, and of more how many they are."""
        self.serve()
        stream = self.events()
        self.event(stream)
        self.add(*((f"s{it}", "t") for it in range(recent.MOST_TOLD - 1)))
        told = self.touched(stream)
        self.assertEqual((told["count"], len(told["names"])), (1_000, 1_000))
        self.add(*((f"s{it}", "t") for it in range(recent.MOST_TOLD)))
        self.assertEqual(self.touched(stream), {"after": 1, "count": 1_001})

    def test_batches_that_are_forgotten(self):
        """So many names are known at most; what isn't known any more isn't told as if it were all."""
        before = recent.MOST_KEPT
        recent.MOST_KEPT = 12
        self.addCleanup(setattr, recent, "MOST_KEPT", before)
        self.serve()
        run = self.ask("/v1/stat").json["server"]
        for it in range(5):
            self.add((f"a{it}", "x"), (f"b{it}", "x"))
        self.assertIsNone(self.touched(self.events(f"{run}:1")))
        self.assertEqual(self.touched(self.events(f"{run}:2"))["names"], ["a2", "x", "b2", "a3", "b3", "a4", "b4"])
        self.add(*((f"c{it}", "x") for it in range(50)))
        self.assertIsNone(self.touched(self.events(f"{run}:4")))
        self.assertEqual(self.touched(self.events(f"{run}:5"))["count"], 51)

    def test_a_model(self):
        """Whatever a reader knows, and whatever is known still."""
        chance = random.Random(8)
        for most in (8, 40, 1 << 18):
            before, recent.MOST_KEPT = recent.MOST_KEPT, most
            self.addCleanup(setattr, recent, "MOST_KEPT", before)
            with Store() as store:
                found, batches = Recent(store), {}
                for version in range(1, 40):
                    ends = [(chance.choice("abcdefg"), chance.choice("abcdefg")) for _ in range(chance.randrange(4))]
                    batches[version] = list(dict.fromkeys(it for both in ends for it in both))
                    found.note(version, Operations([(INSERT, "k", *it, 1, 1) for it in ends]))
                    after = chance.randrange(version + 2)
                    told = found.since(after, version)
                    if told is None:
                        self.assertTrue(after > version or most < 100, (after, version))
                        continue
                    wanted = list(dict.fromkeys(it for at in range(after + 1, version + 1) for it in batches[at]))
                    self.assertEqual(told, {"after": after, "count": len(wanted), "names": wanted})


class OfFiles(FollowCase, Listening):
    def test_a_feed_that_is_followed(self):
        path = self.file("feed.csv", "ana,Иван Петров,5,1\nana,bob,5,1\n")
        self.serve()
        stream = self.events()
        self.event(stream)
        following = self.follow(path, keep=10)
        names = self.touched(stream)["names"]
        self.assertEqual(names, ["ana", "Иван Петров", "bob"])
        self.append(path, "cat,bob,1,50\n")
        self.assertEqual(self.touched(stream)["names"], ["cat", "bob"])
        as_soon_as(lambda: self.of_feed()["expired"] == 2)
        following.stop()


class Restarts(Listening):
    """Servers of a store's file, one after another, and a replica."""

    def setUp(self):
        super().setUp()
        self.path = str(self.room / "graph.db")

    def begin(self, **options):
        store = Store(self.path, seats=16, **options)
        self.addCleanup(store.close)
        self.server = Server(store, "127.0.0.1:0").start()
        self.addCleanup(self.server.stop)
        return store

    def end(self, store):
        self.server.stop()
        store.close()

    def test_a_reader_goes_on(self):
        """By what the file has, where the version that it knows is the file's; another file's version of this number isn't."""
        store = self.begin()
        nothing, _ = self.event(self.events())
        self.add(("a", "b"), ("Иван Петров", "b"))
        known, told = self.event(self.events())
        self.assertEqual((told["version"], told["touched"]), (1, None))
        self.add(("c", "b"))
        self.end(store)
        store = self.begin()
        self.add(("d", "b"))
        self.assertEqual(self.touched(self.events(known)), {"after": 1, "count": 3, "names": ["c", "b", "d"]})
        self.assertEqual(self.touched(self.events(nothing))["names"], ["a", "b", "Иван Петров", "c", "d"])
        self.end(store)
        self.path = str(self.room / "another.db")
        self.begin()
        self.add(("a", "b"))
        self.add(("c", "b"))
        for it in (known, f"{'00' * 16}:{'9' * 18}", f"x:{'9' * 30}"):
            self.assertIsNone(self.touched(self.events(it)))

    def test_what_the_file_has_no_more(self):
        store = self.begin()
        self.add(("a", "b"))
        known, _ = self.event(self.events())
        for it in range(2):
            self.add((f"c{it}", "b"))
            store.file.compact(0)
        later, _ = self.event(self.events())
        self.end(store)
        self.begin()
        self.add(("d", "b"))
        self.assertIsNone(self.touched(self.events(known)))
        self.assertEqual(self.touched(self.events(later))["names"], ["d", "b"])

    def test_what_is_too_much_to_be_read(self):
        """Some megabytes of the file's batches are read at most; a part of them is told as nothing known."""
        store = self.begin()
        known, _ = self.event(self.events())
        for it in range(3):
            self.add((f"c{it}", "b"))
        later = f"{store._engine.sum_of(2)}:2"
        self.end(store)
        self.begin()
        with mock.patch.object(recovery, "MOST_BYTES", 10):
            self.assertIsNone(self.touched(self.events(known)))
            self.assertEqual(self.touched(self.events(later))["names"], ["c2", "b"])
        self.assertEqual(self.touched(self.events(known))["count"], 4)

    def test_a_replica(self):
        """It tells of what it applied."""
        self.begin()
        self.add(("a", "b"))
        replica = Replica(self.path)
        self.addCleanup(replica.close)
        server = Server(replica.store, "127.0.0.1:0", replica=replica).start()
        self.addCleanup(server.stop)
        stream = self.events(port=server.address.port)
        self.event(stream)
        self.add(("Иван Петров", "b"), ("c", "b"))
        self.assertEqual(self.touched(stream), {"after": 1, "count": 3, "names": ["Иван Петров", "b", "c"]})


class Ids(unittest.TestCase):
    def test_what_is_read(self):
        self.assertEqual(Known.read("ab:12"), Known("ab", 12))
        self.assertEqual(Known.read(Known("x", 5).written()), Known("x", 5))
        for it in ("", ":", "ab", "ab:", ":1", "ab:-1", "ab:x", "ab:١", f"ab:{'1' * 19}", "ab: 1"):
            self.assertIsNone(Known.read(it), it)


class Rates(ServeCase):
    def test_an_hour(self):
        """Rows by steps of ten seconds since the server began, an hour at most; a step without a row has none."""
        clock = Clock()
        clock.now = 100.0
        rate = Rate(clock)
        self.assertEqual(rate.told(), {"step": 10, "age": 0.0, "rows": [0], "total": 0})
        for now, rows in ((100, 5), (109.9, 1), (110, 7), (135, 2)):
            clock.now = now
            rate.add(rows)
        self.assertEqual(rate.told(), {"step": 10, "age": 5.0, "rows": [6, 7, 0, 2], "total": 15})
        clock.now = 100 + 3_599
        self.assertEqual(rate.told()["rows"], [6, 7, 0, 2, *[0] * 356])
        clock.now = 100 + 3_600
        self.assertEqual(rate.told()["rows"], [7, 0, 2, *[0] * 357])
        chance, added = random.Random(3), {}
        for _ in range(5_000):
            clock.now += chance.random() * 30
            rate.add(3)
            step = int(clock.now - 100) // STEP
            added[step] = added.get(step, 0) + 3
        last = int(clock.now - 100) // STEP
        self.assertEqual(rate.told()["rows"], [added.get(it, 0) for it in range(last - STEPS + 1, last + 1)])

    def test_the_call(self):
        self.fed()
        told = self.ask("/v1/rate").json
        self.assertEqual((sum(told["rows"]), told["total"], told["step"]), (4, 4, 10))


if __name__ == "__main__":
    unittest.main()
