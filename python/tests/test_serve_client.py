"""The store of a server by steps, without one: what a client asks for, and what it makes of each answer and fault."""
import json
import unittest
from array import array
from unittest import mock

from support import IS_SERVED, IN_PROCESS

from misteluk import Commit, SessionClosed, Stat, StoreError
from misteluk.engine.operations import Operations
from misteluk.engine.protocol import WHOLE, Denied
from misteluk.errors import Busy, NoAnswer, NoServer, NotAllowed, Refused
from misteluk.serve import client
from misteluk.serve.client import ServedEngine, ServedStore
from misteluk.serve.talk import Told
from misteluk.values.parcels import packed

STAT = {"version": 7, "vertices": 3, "edges": 2, "blocks": {"all": 64, "grow": True, "free": 50, "retired": 4, "used": 10},
        "seats": 5, "limits": {"idle": 60.0, "body": 999},
        "units": {"weight_scale": 1, "times": "number", "decimals": "decimal", "rounding": None}}
DONE = {"version": 8, "inserted": 1, "updated": 0, "removed": 0, "absent": 0, "overflowed": 0, "batches": 1, "expired": 0}
SEAT, BATCH = ("POST", "/v1/feeder"), "/v1/feeder/seat/batches/"


class Talk:
    """What answers as a server would, by the method and path; and notes what it was asked."""

    url, run, most_body = "URL", "run-1", 0

    def __init__(self):
        self.asked, self.is_closed = [], False
        self.answers = {("GET", "/v1/stat"): STAT, SEAT: {"feeder": "seat"}, ("DELETE", "/v1/feeder/seat"): None}

    def call(self, method, path, body=None):
        self.asked.append((method, path) if body is None else (method, path, body))
        found = self.answers[method, path]
        found = found(body) if callable(found) else found
        if isinstance(found, Exception):
            raise found
        return Told(200, "application/json", found if isinstance(found, bytes) else json.dumps(found).encode())
    ask = call

    def apart(self):
        return mock.Mock()

    def close(self):
        self.is_closed = True

    def taken(self):
        """What was asked since the last time."""
        found, self.asked = self.asked, []
        return found


@unittest.skipIf(IS_SERVED, IN_PROCESS)
class Engines(unittest.TestCase):
    def setUp(self):
        self.talk = Talk()
        self.engine = ServedEngine(self.talk)
        self.talk.taken()

    def held(self, at=0, version=7, **how):
        self.talk.answers["POST", "/v1/sessions"] = {"session": f"s{at}", "version": version, "vertices": 3}
        self.talk.answers["DELETE", f"/v1/sessions/s{at}"] = None
        found = self.engine.hold(None, **how)
        self.addCleanup(found._hold._forgotten.detach)
        return found

    def flight(self, *rows):
        return self.engine.flight(Operations(list(rows or [(0, "k", "a", "b", 1, 1)])), True)

    def told(self, call, *given):
        """What a call gives, or the kind and text of what it raises."""
        try:
            return call(*given)
        except StoreError as fault:
            return type(fault), str(fault)

    def test_what_it_knows_at_first(self):
        self.assertEqual((self.talk.most_body, self.engine.idle, self.engine.seats, self.engine.grows), (999, 60.0, 5, True))
        self.assertEqual((self.engine.blocks, self.engine.stat(), self.engine.told()),
                         (client.MOST_BLOCKS, Stat(7, 3, 2, 50, 4, 10), "the server URL"))
        talk = Talk()
        talk.answers["GET", "/v1/stat"] = {**STAT, "blocks": {**STAT["blocks"], "grow": False}}
        self.assertEqual(ServedEngine(talk).blocks, 64)
        for wrong in ({"seats": 5}, {**STAT, "limits": None}, NoServer("gone")):
            talk = Talk()
            talk.answers["GET", "/v1/stat"] = wrong
            self.assertRaises(StoreError, ServedEngine, talk)
            self.assertTrue(talk.is_closed)

    def test_slots(self):
        """The first one that is free; one that nobody has any more is free too."""
        held = [self.held(it) for it in range(3)]
        self.assertEqual(([it.slot for it in held], self.engine.open_count), ([0, 1, 2], 3))
        held[1].close()
        self.assertEqual((self.engine.open_count, self.held(3).slot), (2, 1))
        self.assertRaises(Denied, self.engine.hold, 0)
        del held[0]
        self.assertEqual(self.held(4).slot, 0)

    def test_a_version_that_is_closed_asks_nothing(self):
        held = self.held()
        self.talk.answers["POST", "/v1/sessions/s0/ask"] = b"".join(packed([array("I", (1, 2, 3))]))
        self.assertEqual(list(held.cores(WHOLE)), [1, 2, 3])
        held.close()
        self.talk.taken()
        self.assertEqual(self.told(held.cores, WHOLE), (SessionClosed, "the session of version 7 is closed"))
        self.assertEqual(self.talk.taken(), [])

    def test_a_version_that_the_server_let_go(self):
        held = self.held()
        self.talk.answers["POST", "/v1/sessions/s0/ask"] = SessionClosed("why")
        self.assertEqual(self.told(held.cores, WHOLE),
                         (SessionClosed, "the server let version 7 go: why. Open another session"))
        self.assertFalse(held.is_open)
        self.talk.taken()
        held.close()
        self.assertEqual((self.talk.taken(), self.engine.open_count), ([], 0))

    def test_names_are_asked_for_once(self):
        held = self.held()
        self.talk.answers["POST", "/v1/sessions/s0/ask"] = lambda asked: {"names": [asked["call"]], "texts": {}}
        for _ in range(2):
            self.assertEqual((held.names(), held.kinds()), (["names"], ["kinds"]))
        self.assertEqual([it[2]["call"] for it in self.talk.taken()[1:]], ["names", "kinds"])

    def test_many_edges(self):
        """So many at once; an answer has what each has, nothing, or the word of what the version lacks."""
        held = self.held()
        self.talk.answers["POST", "/v1/sessions/s0/ask"] = lambda asked: [
            {"a": [1, 2, 3], "b": None, "c": "NoVertex"}[it[1]] for it in asked["ends"]]
        ends = [("k", it, "x") for it in "abcab"]
        with mock.patch.object(client, "MOST_VALUES", 2):
            found = held.found(ends)
        self.assertEqual([it.word if isinstance(it, Denied) else it for it in found],
                         [(1, 2, 3), None, "NoVertex", (1, 2, 3), None])
        self.assertEqual([len(it[2]["ends"]) for it in self.talk.taken()[1:]], [2, 2, 1])
        self.assertEqual((held.edge(ends[0]), held.edge(ends[1])), ((1, 2, 3), None))
        self.assertRaises(Denied, held.edge, ends[2])
        self.assertEqual(held.found([]), [])

    def test_batches(self):
        """The first takes the seat; each has a number of its own, and goes with the texts of its ids."""
        wang = self.engine.names.to_program("wang wei")
        for number in (1, 2):
            self.talk.answers["POST", f"{BATCH}{number}"] = DONE
            self.assertEqual(self.engine.fly(self.flight((0, "k", wang, "b", 1, 1))), Commit(8, 1, 0, 0, 0, 0))
        body = {"operations": f"i,k,{wang},b,1,1\n", "texts": {wang: "wang wei"}, "collect": True}
        self.assertEqual(self.talk.taken(), [SEAT, ("POST", f"{BATCH}1", body), ("POST", f"{BATCH}2", body)])

    def test_what_a_batch_s_fault_means(self):
        """Whether it may be in: then the next call asks by its number."""
        for fault, run, kind, text, is_asked in (
                (NoAnswer("silent"), "run-1", NoAnswer, "silent. Whether the batch that was sent is in isn't known", True),
                (NoServer("gone"), "run-1", NoServer, "gone. Whether the batch that was sent is in isn't known", True),
                (Refused("why"), "run-1", Refused, "why", False), (NotAllowed("why"), "run-1", NotAllowed, "why", False),
                (Busy("why"), "run-1", Busy, "why", False), (Busy("why"), "run-2", Busy, "why", True),
                (SessionClosed("why"), "run-1", SessionClosed, "why. What is pending stays so; the next commit takes", False),
                (SessionClosed("why"), "run-2", SessionClosed,
                 "again. Whether the batch that was sent is in isn't known: look before you commit it again", False)):
            self.setUp()

            def raised(_, fault=fault, run=run):
                self.talk.run = run
                return fault
            self.talk.answers["POST", f"{BATCH}1"] = raised
            self.talk.answers["DELETE", f"{BATCH}1"] = {"receipt": DONE}
            flight = self.flight()
            found = self.told(self.engine.fly, flight)
            self.assertEqual((found[0], text in found[1]), (kind, True), found)
            self.talk.taken()
            wanted = Commit(8, 1, 0, 0, 0, 0) if is_asked else None
            self.assertEqual((self.engine.landed(flight), self.talk.taken()), (wanted, [("DELETE", f"{BATCH}1")] * is_asked))
            self.assertEqual((self.engine.landed(flight), self.talk.taken()), (None, []))

    def test_a_seat_that_isn_t_given(self):
        """No batch was sent then, and the next commit asks for the seat again."""
        for fault in (NoServer("gone"), NoAnswer("silent")):
            self.talk.answers[SEAT] = fault
            with self.assertRaises(type(fault)) as caught:
                self.engine.fly(self.flight())
            self.assertEqual((str(caught.exception), caught.exception.is_sent),
                             (f"{fault}. No batch was sent, and what is pending stays so", False))
        self.talk.answers.update({SEAT: {"feeder": "seat"}, ("POST", f"{BATCH}1"): DONE})
        self.assertEqual(self.engine.fly(self.flight()).version, 8)

    def test_its_end(self):
        """It gives back what the server has for it, once."""
        held = self.held()
        self.talk.answers["POST", f"{BATCH}1"] = DONE
        self.engine.fly(self.flight())
        self.talk.taken()
        for wanted in ([("DELETE", "/v1/sessions/s0"), ("DELETE", "/v1/feeder/seat")], []):
            self.engine.close()
            self.assertEqual((self.talk.taken(), self.talk.is_closed, self.engine.is_closed), (wanted, True, True))
        self.assertEqual(self.told(held.names), (SessionClosed, "the session of version 7 is closed"))
        for call in (self.engine.stat, lambda: self.engine.hold(None)):
            self.assertEqual(self.told(call), (StoreError, "the store is closed"))

    def test_a_store(self):
        store = ServedStore(self.engine, None)
        self.addCleanup(store.close)
        store.add("k", "a", "b", 1, 1)
        store.add("k", "a", "c", 1, 1)
        self.assertEqual((store.pending, store.discard(), store.pending), (2, 2, 0))
        for receipt, dropped in ((DONE, 1), (None, 2)):  # (one that is in isn't told as dropped)
            number = 1 + (receipt is None)
            self.talk.answers.update({("POST", f"{BATCH}{number}"): NoAnswer("silent"),
                                      ("DELETE", f"{BATCH}{number}"): {"receipt": receipt}})
            store.add("k", "a", "b", 1, 1)
            self.assertRaises(NoAnswer, store.commit)
            store.add("k", "a", "c", 1, 1)
            self.assertEqual((store.discard(), store.pending), (dropped, 0))


if __name__ == "__main__":
    unittest.main()
