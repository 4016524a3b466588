"""What a client of a server has pending where an answer is missing, or a batch is too long: what `discard`, `commit` and `close`
do with it, so that nothing is applied twice, or after it was dropped."""
import unittest
from unittest import mock

from serving import ProcessCase

import misteluk
from misteluk import Edge, SessionClosed, connect, errors
from misteluk.errors import NoAnswer, NoServer, Uncommitted
from misteluk.serve.limits import ServerLimits

UNKNOWN = "Whether the batch that was sent is in isn't known"


class Pending(ProcessCase):
    def begin(self):
        done = self.command("--listen", f"unix:{self.room}/socket")
        self.assertIn("serves", done.stdout.readline())
        return done

    def edges(self, store):
        with store.open() as session:
            return sorted(session.edges())

    # A server that is gone.

    def test_discard_behind_a_server_that_is_gone(self):
        """Nothing was sent to it, as each says: what is discarded is dropped, and no later commit applies it."""
        for has_seat in (False, True):
            server, store = self.begin(), self.client()
            if has_seat:
                store.commit()
            store.add("t", "x", "y", 9, time=9)
            self.end(server)
            fault = self.raised(NoServer, store.commit)
            self.assertRegex(str(fault), "doesn't answer.*No batch was sent, and what is pending stays so")
            self.assertEqual(("isn't known" in str(fault), fault.is_sent), (False, False))
            self.assertEqual((store.pending, store.discard(), store.pending, store.discard()), (1, 1, 0, 0))
            server = self.begin()
            self.assertRaisesRegex(SessionClosed, "this server began anew", store.commit)
            store.commit()
            self.assertEqual(self.edges(store), [])
            store.close()
            self.end(server)

    def raised(self, kind, call):
        with self.assertRaises(kind) as met:
            call()
        return met.exception

    def unanswered(self, store, word):
        """Has a batch sent whose answer is lost: what the server does with it is said by the word."""
        talk = store._engine.talk
        real = talk.ask

        def ask(method, path, body=None, **more):
            if "/batches/" in path and method == "POST":
                if word == "applied":
                    real(method, path, body, **more)
                raise NoAnswer("it was silent")
            return real(method, path, body, **more)
        with mock.patch.object(talk, "ask", ask):
            self.assertIn(UNKNOWN, str(self.raised(NoAnswer, store.commit)))

    def test_discard_asks_what_became_of_a_batch(self):
        """One that is in isn't told as dropped; one that didn't come can't come any more, and is dropped with the others."""
        for word, dropped, edges in (("applied", 1, [("k", "a", "b", Edge(5, 1, 1))]), ("lost", 2, [])):
            server, store = self.begin(), self.client()
            store.add("k", "a", "b", 5, 1)
            self.unanswered(store, word)
            store.add("k", "a", "c", 7, 1)
            self.assertEqual((store.pending, store.discard(), store.pending), (2, dropped, 0))
            self.assertEqual(store.commit().inserted, len(edges))  # (the next commit tells what wasn't told)
            self.assertEqual(self.edges(store), edges)
            store.close()
            self.end(server)

    def test_discard_while_nobody_knows(self):
        """It drops nothing, and says so, as long as the server doesn't answer, and once more where another one does."""
        server, store = self.begin(), self.client()
        store.add("k", "a", "b", 5, 1)
        self.unanswered(store, "applied")
        store.add("k", "a", "c", 7, 1)
        self.end(server)
        told = f"{UNKNOWN}.*what is pending stays so"
        self.assertRaisesRegex(NoServer, told, store.discard)
        self.assertRaisesRegex(NoServer, told, store.discard)
        self.assertEqual(store.pending, 2)
        self.begin()
        self.assertRaisesRegex(SessionClosed, "began anew.*What is pending stays so.*isn't known: look before", store.discard)
        self.assertEqual((store.pending, store.discard(), store.pending), (2, 2, 0))
        store.commit()
        self.assertEqual(self.edges(store), [])

    def test_close_while_nobody_knows(self):
        """It doesn't say that what was sent isn't applied."""
        server, store = self.begin(), connect(f"unix:{self.room}/socket")
        store.add("k", "a", "b", 5, 1)
        self.unanswered(store, "applied")
        store.add("k", "a", "c", 7, 1)
        self.end(server)
        fault = self.raised(Uncommitted, store.close)
        self.assertRegex(str(fault), "2 operations were pending.*The first 1 were sent, and whether they are in isn't known; "
                                     "the others aren't applied")
        self.assertEqual(fault.operations, ["a,k,a,b,5,1\n", "a,k,a,c,7,1\n"])
        server, store = self.begin(), connect(f"unix:{self.room}/socket")
        store.add("k", "a", "b", 5, 1)
        self.assertRaisesRegex(Uncommitted, "1 operations were pending and are not applied.*commit or discard first", store.close)

    def test_an_exception_while_nobody_knows(self):
        """The warning of a block that an exception ends says as much as `close`."""
        server, store = self.begin(), connect(f"unix:{self.room}/socket")
        said = "2 operations were pending.*The first 1 were sent, and whether they are in isn't known; the others aren't applied$"
        with self.assertWarnsRegex(UserWarning, said), self.assertRaises(KeyError), store:
            store.add("k", "a", "b", 5, 1)
            self.unanswered(store, "applied")
            store.add("k", "a", "c", 7, 1)
            self.end(server)
            raise KeyError

    # A batch that is too long.

    def test_a_batch_that_is_too_long(self):
        """The client makes it shorter by itself. Each of its rows is in once, and the counts are those of all."""
        self.serve(limits=ServerLimits(body=2_000))
        with connect(self.server.url) as store:
            for it in range(300):
                store.add("k", f"s{it}", "t", 1, 1)
            told = store.commit()
            self.assertEqual((told.inserted, store.pending, store.stat().edges), (300, 0, 300))
            self.assertEqual((told.version, told.batches), (store.stat().version, told.version))
            for it in range(300):
                store.add("k", f"s{it}", "t", 1, 2)
            self.assertEqual(store.commit(batch=10).updated, 300)

    def test_names_that_are_long(self):
        """4,096 operations with such names are more than a server takes at once, if nothing else is said."""
        self.serve()
        with connect(self.server.url) as store:
            for it in range(4_096):
                store.add("k", f"{it}-{'x' * 700}", f"{it}-{'ü' * 700}", 1, 1)
            self.assertEqual((store.commit().inserted, store.stat().edges), (4_096, 4_096))

    def test_an_operation_that_is_too_long(self):
        """It is refused with what helps; what came before it is in, and it can be discarded with all behind it."""
        self.serve(limits=ServerLimits(body=2_000))
        with connect(self.server.url) as store:
            store.add("k", "a", "b", 5, 1)
            store.add("k", "ü" * 3_000, "b", 5, 1)
            store.add("k", "c", "b", 5, 1)
            fault = self.raised(misteluk.errors.TooLarge, store.commit)
            self.assertRegex(str(fault), r"a request of [\d,]+ bytes, and the server takes 2,000.*--body")
            self.assertEqual((fault.applied.inserted, store.pending, store.discard(), store.pending), (1, 2, 2, 0))
            self.assertRaisesRegex(errors.TooLarge, "lines 1 to 2 was refused.*Send or ask less at once.*--body", store.load,
                                   [("ü" * 2_000, "b", 5, 1), ("c", "b", 5, 1)], by="add", progress=False)
            store.add("k", "d", "b", 5, 1)
            self.assertEqual(store.commit().inserted, 1)
            with store.open() as session:
                self.assertEqual(sorted(it[1] for it in session.edges()), ["a", "d"])
                self.assertRaisesRegex(errors.TooLarge, "Send or ask less at once", session.get_edges, [("k", "a", "b")] * 300)

    def test_another_server_that_takes_less(self):
        """A refusal by the server itself is one, too."""
        self.serve(limits=ServerLimits(body=2_000))
        with connect(self.server.url) as store:
            store._engine.talk.most_body = 1 << 30
            for it in range(200):
                store.add("k", f"s{it}", "t", 1, 1)
            self.assertEqual((store.commit().inserted, store.pending), (200, 0))

    def test_a_token_that_is_no_more(self):
        """Nothing of what was refused is in, and all of it can be discarded."""
        self.serve(token="open-sesame")
        with connect(self.server.url, token="open-sesame") as store:
            store.commit()
            store.add("k", "a", "b", 5, 1)
            headers = store._engine.talk._headers
            store._engine.talk._headers = headers.replace("open-sesame", "other-token")
            self.assertRaises(misteluk.errors.NotAllowed, store.commit)
            self.assertEqual((store.discard(), store.pending), (1, 0))
            store._engine.talk._headers = headers
            store.commit()
            self.assertEqual(store.stat().edges, 0)


if __name__ == "__main__":
    unittest.main()
