"""A session, or its store, that is closed while it is asked: each call answers, or says `SessionClosed`, and nothing else."""
import sys
import threading
import time
import unittest
from itertools import product
from unittest import mock

from asking import ROWS, calls, plain
from serving import ServeCase
from support import Case

import misteluk
from misteluk import SessionClosed

# Whose steps are those of a call, and for how many seconds threads ask.
OURS = tuple(f"/misteluk/{it}.py" for it in ("engine/held", "engine/walked", "serve/client", "session", "graphs", "walks"))
A_WHILE = 1.0
# The calls that keep what they were told, or go by what is kept.
OF_ALL = "degrees", "edges", "in_edges of a kind", "out_edges", "in_edges", "levels", "edge count"
OF_OTHERS = ("to_pandas", "to_networkx", "to_igraph", "to_graph_tool", "to_scipy", "view", "to_csv")
CALLS = {name: (call, given) for name, call, given in calls("") if name not in OF_OTHERS}
OF_ALL += tuple(it for it in ("graph",) if it in CALLS)


class AtStep:
    """Does something at a step of a call, before a line or an instruction of a module of ours runs; counts the steps."""

    def __init__(self, step, act, by_instruction):
        self.left, self.act, self.by_instruction = step, act, by_instruction

    def trace(self, frame, event, _):
        if not frame.f_code.co_filename.endswith(OURS):
            return None
        if self.by_instruction and frame.f_code.co_filename.endswith(OURS[0]):
            frame.f_trace_opcodes, frame.f_trace_lines = True, False
        if event in ("line", "opcode"):
            self.left -= 1
            if self.left == 0:
                self.act()
        return self.trace

    def run(self, call, *given):
        before = sys.gettrace()
        sys.settrace(self.trace)
        try:
            return call(*given)
        finally:
            sys.settrace(before)


def asked(name, session):
    call, given = CALLS[name]
    return plain(call(session, *given))


def right(opened):
    """What the calls give."""
    store, session = opened()
    found = {name: asked(name, session) for name in CALLS}
    session.close()
    return found


class Meanwhile:
    """What cases share that close what is asked."""

    def wrong(self, open_, close, by_instruction=False, step=1, names=OF_ALL):
        """At which steps of which calls a close makes them say something else. A session is asked for the first time, and again;
        once it is closed it keeps nothing."""
        wanted, found, count = right(open_), [], 0
        for name, is_again in product(names, (False, True)):
            at, is_over = 1, False
            while not is_over:
                store, session = open_()
                if is_again:
                    asked(name, session)
                steps = AtStep(at, lambda: close(store, session), by_instruction)
                said = self.said(lambda: steps.run(asked, name, session) == wanted[name])
                session.close()
                kept = getattr(session._held, "kept", None)
                left = [it for it in getattr(kept, "__slots__", ()) if getattr(kept, it)]
                if left or said not in (True, "closed"):
                    found.append((name, is_again, at, said, left))
                is_over, count, at = steps.left > 0, count + 1, at + step
        self.assertGreater(count, 2 * len(names))
        return found

    @staticmethod
    def said(call):
        """What a call gives, or that it says that its session is closed, or what else it raises."""
        try:
            return call()
        except SessionClosed:
            return "closed"
        except Exception as fault:
            return repr(fault)

    def ask_all(self, session, wanted, told):
        """Asks all until the session is closed, again and again, and notes what it was told."""
        said = True
        while said is True:
            for name in CALLS:
                said = self.said(lambda: asked(name, session) == wanted[name])
                told.append((said, name))

    def closed_meanwhile(self, opened, close):
        """What threads were told that ask a session which another one closes."""
        wanted, told, end = right(opened), [], time.monotonic() + A_WHILE
        while time.monotonic() < end:
            store, session = opened()
            threads = [threading.Thread(target=self.ask_all, args=(session, wanted, told)) for _ in range(4)]
            for it in threads:
                it.start()
            time.sleep(len(told) % 7 / 2_000)
            close(store, session)
            for it in threads:
                it.join()
        return {kind: [name for it, name in told if it == kind] for kind in {it for it, _ in told}}

    def only_closed(self, opened, close):
        told = self.closed_meanwhile(opened, close)
        self.assertEqual({kind: names[:3] for kind, names in told.items() if kind not in (True, "closed")}, {})
        self.assertGreater(len(told[True]), 0)
        self.assertGreater(len(told["closed"]), 0)

    def each_says_so(self, store):
        """Each call says that its session is closed, whatever was asked before."""
        for name, is_asked in product(CALLS, (False, True)):
            session = store.open()
            if is_asked:
                asked(name, session)
            session.close()
            self.assertRaisesRegex(SessionClosed, "^the session of version 1 is closed", asked, name, session)
        self.assertRaisesRegex(SessionClosed, "version 1 is closed", session.save, self.room / "saved.csv")


class Closing(Meanwhile, Case):
    def test_a_session_is_closed_at_each_step(self):
        store = self.store(*ROWS, seats=3)
        for by_instruction, step, names in ((True, 1, OF_ALL), (False, 2, CALLS.keys() - OF_ALL)):
            found = self.wrong(lambda: (store, store.open()), lambda store, session: session.close(), by_instruction, step, names)
            self.assertEqual(found, [])
        self.assertEqual(store._engine.open_count, 0)

    def test_each_call_of_a_session_that_is_closed(self):
        self.each_says_so(self.store(*ROWS))

    def test_a_store_is_closed_at_each_step(self):
        def opened():
            store = self.store(*ROWS)
            return store, store.open()
        for step, names in ((3, OF_ALL), (5, CALLS.keys() - OF_ALL)):
            self.assertEqual(self.wrong(opened, lambda store, session: store.close(), step=step, names=names), [])

    def test_threads_ask_a_session_that_is_closed(self):
        store = self.store(*ROWS, seats=3)
        self.only_closed(lambda: (store, store.open()), lambda store, session: session.close())

    def test_threads_ask_a_session_whose_store_is_closed(self):
        def opened():
            store = self.store(*ROWS)
            return store, store.open()
        self.only_closed(opened, lambda store, session: store.close())

    def test_a_closed_session_is_shown(self):
        """A notebook shows that it is closed, also where that comes while it asks."""
        session = self.store(*ROWS).open()
        with mock.patch.object(type(session), "edge_count", property(lambda it: it.close() or it._must_be_open())):
            self.assertIn("<td>closed</td>", session._repr_html_())


class OfServers(Meanwhile, ServeCase):
    def opened(self):
        session = misteluk.connect(self.server.url).open()
        return session.store, session

    def setUp(self):
        super().setUp()
        self.fed(*(["add", *it.split()[1:4], *map(int, it.split()[4:])] for it in ROWS))

    def test_a_connection_is_closed_at_each_step(self):
        for close in (lambda store, session: session.close(), lambda store, session: store.close()):
            self.assertEqual(self.wrong(self.opened, close, step=11), [])

    def test_each_call_of_a_session_that_is_closed(self):
        self.each_says_so(misteluk.connect(self.server.url))

    def test_threads_ask_a_connection_that_is_closed(self):
        self.only_closed(self.opened, lambda store, session: session.close())


if __name__ == "__main__":
    unittest.main()
