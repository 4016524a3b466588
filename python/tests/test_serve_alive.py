"""Versions that a server holds for a client in Python: one that is kept while the client is silent, and one that it forgets."""
import asyncio
import gc
import os
import subprocess
import sys
import threading
import time
import unittest
import warnings
from unittest import mock

from serving import ServeCase
from support import HERE, as_soon_as

from misteluk import AsyncSession, SessionClosed, connect
from misteluk.serve import alive
from misteluk.serve.limits import ServerLimits

ROW = [["add", "k", "a", "b", 1, 1]]


class Alive(ServeCase):
    def held(self):
        """By how many clients each version is held."""
        return {it["version"]: it["clients"] for it in self.ask("/v1/stat").json["held"]}

    def threads(self):
        return [it for it in threading.enumerate() if it.name.startswith("keeps ")]

    def test_a_silent_session_is_kept(self):
        """As long as it is open, where that is asked for; else it is let go."""
        self.fed(limits=ServerLimits(idle=1.5))
        with connect(self.server.url, keep_alive=True) as keeping, keeping.open() as kept, connect(self.server.url) as other, \
                other.open() as silent:
            self.post("/v1/rows", {"rows": ROW})
            time.sleep(4)
            self.assertEqual((self.held(), len(self.threads())), ({1: 1, 2: 0}, 1))
            self.assertRaises(SessionClosed, silent.cores)
            self.assertEqual((kept.version, kept.edge_count), (1, 4))
        as_soon_as(lambda: self.held() == {2: 0} and not self.threads())

    def test_a_store_s_sessions_are_kept(self):
        self.fed(limits=ServerLimits(idle=1.5))
        with connect(self.server.url, keep_alive=True) as store:
            first, second = store.open(), store.open()
            self.post("/v1/rows", {"rows": ROW})
            time.sleep(4)
            self.assertEqual((first.edge_count, second.edge_count, len(self.threads())), (4, 4, 2))
            first.close()
            as_soon_as(lambda: len(self.threads()) == 1)
        as_soon_as(lambda: self.held() == {2: 0} and not self.threads())

    def test_a_session_that_is_closed(self):
        """Its thread ends at once, and doesn't wait until it would tell the server something. It keeps no process from its end.
        A version is given back once."""
        self.fed(limits=ServerLimits(idle=600))
        session = connect(self.server.url, keep_alive=True).open()
        self.assertEqual(([it.daemon for it in self.threads()], sum(self.held().values())), ([True], 1))
        with mock.patch.object(alive, "_give_back") as given_back:
            session.close()
            as_soon_as(lambda: not self.threads(), 10)
            self.assertEqual(sum(self.held().values()), 0)
            del session
            gc.collect()
            with warnings.catch_warnings():
                warnings.simplefilter("ignore", ResourceWarning)
                forgotten = connect(self.server.url).open()
                del forgotten
                gc.collect()
            as_soon_as(lambda: given_back.called)
        self.assertEqual(given_back.call_count, 1)

    def test_one_that_is_awaited(self):
        """Its `len` is asked by `ask`."""
        self.fed(limits=ServerLimits(idle=1.5))

        async def silent():
            async with await AsyncSession.connect(self.server.url, keep_alive=True) as session:
                await asyncio.sleep(4)
                return await session.ask(lambda it: it.edge_count, session)
        self.assertEqual(asyncio.run(silent()), 4)
        as_soon_as(lambda: not self.threads())

    def test_one_that_the_server_lets_go(self):
        """Then nothing keeps it, and its client is told at the next question."""
        self.fed(limits=ServerLimits(idle=1.5))
        with connect(self.server.url, keep_alive=True) as of_session, of_session.open() as session:
            self.assertEqual(len(self.threads()), 1)
            self.server.board.let_all_go()
            as_soon_as(lambda: not self.threads())
            self.assertRaises(SessionClosed, session.cores)

    def test_sessions_that_are_forgotten_at_the_end(self):
        """Of a process: it ends well."""
        code = ("import os, queue, types; from misteluk.serve import alive\n"
                "talk = types.SimpleNamespace(ask=lambda *_: None, close=lambda: None)\n"
                "for _ in range(100): alive._forgotten(queue.SimpleQueue(), talk, '', os.getpid())")
        env = {**os.environ, "PYTHONPATH": str(HERE.parent)}
        ends = [subprocess.run([sys.executable, "-c", code], env=env, timeout=60).returncode for _ in range(4)]
        self.assertEqual(ends, [0] * 4)

    def test_a_session_that_is_forgotten(self):
        """The server lets its version go at once, whether it was kept or not."""
        self.fed(limits=ServerLimits(idle=600))
        for keep_alive in (False, True):
            with connect(self.server.url, keep_alive=keep_alive) as store:
                session = store.open()
                self.assertEqual((sum(self.held().values()), store._engine.open_count), (1, 1))
                del session
                gc.collect()
                as_soon_as(lambda: sum(self.held().values()) == 0 and not self.threads(), 20)
                self.assertEqual(store._engine.open_count, 0)
            with warnings.catch_warnings():
                warnings.simplefilter("ignore", ResourceWarning)  # (of a store that was let go without `close`)
                session = connect(self.server.url, keep_alive=keep_alive).open()
                self.assertEqual(sum(self.held().values()), 1)
                del session
                gc.collect()
                as_soon_as(lambda: sum(self.held().values()) == 0 and not self.threads(), 20)


if __name__ == "__main__":
    unittest.main()
