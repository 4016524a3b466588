"""The feed goes before those who ask: questions wait for a batch that is being applied, and not for long."""
from __future__ import annotations

import asyncio
import threading
import time
import unittest
import unittest.mock
from typing import Any, Callable, Coroutine, List

import support  # noqa: F401  (which says where the package is)
from misteluk.serve.precedence import PATIENCE, Precedence

# What a loop may be late by on a busy machine.
LATE = 5.0


class OfFeed(unittest.TestCase):
    def setUp(self) -> None:
        self.precedence = Precedence()

    def waited(self, call: Callable[[], Coroutine[Any, Any, None]]) -> float:
        """How long a call on a loop of its own takes, in seconds."""
        begun = time.monotonic()
        asyncio.run(call())
        return time.monotonic() - begun

    def test_a_question_waits_for_nothing_where_no_batch_is_applied(self) -> None:
        async def asked() -> None:
            turn = self.precedence.turn()
            with self.assertRaises(StopIteration):  # (it ends without giving way to the loop)
                turn.send(None)
        asyncio.run(asked())

    def test_it_waits_for_a_batch_until_that_ends(self) -> None:
        order: List[str] = []
        is_in, may_end = threading.Event(), threading.Event()

        def feed() -> None:
            with self.precedence.of_feed():
                is_in.set()
                may_end.wait()
                order.append("batch")

        async def asked() -> None:
            await self.precedence.turn()
            order.append("question")

        async def both() -> None:
            waiting = [asyncio.ensure_future(asked()) for _ in range(50)]
            await asyncio.sleep(0)
            self.assertEqual(order, [])
            may_end.set()
            await asyncio.gather(*waiting)
        thread = threading.Thread(target=feed)
        thread.start()
        is_in.wait()
        # (with a patience that no test waits for: they go on since the batch ends)
        with unittest.mock.patch("misteluk.serve.precedence.PATIENCE", 3_600.0):
            asyncio.run(both())
        thread.join()
        self.assertEqual(order, ["batch", *["question"] * 50])

    def test_it_waits_no_longer_than_its_patience(self) -> None:
        for _ in range(2):  # (each time on another loop)
            with self.precedence.of_feed():
                waited = self.waited(self.precedence.turn)
            self.assertGreaterEqual(waited, PATIENCE)
            self.assertLess(waited, LATE)

    def test_one_that_comes_later_has_its_own_patience(self) -> None:
        async def later() -> float:
            first = asyncio.ensure_future(self.precedence.turn())
            await asyncio.sleep(PATIENCE / 2)
            begun = time.monotonic()
            await asyncio.gather(first, self.precedence.turn())
            return time.monotonic() - begun
        with self.precedence.of_feed():
            self.assertGreaterEqual(asyncio.run(later()), PATIENCE)

    def test_of_two_batches_the_last_one_lets_questions_on(self) -> None:
        ended: List[str] = []

        async def asked() -> None:
            await self.precedence.turn()
            ended.append("question")

        async def both() -> None:
            first, second = self.precedence.of_feed(), self.precedence.of_feed()
            first.__enter__()
            second.__enter__()
            waiting = asyncio.ensure_future(asked())
            await asyncio.sleep(0)
            first.__exit__(None, None, None)
            for _ in range(3):
                await asyncio.sleep(0)
            self.assertEqual(ended, [])
            second.__exit__(None, None, None)
            await waiting
        with unittest.mock.patch("misteluk.serve.precedence.PATIENCE", 3_600.0):
            asyncio.run(both())

    def test_a_question_that_is_given_up_leaves_the_others(self) -> None:
        async def both() -> None:
            one, other = (asyncio.ensure_future(self.precedence.turn()) for _ in range(2))
            await asyncio.sleep(0)
            one.cancel()
            await asyncio.gather(one, other, return_exceptions=True)
            self.assertTrue(one.cancelled())
            self.assertIsNone(other.result())
        with self.precedence.of_feed():
            asyncio.run(both())

    def test_a_batch_that_fails_is_over(self) -> None:
        with self.assertRaises(ZeroDivisionError), self.precedence.of_feed():
            raise ZeroDivisionError
        self.assertLess(self.waited(self.precedence.turn), LATE)
        self.assertEqual(self.precedence._applied, 0)


if __name__ == "__main__":
    unittest.main()
