"""Posts that wait are answered together, by steps."""
import asyncio
import unittest
from concurrent.futures import Future
from unittest import mock

from support import Case, optional

from misteluk import SessionClosed
from misteluk.serve.posts import WaitingPost
from misteluk.values.answers import Commit

HAVE_SERVER = unittest.skipUnless(optional("starlette") and optional("uvicorn"), "starlette or uvicorn is not there")
if optional("starlette"):
    from misteluk.serve.board import Full
    from misteluk.serve.flow import WAITING
    from misteluk.serve.limits import ServerLimits
    from misteluk.serve.turns import LEAST, PART, Turns

DONE = Commit(1, 1, 0, 0, 0, 0)


class Thread:
    """The thread of a test's own, which makes what is begun when it is told to."""

    def __init__(self):
        self.begun = []

    def begin(self, call):
        self.begun.append((call, Future()))
        return self.begun[-1][1]

    def end(self, fault=None):
        """Makes the call that was begun last."""
        call, made = self.begun[-1]
        call()
        made.set_exception(fault) if fault else made.set_result(None)


@HAVE_SERVER
class ByTurns(Case):
    def setUp(self):
        super().setUp()
        self.thread, self.taken, self.now = Thread(), [], 100.0

    def take(self, posts):
        self.taken.append([it.name for it in posts])
        for it in posts:
            it.answer = None if it.name == "lost" else DONE

    def run_by(self, play, **limits):
        async def main():
            loop = asyncio.get_running_loop()
            self.turns = Turns(self.thread, ServerLimits(**limits), self.take)
            with mock.patch.object(loop, "time", lambda: self.now):
                await play()
        asyncio.run(main())

    async def posts(self, *names):
        """Posts that come at once."""
        tasks = [asyncio.ensure_future(self.turns.answer(WaitingPost((), it))) for it in names]
        await self.rest()
        return tasks

    async def rest(self, seconds=0.0):
        self.now += seconds
        for _ in range(5):
            await asyncio.sleep(0)

    async def end(self, seconds=0.0, fault=None):
        self.now += seconds
        self.thread.end(fault)
        await self.rest()

    def test_those_that_come_meanwhile_are_the_next_turn(self):
        async def play():
            first, = await self.posts("a")
            others = await self.posts("b", "c", "d")
            self.assertEqual((len(self.thread.begun), first.done()), (1, False))
            await self.end()
            self.assertEqual((self.taken, await first, len(self.thread.begun)), ([["a"]], DONE, 2))
            await self.end()
            self.assertEqual(await asyncio.gather(*others), [DONE] * 3)
        self.run_by(play)
        self.assertEqual(self.taken, [["a"], ["b", "c", "d"]])

    async def turn_of_three(self, seconds):
        """A turn of three posts, which takes so many seconds."""
        await self.posts("first")
        tasks = await self.posts("a", "b", "c")
        await self.end()
        await self.end(seconds)
        await asyncio.gather(*tasks)
        self.taken.clear()

    def test_a_turn_waits_for_as_many_as_the_last_had(self):
        async def play():
            await self.turn_of_three(1.0)
            await self.posts("d", "e")
            await self.rest(0.4)
            self.assertEqual((len(self.thread.begun), self.taken), (2, []))
            await self.posts("f")
            self.assertEqual(len(self.thread.begun), 3)
            other, = await self.posts("g")
            await self.rest(0.2)
            self.assertEqual(len(self.thread.begun), 3)
            await self.end()
            await self.rest(0.2)
            await self.end()
            self.assertEqual(await other, DONE)
        self.run_by(play)
        self.assertEqual(self.taken, [["d", "e", "f"], ["g"]])

    def test_but_not_for_long(self):
        self.assertEqual((PART, LEAST), (0.5, 0.001))

        async def play():
            await self.turn_of_three(1.0)
            await self.posts("d")
            await self.rest(0.4)
            await self.posts("e")
            await self.rest(0.09)
            self.assertEqual(len(self.thread.begun), 2)
            await self.rest(0.02)
            self.assertEqual(len(self.thread.begun), 3)
            late, = await self.posts("f")
            await self.rest(0.5)
            self.assertEqual(len(self.thread.begun), 3)
            await self.end()
            self.assertEqual((self.taken, len(self.thread.begun)), ([["d", "e"]], 3))
            await self.rest(0.2)
            self.assertEqual(len(self.thread.begun), 3)
            await self.rest(0.1)
            self.assertEqual(len(self.thread.begun), 4)
            await self.end()
            await late
        self.run_by(play)
        self.assertEqual(self.taken, [["d", "e"], ["f"]])

    def test_nor_where_turns_are_short(self):
        for seconds, count in ((0.0019, 3), (0.0021, 2)):
            async def play():
                await self.turn_of_three(seconds)
                await self.posts("d")
                self.assertEqual(len(self.thread.begun), count)
                await self.rest(0.01)
                await self.end()
            self.setUp()
            self.run_by(play)
            self.assertEqual(self.taken, [["d"]])

    def test_one_that_waits_too_long_isn_t_made(self):
        async def play():
            first, = await self.posts("a")
            given_up, = await self.posts("b")
            await self.rest(2.0)
            other, = await self.posts("c")
            await self.rest(1.1)
            for it in (first, given_up):
                with self.assertRaisesRegex(Full, "longer than 3 s"):
                    await it
            await self.end()
            await self.end()
            self.assertEqual(await other, DONE)
        self.run_by(play, time=3)
        self.assertEqual(self.taken, [["a"], ["c"]])

    def test_a_turn_of_nobody(self):
        """All were given up while it waited for more; the next one is begun as ever."""
        async def play():
            await self.turn_of_three(4.0)
            given_up, = await self.posts("d")
            given_up.cancel()
            await self.rest(2.1)
            self.assertEqual(len(self.thread.begun), 2)
            await self.posts("e", "f", "g")
            await self.end()
        self.run_by(play)
        self.assertEqual(self.taken, [["e", "f", "g"]])

    def test_too_many(self):
        async def play():
            tasks = await self.posts("first", *map(str, range(WAITING + 1)))
            with self.assertRaisesRegex(Full, "too many questions") as caught:
                await tasks[-1]
            self.assertEqual((caught.exception.word, caught.exception.after), ("TooMany", 1))
            self.assertEqual(sum(it.done() for it in tasks), 1)
            await self.end()
            await self.end()
            self.assertEqual(await asyncio.gather(*tasks[:-1]), [DONE] * (WAITING + 1))
        self.run_by(play)
        self.assertEqual(list(map(len, self.taken)), [1, WAITING])

    def test_a_fault_of_the_thread(self):
        """Whoever has no answer is told, and the next turn comes."""
        async def play():
            await self.posts("first")
            answered, lost = await self.posts("a", "lost")
            await self.end()
            await self.end(fault=MemoryError("why"))
            self.assertEqual(await answered, DONE)
            with self.assertRaisesRegex(MemoryError, "why"):
                await lost
            lost, = await self.posts("lost")
            await self.end()
            with self.assertRaisesRegex(SessionClosed, "given up"):
                await lost
        self.run_by(play)


if __name__ == "__main__":
    unittest.main()
