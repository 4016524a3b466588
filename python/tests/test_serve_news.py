"""A stream of events by steps, without a server: what it sends of versions, when it says that it goes on, and what ends it."""
import asyncio
import json
import unittest
from unittest import mock

from serving import HAS_PACKAGES, NO_PACKAGES

from misteluk.serve.limits import ServerLimits

if HAS_PACKAGES:
    from misteluk.serve import news
    from misteluk.serve.board import Full

START = {"type": "http.response.start", "status": 200, "headers": [(b"content-type", b"text/event-stream"),
                                                                   (b"x-accel-buffering", b"no")]}


def part(text, is_more=True):
    return {"type": "http.response.body", "body": text.encode(), "more_body": is_more}


def event(version):
    return part(f'id: run:{version}\nevent: version\ndata: {json.dumps({"version": version, "edges": 7})}\n\n')


BEGIN, SILENT, END = [START, part("retry: 1000\n\n")], part(": \n\n"), part("", False)


@unittest.skipUnless(HAS_PACKAGES, NO_PACKAGES)
class Streams(unittest.TestCase):
    def sent(self, acts, known=-1, idle=60.0):
        """What a stream sends. Behind each of its parts an act is done, by its number, with the stream's bell, its board, what
        says whether its reader is let in, and what has the reader go; the last one ends it."""
        sent, over, asked = [], [], []

        async def run():
            gone, is_let_in = asyncio.Event(), mock.Mock(return_value=True)
            bell, board = news.Bell(), mock.Mock(**{"stat.version": 4})

            async def receive():
                try:
                    await gone.wait()
                finally:
                    over.append(True)
                return {"type": "http.disconnect"}

            async def send(message):
                sent.append(message)
                await asyncio.sleep(0)
                found = acts.get(len(sent), lambda *_: None)(bell, board, is_let_in, gone)
                await (found or asyncio.sleep(0))

            async def told(before):
                asked.append(before)
                return f"run:{board.stat.version}", {"version": board.stat.version, "edges": 7}
            events = news.Events(bell, board, told, ServerLimits(idle=idle), is_let_in, known)
            await asyncio.wait_for(events({}, receive, send), 10)
            await asyncio.sleep(0)
            self.assertEqual((over, bell._waiting), ([True], set()))
            self.assertEqual(asked[:1], [known][:len(asked)])
        with mock.patch.multiple(news, SILENCE=0.03, PAUSE=0.05):
            asyncio.run(run())
        return sent

    def test_what_ends_it(self):
        """The server's end and a token that isn't known any more are the stream's end; a reader that went reads none."""
        for acts, last in (({3: lambda bell, *_: bell.close()}, [END]),
                           ({3: lambda bell, board, is_let_in, gone: setattr(is_let_in, "return_value", False)}, [END]),
                           ({3: lambda bell, board, is_let_in, gone: gone.set()}, [])):
            self.assertEqual(self.sent(acts), [*BEGIN, event(4), *last])
            self.assertEqual(self.sent({2: acts[3]}), [*BEGIN, *last])

    def test_silence(self):
        """It says that it goes on where no version comes."""
        found = self.sent({5: lambda bell, *_: bell.close()}, known=4)
        self.assertEqual(found, [*BEGIN, SILENT, SILENT, SILENT, END])

    def test_versions(self):
        """One event for those that come within a pause; each reader's first is the last version, if it isn't the one it knows."""
        def come(bell, board, *_):
            for board.stat.version in (5, 6):
                bell.ring()
        for known in (-1, 3, 9):
            self.assertEqual(self.sent({3: come, 4: lambda bell, *_: bell.close()}, known), [*BEGIN, event(4), event(6), END])
        self.assertEqual(self.sent({3: come, 4: lambda bell, *_: bell.close()}, 4), [*BEGIN, SILENT, event(6), END])

    def test_a_reader_that_takes_nothing(self):
        """It is cut off."""
        with self.assertRaises(Full) as told:
            self.sent({3: lambda *_: asyncio.sleep(60)}, idle=0.05)
        self.assertEqual((told.exception.word, str(told.exception)), ("TooLong", "the events aren't read"))


if __name__ == "__main__":
    unittest.main()
