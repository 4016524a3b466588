"""What a feed's reading says by small parts: pipes, parcels, steps, and how far it is on a terminal."""
import contextlib
import io
import os
import struct
import sys
import unittest
from array import array
from contextlib import redirect_stderr
from unittest import mock

from support import Case

from misteluk.feeds import pipes
from misteluk.feeds.progress import Progress
from misteluk.feeds.rejects import Rejected
from misteluk.feeds.spans import ahead_time, shown_length
from misteluk.feeds.steps import FeedMark, FeedPlace, Followed
from misteluk.values.answers import Commit
from misteluk.values.collector import no_collection
from misteluk.values.parcels import packed, unpacked
from misteluk.values.units import Units

# Columns of each type that a parcel has, and one of none.
COLUMNS = [b"ab", array("I", (1, 2, 3)), array("q", (-5, 1 << 40)), array("Q", (1 << 63,)), array("B", (7,)), array("I"),
           b""]
TYPES = "BIqQBIB"


class Pipes(Case):
    def pipe(self):
        out, into = os.pipe()
        for it in (out, into):
            self.addCleanup(self.close, it)
        return out, into

    def close(self, descriptor):
        with contextlib.suppress(OSError):
            os.close(descriptor)

    def test_how_a_process_ended(self):
        for status, told in ((0, "ended with status 0"), (1, "ended with status 1"), (-1, "was ended by signal 1"),
                             (-9, "was ended by signal 9"), (141, "ended with status 141")):
            self.assertEqual(pipes.how_ended(status), told)

    def test_whether_there_is_more(self):
        out, into = self.pipe()
        self.assertIs(pipes.has_more(out, 0.0), False)
        os.write(into, b"x")
        self.assertIs(pipes.has_more(out, 0.0), True)
        os.read(out, 1)
        os.close(into)
        self.assertIs(pipes.has_more(out, 0.0), True)
        with mock.patch("select.poll") as poll:
            pipes.has_more(out, 0.25)
        self.assertEqual(poll().poll.call_args, mock.call(250.0))

    def test_room(self):
        """A pipe has room for 1 MiB where the system lets it."""
        for fault in (None, PermissionError()):
            with mock.patch("fcntl.fcntl", side_effect=fault) as call:
                pipes.widen(5)
            self.assertEqual(call.call_args, mock.call(5, 1031, 1_048_576))


class Parcels(Pipes):
    def test_what_goes_over_comes_over(self):
        out, into = self.pipe()
        for head, columns, types in (({"a": [1, "\u00e9"]}, COLUMNS, TYPES), ({}, [], ""), ({"b": None}, [b"x"], "B")):
            pipes.send(into, packed(columns, **head))
            found = pipes.received(out)
            self.assertEqual("".join(it.typecode for it in found.columns), types)
            self.assertEqual([it.tobytes() for it in found.columns], [bytes(it) for it in columns])
            self.assertEqual({name: it for name, it in found.head.items() if name != "columns"}, head)

    def test_how_it_is_written(self):
        """Behind its length; the least byte of a number comes first, whatever machine writes or reads."""
        wanted = b'{"a": 1, "columns": [["B", 2], ["I", 2], ["q", 1], ["Q", 1]]}\n' + b"xy" + bytes((1, 0, 0, 0, 4, 3, 2, 1)) + (
            b"\xfe" + b"\xff" * 7 + bytes(7) + b"\x80")
        columns = [b"xy", array("I", (1, 0x01020304)), array("q", (-2,)), array("Q", (1 << 63,))]
        out, into = self.pipe()
        pipes.send(into, packed(columns, a=1))
        self.assertEqual(os.read(out, 1 << 16), struct.pack("=Q", len(wanted)) + wanted)
        swapped = [it[:] for it in columns]
        for it in swapped[1:]:
            it.byteswap()
        with mock.patch.object(sys, "byteorder", "big" if sys.byteorder == "little" else "little"):
            self.assertEqual(b"".join(packed(swapped, a=1)), wanted)
            self.assertEqual(unpacked(wanted).columns[1:], swapped[1:])

    def test_parts(self):
        long = array("I", range(100_000))
        head, *parts = packed([long])
        self.assertEqual((head, list(map(len, parts))), (b'{"columns": [["I", 100000]]}\n', [262_144, 137_856]))
        self.assertEqual(unpacked(b"".join([head, *parts])).columns, [long])

    def test_what_does_not_come_whole(self):
        """Of a parcel that is cut at any place there is none."""
        told = b"".join(packed(COLUMNS, a=1))
        data = struct.pack("=Q", len(told)) + told
        for end in range(len(data)):
            out, into = self.pipe()
            os.write(into, data[:end])
            os.close(into)
            self.assertIsNone(pipes.received(out), end)
            os.close(out)
        for wrong in (*(told[:end] for end in range(len(told))), told + b"x"):
            self.assertRaises(ValueError, unpacked, wrong)

    def test_what_comes_in_pieces(self):
        told = b"".join(packed(COLUMNS, a=1))
        data, out = memoryview(struct.pack("=Q", len(told)) + told), 0
        pieces = [data[at:at + 7] for at in range(0, len(data), 7)]

        def some(_, rooms):
            (room,) = rooms
            piece = pieces.pop(0)
            more, piece = piece[len(room):], piece[:len(room)]
            room[:len(piece)] = piece
            pieces[:0] = [more] if more else []
            return len(piece)
        with mock.patch("os.readv", some):
            found = pipes.received(out)
        self.assertEqual(([it.tobytes() for it in found.columns], pieces), ([bytes(it) for it in COLUMNS], []))


class Steps(unittest.TestCase):
    def test_what_a_step_tells(self):
        for commit, rows, bad, line, newest, told in (
                (Commit(3, 2, 1, 0, 0, 0, 1, 4), 7, 0, 9, 12, "7 rows to line 9, 2 inserted, 1 updated, 4 expired; newest 12"),
                (Commit(3, 0, 0, 5, 6, 0), 7, 0, 9, 12, "7 rows to line 9, nothing changed; newest 12"),
                (Commit(3, 1, 0, 0, 0, 0), 1, 2, 3, 0, "1 rows to line 3, 1 inserted, 2 bad rows passed over; newest 0"),
                (Commit(3, 0, 0, 0, 0, 3), 3, 0, 3, 5, "3 rows to line 3, 3 amounts NOT added or set, since weights would leave "
                 "their limits; newest 5")):
            step = Followed(commit, rows, bad, line, newest)
            self.assertEqual((str(step), step.last_bad, step.behind), (f"version 3: {told}", None, None))
        last = Followed(Commit(1, 0, 0, 0, 0, 0), 0, 1, 0, 0, Rejected(4, "why", "a,b"))
        self.assertEqual((last.last_bad.line, last.last_bad.reason, last.last_bad.text, last.behind), (4, "why", "a,b", None))

    def test_where_a_feed_begins(self):
        self.assertEqual(FeedPlace(), (0, 0, -1, 0, "", 0, 0, False, 0, 0, 0))
        self.assertEqual(FeedMark("/f", (1, 2), 7), ("/f", (1, 2), 7, FeedPlace(), 0))

    def test_lengths_that_are_shown(self):
        """In the largest unit of which they are two or more; a year has 365.2425 days."""
        for seconds, told in ((0, "0 seconds"), (0.5, "0.5 seconds"), (1, "1 seconds"), (119, "119 seconds"), (120, "2 minutes"),
                              (179, "2 minutes"), (7_199, "119 minutes"), (7_200, "2 hours"), (172_799, "47 hours"),
                              (172_800, "2 days"), (63_113_903, "730 days"), (63_113_904, "2 years"), (1e9, "31 years")):
            self.assertEqual(shown_length(int(seconds * 1e6)), told)

    def test_how_far_ahead(self):
        dates, numbers = Units(times="iso"), Units()
        for ahead, kept, units, wanted in ((None, None, dates, None), (None, 5, numbers, None), (None, None, numbers, None),
                                           (None, 5, dates, 86_400_000_000), (None, 0, dates, 86_400_000_000),
                                           ("1h", None, dates, 3_600_000_000), ("0s", 5, dates, 0)):
            self.assertEqual(ahead_time(ahead, kept, units), wanted)
        self.assertRaisesRegex(ValueError, "ahead is for times that are dates", ahead_time, "1h", None, numbers)
        self.assertRaisesRegex(ValueError, "ahead is a length of time", ahead_time, 5, None, dates)


class Screen(io.StringIO):
    """What was written, and what of it is seen, which comes once it is flushed."""

    is_terminal, seen = True, ""

    def isatty(self):
        return self.is_terminal

    def flush(self):
        self.seen = self.getvalue()


class Pipe(Screen):
    is_terminal = False


class Shown(unittest.TestCase):
    def steps(self, shown, total=10, err=Screen):
        """What is shown of steps of 2, 3 and 4 records, in the seconds 0, 0.5 and 0.6, without tqdm."""
        told = err()
        with mock.patch.dict("sys.modules", {"tqdm": None}), redirect_stderr(told), mock.patch("time.monotonic") as clock:
            clock.return_value = 0.0
            progress = Progress("reading f", total, shown)
            for now, count in ((0.0, 2), (0.5, 3), (0.6, 4)):
                clock.return_value = now
                progress.step(count)
                self.assertEqual(told.seen, told.getvalue())
            for end in (progress.clear, progress.end):
                end()
                self.assertEqual(told.seen, told.getvalue())
            progress.step(5)
            progress.end()
        return told.getvalue(), progress.count

    def test_without_tqdm(self):
        clear = "\r\033[K"
        line, rest = f"{clear}reading f: 5 of 10 records, 10 a second", clear * 2
        self.assertEqual(self.steps(True), (line + rest, 14))
        self.assertEqual(self.steps(None), (line + rest, 14))
        self.assertEqual(self.steps(True, err=Pipe), (line + rest, 14))
        self.assertEqual(self.steps(True, total=None)[0], f"{clear}reading f: 5 records, 10 a second{rest}")
        for how in ({"shown": False}, {"shown": None, "err": Pipe}):
            self.assertEqual(self.steps(**how), ("", 14))

    def test_by_tqdm(self):
        tqdm, err = mock.Mock(), Screen()
        with mock.patch.dict("sys.modules", {"tqdm": tqdm}), redirect_stderr(err):
            progress = Progress("reading f", 10, None, "rows")
            for it in (2, 3):
                progress.step(it)
            progress.clear()
            progress.end()
            progress.step(4)
        self.assertEqual(tqdm.tqdm.call_args, mock.call(desc="reading f", total=10, unit=" rows", file=err))
        self.assertEqual(tqdm.tqdm().mock_calls, [mock.call.update(2), mock.call.update(3), mock.call.clear(), mock.call.close()])
        self.assertEqual(err.getvalue(), "")


if __name__ == "__main__":
    unittest.main()
