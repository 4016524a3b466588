"""How much memory a stream of updates takes on a graph of constant size: little where a desk keeps no batches, and otherwise
that of its operations. The bytes are those that malloc has handed out and doesn't have back. By hand over a million:

    UPDATES=1000000 tools/test_library endless
"""
import ctypes
import os
import unittest
from typing import List, Tuple

from calls import Batch, Desk, Operation, fields, interface, whole
from places import library

ENDLESS = (1 << 32) - 1
NAMES, BATCH = 512, 4_096
UPDATES = int(os.environ.get("UPDATES", "100000"))


class Handed(ctypes.Structure):
    """What glibc's `mallinfo2` tells."""

    _fields_ = [(it, ctypes.c_size_t) for it in
                ("arena", "ordblks", "smblks", "hblks", "hblkhd", "usmblks", "fsmblks", "uordblks", "fordblks", "keepcost")]


def handed_out() -> int:
    """How many bytes malloc has handed out that it doesn't have back."""
    call = ctypes.CDLL(None).mallinfo2
    call.restype = Handed
    told = call()
    return int(told.uordblks + told.hblkhd)


class Stream:
    """A desk with a ring of edges, and batches that add to the weight of each."""

    def __init__(self, batches: int) -> None:
        self.desk, self.batch = Desk(library(), 4 * BATCH, (NAMES, 1, batches)), Batch(library())
        self.names = [b"v%d" % it for it in range(NAMES)]
        self.rows: List[Operation] = [(interface.ADD, 0, it % NAMES, (it + 1) % NAMES, 1, 7) for it in range(BATCH)]

    def free(self) -> None:
        self.batch.free()
        self.desk.free()

    def apply(self, updates: int) -> None:
        for _ in range(-(-updates // BATCH)):
            self.batch.append([b"k"], self.names, self.rows)
            self.desk.apply(self.batch)
            self.desk.collect()

    def growth(self, updates: int) -> Tuple[int, int]:
        """How many bytes more are handed out after so many updates, and the number of the last version."""
        self.apply(4 * BATCH)
        before = handed_out()
        self.apply(updates)
        return handed_out() - before, int(self.desk.stat().version)


class Endless(unittest.TestCase):
    def over(self, batches: int) -> Stream:
        stream = Stream(batches)
        self.addCleanup(stream.free)
        return stream

    def test_a_stream_takes_level_memory_where_no_batch_is_kept(self) -> None:
        growth, version = self.over(ENDLESS).growth(UPDATES)
        self.assertEqual(version, 4 + -(-UPDATES // BATCH))
        self.assertLess(growth, 256 * 1024)

    def test_a_stream_takes_its_operations_where_batches_are_kept(self) -> None:
        self.assertGreater(self.over(ENDLESS - 1).growth(UPDATES)[0], 100 * UPDATES)

    def test_both_answer_alike(self) -> None:
        told = []
        for batches in (ENDLESS, ENDLESS - 1):
            stream = self.over(batches)
            stream.apply(3 * BATCH)
            stream.desk.rebase()
            stream.apply(BATCH)
            held = stream.desk.hold()
            self.addCleanup(held.free)
            told.append((fields(stream.desk.stat()), whole(held)))
        self.assertEqual(*told)


if __name__ == "__main__":
    unittest.main()
