"""Limits that a small store meets: of batches, their operations, versions held, bytes of names, and times."""
from __future__ import annotations

from typing import Optional

from bench.checks import Checks
from bench.stores.caller import Caller, Names
from bench.stores.walled import Walled, one_edge
from misteluk.engine import interface
from misteluk.engine.interface import Code

# Limits of the header: names with one kind, names whatever the kinds, names times kinds, kinds, blocks.
NAMES, MOST_NAMES, PRODUCT, KINDS, BLOCKS = 8_388_606, 67_108_863, 8_388_606, 64, 4_293_918_719
# A time is below this.
TIME = 1 << 63


class SmallWalls:
    def __init__(self, checks: Checks, call: Caller) -> None:
        self.checks, self.call = checks, call

    def opened(self, names: int, kinds: int, batches: int, blocks: int, weight: Optional[int] = None) -> Walled:
        return Walled(self.checks, self.call, (names, kinds, batches), blocks, weight)

    def batches(self) -> None:
        """As many batches as may be, and one more; after a rebase there may be as many again."""
        most = 70_000
        it = self.opened(2, 1, most, 16)
        it.insert(b"e", b"v0", b"v1")
        for number in range(most):
            version = it.apply()[0]
        self.checks.equal("the last batch's number", version, most)
        it.insert(b"e", b"v1", b"v0")
        self.checks.equal("by columns", it.insert_columns(b"e", Names(2), *one_edge(0, 1)), (Code.BATCHES_FULL.name, 0))
        it.refused("a batch too many", Code.BATCHES_FULL, "desk_apply", it.desk, it.batch, interface.Counts())
        self.call("desk_rebase", it.desk)
        self.checks.equal("after a rebase", it.apply()[:2], (1, 1))
        it.free()

    def operations(self) -> None:
        """A batch of 4,096 operations by a call for each, or of 2^20 by columns."""
        it, names, most = self.opened(1, 1, 9, 1 << 21), Names(1), interface.MOST_OPERATIONS
        for limit, room in ((0, 4_096), (most, most - 4_096)):
            self.checks.equal("operations that are taken", it.append(room + 5, names, limit=limit), room)
            self.checks.equal("no more", it.append(5, names, limit=limit), 0)
            for name, words in (("batch_insert", (b"e", b"v0", b"v0", 1, 1)), ("batch_expire", (1,))):
                it.refused(f"{name} after {limit}", Code.BATCH_FULL, name, it.batch, *words)
        self.checks.refused("a limit too large", Code.BAD_LIMITS, it.append, 5, names, None, most + 1)
        self.checks.equal("operations", self.call.length(it.batch), most)
        self.checks.equal("what became of them", it.apply()[:3], (1, 1, most - 1))
        it.free()

    def holds(self) -> None:
        """16 versions held, the last one twice; another one only after a release."""
        it, held, more = self.opened(40, 1, 40, 40), [], interface.Version()
        for number in range(17):
            it.insert(b"e", b"v0", b"v%d" % number)
            it.apply()
            held += [self.call.hold(it.desk)] if number < 16 else []
        words = "desk_hold", it.desk, more, interface.Hold()
        self.checks.refused("a 17th version", Code.NO_SEAT, self.call, *words)
        self.call.release(it.desk, held.pop(3))
        self.call(*words)
        self.call(words[0], it.desk, interface.Version(), interface.Hold())
        self.checks.equal("edges of those held", [self.call.size(version).edges for version, _ in [*held, (more, None)]],
                          [*range(1, 4), *range(5, 18)])
        it.free()

    def texts(self) -> None:
        """Bytes of names, and times."""
        it, long, last = self.opened(2, 1, 1, 16), b"x" * 64, TIME - 1
        it.insert(long, long, b"v1", 1, last)
        for name in (b"", long + b"x", b"a b", b"\x7f"):
            for words in ((name, b"v0", b"v1"), (b"e", name, b"v1"), (b"e", b"v0", name)):
                it.refused(f"{words}", Code.BAD_NAME, "batch_insert", it.batch, *words, 1, 1)
        it.refused("a kind *", Code.BAD_NAME, "batch_insert", it.batch, b"*", b"v0", b"v1", 1, 1)
        it.refused("a time too late", Code.BAD_TIME, "batch_insert", it.batch, long, long, b"v1", 1, TIME)
        it.refused("an expiry too late", Code.BAD_TIME, "batch_expire", it.batch, TIME)
        self.checks.equal("the one that is taken", it.apply()[1], 1)
        self.checks.equal("its edge", it.state()[2:], ([0], [0], [1], [1], [last], [last], 0))
        it.free()
