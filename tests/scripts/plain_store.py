"""A plain store: edges by their names, and the blocks that they stand in. It is written from what the pages say."""
from __future__ import annotations

import random
from collections import Counter
from typing import Dict, Iterable, List, NamedTuple, Optional, Sequence, Set, Tuple

ROOM = 32  # edges of a block
MOST_WEIGHT = 2**40


class Life(NamedTuple):
    """The version that a block came with, and the one that replaced it."""

    birth: int
    since: int

    def is_needed(self, held: Iterable[int]) -> bool:
        return any(self.birth <= it < self.since for it in held)


class Marks(NamedTuple):
    weight: int
    first: int
    recent: int


Key = Tuple[str, str, str]  # kind, source, target


class Block:
    """Edges of one kind and source. `birth` is the version that it came with."""

    def __init__(self, kind: str, version: int) -> None:
        self.kind, self.birth, self.is_touched = kind, version, True
        self.targets: Set[str] = set()


class Model:
    """Edges by their kind, source and target, names in their order, and the blocks of each source."""

    def __init__(self) -> None:
        self.version = 0
        self.edges: Dict[Key, Marks] = {}
        self.names: Dict[str, None] = {}
        self.rows: Dict[str, List[Block]] = {}
        self.retired: List[Life] = []

    def apply(self, operations: Sequence[Tuple[str, ...]]) -> str:
        """A batch; its line."""
        self.version += 1
        told: Counter[str] = Counter()
        for it in operations:
            told[self.change(*it)] += 1
        for source, row in self.rows.items():
            self.rows[source] = [it for it in row if it.targets]
            for block in row:
                block.is_touched = False
        counts = " ".join(f"{word}={told[word]}" for word in ("ins", "upd", "rem", "abs", "ovf"))
        expired = sum(int(word) * count for word, count in told.items() if word.isdigit())
        return f"commit v={self.version} {counts}" + (f" exp={expired}" if any(it[0] == "x" for it in operations) else "")

    def change(self, word: str, *fields: str) -> str:
        """An operation; what is told of it, for an expiry how many edges it took."""
        if word == "x":
            old = [key for key, marks in self.edges.items() if marks.recent < int(fields[0])]
            for it in old:
                self.remove(it)
            return str(len(old))
        key = fields[0], fields[1], fields[2]
        if word == "r":
            return self.remove(key)
        self.names.setdefault(key[1])
        self.names.setdefault(key[2])
        return self.put(word, key, int(fields[3]), int(fields[4]))

    def put(self, word: str, key: Key, weight: int, time: int) -> str:
        before = self.edges.get(key)
        if before and word == "a":
            weight += before.weight
            if abs(weight) > MOST_WEIGHT:
                return "ovf"
        self.edges[key] = Marks(weight, before.first if before else time, time)
        self.touch(self.block_of(key) or self.block_with_room(key)).targets.add(key[2])
        return "upd" if before else "ins"

    def remove(self, key: Key) -> str:
        block = self.block_of(key)
        if not block:
            return "abs"
        del self.edges[key]
        self.touch(block).targets.remove(key[2])
        return "rem"

    def block_of(self, key: Key) -> Optional[Block]:
        kind, source, target = key
        return next((it for it in self.rows.get(source, []) if it.kind == kind and target in it.targets), None)

    def block_with_room(self, key: Key) -> Block:
        """The first block of the kind that isn't full, else one more at the end."""
        row = self.rows.setdefault(key[1], [])
        for it in row:
            if it.kind == key[0] and len(it.targets) < ROOM:
                return it
        row.append(Block(key[0], self.version))
        return row[-1]

    def touch(self, block: Block) -> Block:
        """A batch replaces a block the first time that it changes it."""
        if not block.is_touched:
            self.retired.append(Life(block.birth, self.version))
            block.birth, block.is_touched = self.version, True
        return block


def random_operations(random_: random.Random, count: int, time: int) -> List[Tuple[str, ...]]:
    """A tenth removals, a third additions, some past the limits of weights, and two expiries of what is old."""
    operations: List[Tuple[str, ...]] = []
    for at in range(count):
        ends = f"k{random_.randrange(3)}", f"v{random_.randrange(40)}", f"v{random_.randrange(150)}"
        word = random_.choices("rai", (1, 3, 6))[0]
        weight = random_.choice([MOST_WEIGHT, -MOST_WEIGHT, *range(-9, 50)])
        operations.append((word, *ends) if word == "r" else (word, *ends, str(weight), str(time + at)))
    for at in count // 3, count - 1:
        operations[at] = "x", str(max(0, time + at - 9_000))
    return operations
