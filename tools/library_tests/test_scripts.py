"""Random stores by way of C beside scripts of the same operations and requests: the lines that `stinger run` prints, worked out
of what the library answers, are those that it prints.

    tools/test_library scripts                 2,000 scripts, of a seed that is printed
    SCRIPTS=60 SEED=1 tools/test_library scripts
"""
import os
import random
import subprocess
import unittest
from typing import Callable, Dict, List, Optional, Tuple

from calls import Batch, Code, Desk, Operation, Refused, Version, fields, interface, view
from places import library, program

WORDS = {Code.BAD_NAME: "BadName", Code.BAD_WEIGHT: "BadWeight", Code.BAD_TIME: "BadTime", Code.BATCH_FULL: "BatchFull",
         Code.BATCHES_FULL: "BatchLimit", Code.NAMES_FULL: "NamesFull", Code.KINDS_FULL: "KindsFull",
         Code.BLOCKS_FULL: "PoolEmpty", Code.NO_KIND: "NoKind", Code.NO_VERTEX: "NoVertex", Code.NO_SEAT: "NotOpen"}
MOST_WEIGHT, MOST_TIME = 1 << 40, (1 << 63) - 1
NAMES = [f"v{it}".encode() for it in range(12)] + [b"a,b", b'say"x"', b"z" * 64, b"!", b"~"]
# No names: too short, too long, a space, DEL, no UTF-8, no ASCII.
NO_NAMES = [b"", b"z" * 65, b"two words", b"a\x7f", b"a\xff", "é".encode()]
SEATS = 16
# A record's word, kind, source, target, weight and time.
Drawn = Tuple[str, bytes, bytes, bytes, int, int]


def quoted(field: bytes) -> bytes:
    return b'"%b"' % field.replace(b'"', b'""') if b"," in field or b'"' in field else field


class Play:
    """A desk and a batch, slots with what they hold, the script so far, and its lines: None for a line that is passed over."""

    def __init__(self, seed: int) -> None:
        self.random = random.Random(seed)
        self.blocks = self.random.choice([16, 40, 200, 4096])
        self.desk, self.batch, self.expires = Desk(library(), self.blocks), Batch(library()), False
        self.kinds = [f"k{it}".encode() for it in range(self.random.choice([1, 2, 3, 3, 3, 80]))]
        self.slots: Dict[int, Version] = {}
        self.records: List[bytes] = []
        self.lines: List[Optional[str]] = []
        self.time = self.done = 0

    def record(self, *told: object) -> None:
        self.records.append(b",".join(quoted(it if isinstance(it, bytes) else str(it).encode()) for it in told))

    def tell(self, do: Callable[[], Optional[str]]) -> bool:
        """Notes the line of a call, or its refusal."""
        try:
            line = do()
        except Refused as refused:
            self.lines.append(f"error {len(self.records)} {WORDS[refused.code]}")
            return False
        self.lines += [line] if line else []
        return True

    def name(self) -> bytes:
        if self.random.random() < 0.01:
            return self.random.choice(NO_NAMES)
        return NAMES[int(len(NAMES) * self.random.random() ** 2)]

    def kind(self) -> bytes:
        return self.random.choice([*NO_NAMES, b"*"]) if self.random.random() < 0.01 else self.random.choice(self.kinds)

    def some_time(self) -> int:
        self.time += self.random.random() < 0.7
        far = [MOST_TIME, MOST_TIME + 1, 0]
        if self.random.random() < 0.03:
            return self.random.choice(far)
        return self.random.randrange(max(0, self.time - 9), self.time + 1)

    def weight(self) -> int:
        far = [MOST_WEIGHT, -MOST_WEIGHT, MOST_WEIGHT + 1, -MOST_WEIGHT - 1, 0]
        return self.random.choice(far) if self.random.random() < 0.04 else self.random.randrange(-9, 100)

    def draw(self) -> Drawn:
        """An operation, as a record's fields."""
        chance, ends = self.random.random(), (self.kind(), self.name(), self.name())
        if chance < 0.75:
            return ("i" if chance < 0.5 else "a", *ends, self.weight(), self.some_time())
        return ("r", *ends, 0, 0) if chance < 0.96 else ("x", b"", b"", b"", 0, self.some_time())

    def note(self, drawn: Drawn) -> None:
        self.record(drawn[0], *{"r": drawn[1:4], "x": drawn[5:]}.get(drawn[0], drawn[1:]))

    def operate(self) -> None:
        drawn = self.draw()
        self.note(drawn)
        word, kind, source, target, weight, time = drawn
        if word == "x":
            self.expires |= self.tell(lambda: self.batch.expire(time))
        elif word == "r":
            self.tell(lambda: self.batch.remove(kind, source, target))
        else:
            self.tell(lambda: (self.batch.insert if word == "i" else self.batch.add)(kind, source, target, weight, time))

    def operate_in_columns(self, count: int) -> None:
        """Operations in columns. One that is refused is told by its place, and the columns before it and behind it go in."""
        drawn, first = [self.draw() for _ in range(count)], len(self.records)
        for it in drawn:
            self.note(it)
        kinds = sorted({it[1] for it in drawn})
        names = sorted({name for it in drawn for name in it[2:4]})
        rows: List[Operation] = [("iarx".index(word), kinds.index(kind), names.index(source), names.index(target), weight, time)
                                 for word, kind, source, target, weight, time in drawn]
        code, place = self.batch.append(kinds, names, rows)
        while code != Code.OK:
            done, length = place + 1, len(self.batch)
            assert self.batch.append(kinds, names, rows[:place], self.done) == (Code.OK, place)
            assert len(self.batch) == length + place - self.done
            self.lines.append(f"error {first + done} {WORDS[code]}")
            drawn[place], self.done = ("r", b"", b"", b"", 0, 0), done
            code, place = self.batch.append(kinds, names, rows, done)
        assert place == count
        self.done = 0
        self.expires |= any(it[0] == "x" for it in drawn)

    def commit(self) -> None:
        self.record("commit")
        if not self.tell(self.applied):
            # (a script gives up a batch that is refused, and the library leaves it as it was)
            self.batch.free()
            self.batch = Batch(library())
        self.expires = False

    def applied(self) -> str:
        length, before = len(self.batch), fields(self.desk.stat())
        try:
            told = self.desk.apply(self.batch)
        except Refused:
            assert (len(self.batch), fields(self.desk.stat())) == (length, before)
            raise
        assert len(self.batch) == 0
        line = f"commit v={told.version} ins={told.inserted} upd={told.updated} rem={told.removed} abs={told.absent} " \
               f"ovf={told.overflowed}"
        return f"{line} exp={told.expired}" if self.expires else line

    def load(self) -> None:
        """Insertions in columns, which are a batch. The library collects after it, and before it if too few blocks are free."""
        names = self.random.sample(NAMES, 6)
        rows = [(self.random.randrange(6), self.random.randrange(6), self.random.randrange(-9, 99), self.random.randrange(99))
                for _ in range(self.random.randrange(1, 60))]
        kind, before = self.random.choice(self.kinds), fields(self.desk.stat())
        for fault, wrong in ((Code.BAD_NUMBER, (6, 0, 1, 1)), (Code.BAD_WEIGHT, (0, 1, MOST_WEIGHT + 1, 1))):
            refused = self.desk.insert_columns(kind, names, [*rows, wrong])
            assert refused[:2] == (fault, 0) and fields(self.desk.stat()) == before
        if self.desk.stat().blocks_free < len(rows):
            self.record("collect")
            self.lines.append(None)
        for source, target, weight, time in rows:
            self.record("i", kind, names[source], names[target], weight, time)
        self.record("commit")
        code, done, told = self.desk.insert_columns(kind, names, rows)
        line = f"commit v={told.version} ins={told.inserted} upd={told.updated} rem=0 abs=0 ovf=0"
        assert done == (len(rows) if code == Code.OK else 0)
        self.lines.append(line if code == Code.OK else f"error {len(self.records)} {WORDS[code]}")
        if code == Code.OK:
            self.record("collect")
            self.lines.append(None)

    def open(self) -> int:
        slot = next(it for it in range(SEATS) if it not in self.slots)
        self.record("open", slot)

        def line() -> str:
            self.slots[slot] = held = self.desk.hold()
            return f"open {slot} v={held.size.version}"
        self.tell(line)
        return slot

    def close(self) -> None:
        slot = self.random.choice(list(self.slots))
        self.record("close", slot)
        self.desk.release(self.slots.pop(slot))
        self.lines.append(f"close {slot}")

    def collect(self) -> None:
        self.record("collect")
        floor = min([self.desk.stat().version, *(it.size.version for it in self.slots.values())])
        recycled = self.desk.collect()
        self.lines.append(f"collect floor={floor} recycled={recycled} retired={self.desk.stat().blocks_retired}")

    def stat(self) -> None:
        self.record("stat")
        told = self.desk.stat()
        self.lines.append(f"stat v={told.version} names={told.vertices} edges={told.edges} free={told.blocks_free} "
                          f"retired={told.blocks_retired} used={told.blocks_used}")

    def rebase(self) -> None:
        """A script begins anew over what a slot holds; so one is opened first."""
        if len(self.slots) == SEATS:
            self.close()
        self.record("rebase", self.open())
        answers = [(it, it.edges(view(), 500)) for it in self.slots.values()]
        self.desk.rebase()
        told = self.desk.stat()
        self.lines.append(f"rebase v={told.version} names={told.vertices} edges={told.edges} used={told.blocks_used}")
        for held, edges in answers:
            assert held.edges(view(), 500) == edges
            self.desk.release(held)
        self.slots.clear()

    def ask(self) -> None:
        slot, held = self.random.choice(list(self.slots.items()))
        word = self.random.choice(["bfs", "comp", "core", "deg"])
        kind = b"*" if self.random.random() < 0.6 else self.random.choice([*self.kinds, b"none"])
        window = sorted(self.random.choice([0, self.time, MOST_TIME, self.random.randrange(99)]) for _ in range(2))
        source = self.random.choice([*NAMES, b"nobody"])
        self.record(word, slot, *([source] if word == "bfs" else []), kind, *window)
        try:
            seen = view(None if kind == b"*" else held.kind(kind), (window[0], window[1]))
            rows = self.table(held, word, seen, source)
        except Refused as refused:
            self.lines.append(f"error {len(self.records)} {WORDS[refused.code]}")
            return
        names = [it.decode() for it in held.names()]
        found = held.edges(seen, 800)
        assert [it for vertex in range(len(names)) for it in held.row(seen, vertex)] == found
        numbers = [value for _, value in rows]
        parts = sum(vertex == value for vertex, value in rows)
        heads = {"bfs": f"reached={len(rows)}", "comp": f"parts={parts}", "core": f"max={max(numbers, default=0)}",
                 "deg": f"edges={len(found)}"}
        self.lines.append(f"{word} {slot} {heads[word]}")
        for vertex, value in rows:
            told = names[value] if word == "comp" else value
            self.lines.append(" ".join([names[vertex], *map(str, held.degrees(seen)[vertex] if word == "deg" else [told])]))

    def table(self, held: Version, word: str, seen: interface.View, source: bytes) -> "list[tuple[int, int]]":
        if word == "bfs":
            return list(held.levels(seen, held.vertex(source)).items())
        told = held.labels(seen) if word == "comp" else held.cores(seen)
        return list(enumerate(told))

    def ask_edges(self) -> None:
        """Each edge of a held version, and some that may be none."""
        slot, held = self.random.choice(list(self.slots.items()))
        names, kinds = held.names(), held.kind_names()
        for kind, source, target, *told in held.edges(view(), 700):
            self.record("edge", slot, kinds[kind], names[source], names[target])
            self.lines.append(f"edge {slot} {told[0]} {told[1]} {told[2]}")
        self.record("deg", slot, b"*", 0, MOST_TIME)
        self.lines.append(f"deg {slot} edges={held.size.edges}")
        self.lines += [None] * len(names)
        for _ in range(5):
            ends = self.random.choice([*self.kinds, b"none"]), *(self.random.choice([*NAMES, b"nobody"]) for _ in range(2))
            self.record("edge", slot, *ends)

            def line() -> str:
                number, *rest = held.kind(ends[0]), held.vertex(ends[1]), held.vertex(ends[2])
                try:
                    return "edge {} {} {} {}".format(slot, *held.edge(number, *rest))
                except Refused as refused:
                    assert refused.code == Code.NO_EDGE
                    return f"edge {slot} none"
            self.tell(line)

    def step(self) -> None:
        chance = self.random.random()
        if chance < 0.5:
            for count in (self.random.choice([0, 1, 9]), self.random.choice([1, 3, 40])):
                if self.random.random() < 0.5:
                    self.operate_in_columns(count)
                    continue
                for _ in range(count):
                    self.operate()
            self.commit()
        elif chance < 0.58 and not len(self.batch):
            self.load()
        elif chance < 0.68 and len(self.slots) < SEATS:
            self.open()
        elif chance < 0.74 and self.slots:
            self.close()
        elif chance < 0.75:
            self.rebase()
        elif chance < 0.82 and self.slots:
            self.ask_edges()
        elif chance < 0.95 and self.slots:
            self.ask()
        else:
            self.random.choice([self.collect, self.stat])()

    def end(self) -> None:
        for _ in range(self.random.randrange(3)):
            self.operate()
        if len(self.batch):
            self.lines.append(f"end pending={len(self.batch)}")
        for held in self.slots.values():
            self.desk.release(held)
        self.desk.free()
        self.batch.free()


class Scripts(unittest.TestCase):
    def test_random_stores_answer_as_a_script_does(self) -> None:
        seed, count = int(os.environ.get("SEED") or random.randrange(1 << 30)), int(os.environ.get("SCRIPTS") or 2_000)
        print(f"scripts: SEED={seed} SCRIPTS={count}", flush=True)
        told = 0
        for number in range(seed, seed + count):
            with self.subTest(seed=number):
                play = Play(number)
                for _ in range(40):
                    play.step()
                play.end()
                words = [program(), "run", "--blocks", str(play.blocks), "--seats", str(SEATS)]
                ran = subprocess.run(words, input=b"\n".join(play.records) + b"\n", stdout=subprocess.PIPE)
                lines = ran.stdout.decode().splitlines()
                wanted = [mine if mine is not None else theirs for mine, theirs in zip(play.lines, lines)]
                self.assertEqual((len(play.lines), wanted), (len(lines), lines))
                told += len(lines)
        self.assertGreater(told, 100 * count)


if __name__ == "__main__":
    unittest.main()
