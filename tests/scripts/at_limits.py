#!/usr/bin/env python3
"""Runs the program at its limits: no contract sees a body that reports out of memory from some size on.

    ./at_limits.py PROGRAM [--seconds]

Each case makes a script, and beside it the lines that it is to print: by arithmetic, and for long random batches by a plain model
of edges and blocks. Nothing is taken from the program. A line is printed for each case; the status is 1 where one went wrong.
"""
from __future__ import annotations

import random
import subprocess
import sys
import time
from collections import Counter
from typing import Callable, Dict, Iterable, List, Sequence, Tuple

sys.dont_write_bytecode = True
from plain_store import ROOM, Key, Life, Marks, Model, random_operations  # noqa: E402

BATCH = 4_096  # operations of a batch
BLOCKS = 16_384  # blocks of a store without options
USUAL_WORKERS = (4,)


class Story:
    """A script, the options that it is run with, and the lines that it is to print."""

    def __init__(self, *options: str, workers: Sequence[int] = USUAL_WORKERS) -> None:
        self.options, self.workers = list(options), workers
        self.records: List[str] = []
        self.lines: List[str] = []
        self.status = 0
        self.version = 0

    def give(self, record: str, *lines: str) -> None:
        """A record, and the lines that it prints."""
        self.records.append(record)
        self.lines.extend(lines)

    def refuse(self, record: str, word: str) -> None:
        """A record that is refused with the word."""
        self.records.append(record)
        self.lines.append(f"error {len(self.records)} {word}")
        self.status = 1

    def table(self, record: str, head: str, rows: Iterable[Tuple[object, ...]]) -> None:
        """A request, the first line of its answer, and a line for each row."""
        self.give(record, head, *(" ".join(map(str, row)) for row in rows))

    def insert(self, operations: Sequence[str]) -> None:
        """New edges, in full batches; each is the first of its kind, source and target."""
        for start in range(0, len(operations), BATCH):
            batch = operations[start:start + BATCH]
            self.records.extend(batch)
            self.version += 1
            self.give("commit", f"commit v={self.version} ins={len(batch)} upd=0 rem=0 abs=0 ovf=0")

    def open(self, slot: int = 0) -> None:
        self.give(f"open,{slot}", f"open {slot} v={self.version}")

    def stat(self, names: int, edges: int, retired: int, used: int, blocks: int = BLOCKS) -> None:
        free = blocks - retired - used
        self.give("stat", f"stat v={self.version} names={names} edges={edges} free={free} retired={retired} used={used}")


def blocks_for(edges: int) -> int:
    """How many blocks hold so many edges of one kind and source that came one after another."""
    return -(-edges // ROOM)


def complete_graph() -> Story:
    """66 vertices, an edge from each to all behind it: core numbers of 65, which leave 64 bits."""
    story, count = Story(), 66
    names = [f"v{n}" for n in range(count)]
    story.insert([f"i,k,v{a},v{b},{b},{b}" for a in range(count) for b in range(a + 1, count)])
    story.open()
    most = count - 1
    story.table(f"core,0,*,0,{most}", f"core 0 max={most}", ((it, most) for it in names))
    # (the edges to the last vertex are outside of this window)
    fewer = [*((it, most - 1) for it in names[:-1]), (names[-1], 0)]
    story.table(f"core,0,k,0,{most - 1}", f"core 0 max={most - 1}", fewer)
    story.table(f"comp,0,*,0,{most}", "comp 0 parts=1", ((it, "v0") for it in names))
    story.table(f"bfs,0,v0,k,0,{most}", f"bfs 0 reached={count}", ((it, int(it != "v0")) for it in names))
    story.table(f"bfs,0,v1,k,0,{most}", f"bfs 0 reached={most}", ((it, int(it != "v1")) for it in names[1:]))
    degrees = ((f"v{a}", most - a, a, sum(range(a + 1, count))) for a in range(count))
    story.table(f"deg,0,*,0,{most}", f"deg 0 edges={count * most // 2}", degrees)
    story.give(f"edge,0,k,v0,v{most}", f"edge 0 {most} {most} {most}")
    story.stat(count, count * most // 2, 0, sum(blocks_for(most - a) for a in range(count)))
    return story


def many_edges() -> Story:
    """260 sources with 400 targets each: 104,000 edges, more than 16 bits count; then the same behind a rebase."""
    story, sources, targets = Story(), 260, 400
    edges, used = sources * targets, sources * blocks_for(targets)
    places = [(a, b) for a in range(sources) for b in range(targets)]
    story.insert([f"i,k,s{a},t{b},{a + b},{b}" for a, b in places])
    # A block is replaced once for each further batch that puts edges into it.
    touched = {(a, b // ROOM, at // BATCH) for at, (a, b) in enumerate(places)}
    retired = len(touched) - used
    story.open()
    story.stat(sources + targets, edges, retired, used)
    ask_many_edges(story, sources, targets)
    story.version = 0
    story.give("rebase,0", f"rebase v=0 names={sources + targets} edges={edges} used={used}")
    story.stat(sources + targets, edges, 0, used)
    story.open()
    ask_many_edges(story, sources, targets)
    return story


def ask_many_edges(story: Story, sources: int, targets: int) -> None:
    """Each request over all edges, degrees in a window too, and edges of both ends."""
    names = ["s0", *(f"t{b}" for b in range(targets)), *(f"s{a}" for a in range(1, sources))]
    for lo, hi in (0, targets), (100, 200):
        window = range(lo, min(hi + 1, targets))
        out = {f"s{a}": (len(window), 0, sum(a + b for b in window)) for a in range(sources)}
        into = {f"t{b}": (0, sources if b in window else 0, 0) for b in range(targets)}
        story.table(f"deg,0,k,{lo},{hi}", f"deg 0 edges={sources * len(window)}", ((it, *{**out, **into}[it]) for it in names))
    story.table(f"comp,0,*,0,{targets}", "comp 0 parts=1", ((it, "s0") for it in names))
    story.table(f"core,0,*,0,{targets}", f"core 0 max={sources}", ((it, sources) for it in names))
    levels = [(it, int(it != "s0")) for it in names if it == "s0" or it[0] == "t"]
    story.table(f"bfs,0,s0,*,0,{targets}", f"bfs 0 reached={targets + 1}", levels)
    for a, b in (0, 0), (sources - 1, targets - 1), (128, 31), (128, 32):
        story.give(f"edge,0,k,s{a},t{b}", f"edge 0 {a + b} {b} {b}")
    story.give("edge,0,k,t0,s0", "edge 0 none")


def all_names() -> Story:
    """65,536 names: one vertex with an edge to each other one, in a row of 2,048 blocks. One more name is refused."""
    story, most = Story(), 65_536
    names = ["hub", *(f"v{n}" for n in range(1, most))]
    for start in range(1, most, BATCH):
        story.insert([f"i,k,hub,v{n},{n},1" for n in range(start, min(start + BATCH, most))])
    story.open()
    story.table("bfs,0,hub,*,0,1", f"bfs 0 reached={most}", ((it, int(it != "hub")) for it in names))
    story.table("bfs,0,v65535,k,0,1", "bfs 0 reached=1", [("v65535", 0)])
    story.table("comp,0,*,0,1", "comp 0 parts=1", ((it, "hub") for it in names))
    story.table("comp,0,*,2,3", f"comp 0 parts={most}", ((it, it) for it in names))
    story.table("core,0,*,0,1", "core 0 max=1", ((it, 1) for it in names))
    total = sum(range(1, most))
    story.table("deg,0,k,0,1", f"deg 0 edges={most - 1}", [("hub", most - 1, 0, total), *((it, 0, 1, 0) for it in names[1:])])
    story.give("edge,0,k,hub,v65535", "edge 0 65535 1 1")
    story.give("i,k,v65535,one_more,1,1")
    story.refuse("commit", "NamesFull")
    story.give("i,k,one_more,hub,1,1")
    story.refuse("commit", "NamesFull")
    story.refuse("edge,0,k,hub,one_more", "NoVertex")
    story.stat(most, most - 1, 0, blocks_for(most - 1))
    story.insert(["i,k,v65535,hub,5,1"])
    story.stat(most, most, 0, blocks_for(most - 1) + 1)
    # Several workers look up the ends of so many removals, none of which finds an edge.
    for n in range(1, 3_001):
        story.give(f"r,k,v{n},v{most - n}")
    story.give("commit", f"commit v={story.version + 1} ins=0 upd=0 rem=0 abs=3000 ovf=0")
    return story


def all_kinds() -> Story:
    """64 kinds in one row of 2,112 blocks, which take turns there. A 65th kind is refused; an expiry then takes half of them."""
    kinds, targets, blocks = 64, 1_050, 65_536
    story, edges, used = Story("--blocks", str(blocks)), kinds * targets, kinds * blocks_for(targets)
    places = [(b, k) for b in range(targets) for k in range(kinds)]
    story.insert([f"i,k{k},s,t{b},{k + 1},{k}" for b, k in places])
    retired = len({(k, b // ROOM, at // BATCH) for at, (b, k) in enumerate(places)}) - used
    story.open()
    story.stat(targets + 1, edges, retired, used, blocks)
    names = [f"t{b}" for b in range(targets)]
    total = targets * sum(range(1, kinds + 1))
    story.table("deg,0,*,0,99", f"deg 0 edges={edges}", [("s", edges, 0, total), *((it, 0, kinds, 0) for it in names)])
    for kind in 0, 31, 63:
        degrees = [("s", targets, 0, targets * (kind + 1)), *((it, 0, 1, 0) for it in names)]
        story.table(f"deg,0,k{kind},0,99", f"deg 0 edges={targets}", degrees)
        story.give(f"edge,0,k{kind},s,t{targets - 1}", f"edge 0 {kind + 1} {kind} {kind}")
    story.table("core,0,*,0,99", "core 0 max=1", ((it, 1) for it in ["s", *names]))
    story.table("bfs,0,s,k63,63,63", f"bfs 0 reached={targets + 1}", ((it, int(it != "s")) for it in ["s", *names]))
    story.give("i,k64,s,t0,1,1")
    story.refuse("commit", "KindsFull")
    story.refuse("deg,0,k64,0,99", "NoKind")
    expire_half(story, kinds, targets, retired, blocks)
    return story


def expire_half(story: Story, kinds: int, targets: int, retired: int, blocks: int) -> None:
    """Takes the edges of the lesser kinds away, and one of the others; the blocks of those go, and of this one is replaced."""
    half, each = kinds // 2, blocks_for(targets)
    story.give(f"x,{half}")
    story.give("r,k63,s,t0")
    story.version += 1
    story.give("commit", f"commit v={story.version} ins=0 upd=0 rem=1 abs=0 ovf=0 exp={half * targets}")
    story.give("close,0", "close 0")
    story.open()
    left = half * targets - 1
    story.stat(targets + 1, left, retired + half * each + 1, half * each, blocks)
    total = targets * sum(range(half + 1, kinds + 1)) - kinds
    rows = [("s", left, 0, total), ("t0", 0, half - 1, 0), *((f"t{b}", 0, half, 0) for b in range(1, targets))]
    story.table("deg,0,*,0,99", f"deg 0 edges={left}", rows)
    story.give("edge,0,k31,s,t9", "edge 0 none")
    story.give("edge,0,k32,s,t9", "edge 0 33 32 32")
    story.give("collect", f"collect floor={story.version} recycled={retired + half * each + 1} retired=0")


def many_old_rows() -> Story:
    """32,000 rows with a block each, of an old edge and a young one: an expiry replaces every block, and the next drops it."""
    blocks, rows = 65_536, 32_000
    story = Story("--blocks", str(blocks))
    story.insert([f"i,k,s{n},{target}" for n in range(rows) for target in ("old,1,1", "young,1,9")])
    story.stat(rows + 2, 2 * rows, 0, rows, blocks)
    for time, left in (5, rows), (10, 0):
        story.version += 1
        story.give(f"x,{time}")
        story.give("commit", f"commit v={story.version} ins=0 upd=0 rem=0 abs=0 ovf=0 exp={rows}")
        story.stat(rows + 2, left, rows, left, blocks)
        story.give("collect", f"collect floor={story.version} recycled={rows} retired=0")
    return story


class Seats:
    """16 rows of one edge, of which each version changes one, so that a block comes and one is replaced; and what slots hold."""

    ROWS, BLOCKS = 16, 160

    def __init__(self) -> None:
        self.story = Story("--seats", "16", "--blocks", str(self.BLOCKS))
        self.held: Dict[int, int] = {}
        self.retired: List[Life] = []
        self.story.insert([f"i,k,s{row},t,1,1" for row in range(self.ROWS)])

    def last_change(self, row: int, version: int) -> int:
        """The last version up to this one in which the row's edge was changed."""
        return max(1, version - (version - row) % self.ROWS)

    def change(self) -> None:
        version = self.story.version = self.story.version + 1
        row = version % self.ROWS
        self.retired.append(Life(self.last_change(row, version - 1), version))
        self.story.give(f"i,k,s{row},t,{version},{version}")
        self.story.give("commit", f"commit v={version} ins=0 upd=1 rem=0 abs=0 ovf=0")

    def collect(self) -> None:
        needed = [it for it in self.retired if it.is_needed(self.held.values())]
        floor = min([self.story.version, *self.held.values()])
        recycled, self.retired = len(self.retired) - len(needed), needed
        self.story.give("collect", f"collect floor={floor} recycled={recycled} retired={len(needed)}")
        self.story.stat(self.ROWS + 1, self.ROWS, len(needed), self.ROWS, self.BLOCKS)

    def ask(self) -> None:
        """The edges of each held version, and where its last change was."""
        for slot, version in self.held.items():
            weights = [self.last_change(row, version) for row in range(self.ROWS)]
            rows = [("s0", 1, 0, weights[0]), ("t", 0, 16, 0), *((f"s{n}", 1, 0, weights[n]) for n in range(1, self.ROWS))]
            self.story.table(f"deg,{slot},k,0,999", f"deg {slot} edges=16", rows)
            row = version % self.ROWS
            self.story.give(f"edge,{slot},k,s{row},t", f"edge {slot} {weights[row]} 1 {weights[row]}")

    def hold(self, slot: int) -> None:
        self.held[slot] = self.story.version
        self.story.open(slot)

    def let_go(self, slot: int) -> None:
        del self.held[slot]
        self.story.give(f"close,{slot}", f"close {slot}")


def all_seats() -> Story:
    """16 sessions on 16 versions over 200 collections; then they let go from both ends, with a collection behind each."""
    seats = Seats()
    for turn in range(200):
        if turn % 7 == 0 and turn // 7 < 16:
            seats.hold(turn // 7)
        seats.change()
        seats.collect()
        if turn % 20 == 19:
            seats.ask()
    seats.story.refuse("open,16", "BadSlot")
    seats.story.refuse("open,15", "AlreadyOpen")
    for slot in (it for pair in zip(range(8), range(15, 7, -1)) for it in pair):
        seats.let_go(slot)
        seats.collect()
        seats.ask()
    return seats.story


def ask_edges(story: Story, slot: int, edges: Dict[Key, Marks], names: Iterable[str]) -> None:
    """Degrees of each kind and of all, each edge, and some that aren't there."""
    for kind in "k0", "k1", "k2", "*":
        there = {key: it for key, it in edges.items() if kind in (key[0], "*")}
        out, into = Counter(it[1] for it in there), Counter(it[2] for it in there)
        weights: Counter[str] = Counter()
        for key, it in there.items():
            weights[key[1]] += it.weight
        rows = ((it, out[it], into[it], weights[it]) for it in names)
        story.table(f"deg,{slot},{kind},0,999999", f"deg {slot} edges={len(there)}", rows)
    for key, it in edges.items():
        story.give(f"edge,{slot},{','.join(key)}", f"edge {slot} {it.weight} {it.first} {it.recent}")
    for key in (("k0", f"v{n}", f"v{3 * n}") for n in range(40)):
        if key not in edges:
            story.give(f"edge,{slot},{','.join(key)}", f"edge {slot} none")


def long_batches() -> Story:
    """Batches of 2,048 to 4,096 operations, which several workers share; the same for each number of workers, and the model's."""
    story, model, random_, time = Story(workers=(1, 2, 4, 8)), Model(), random.Random(7), 0
    held: Tuple[Dict[Key, Marks], List[str], int] = {}, [], 0
    for turn, count in enumerate([BATCH, 2_048, BATCH, 2_049, 3_001, BATCH, 2_048, BATCH]):
        operations = random_operations(random_, count, time)
        time += count
        for it in operations:
            story.give(",".join(it))
        story.give("commit", model.apply(operations))
        story.version = model.version
        story.stat(len(model.names), len(model.edges), len(model.retired), sum(map(len, model.rows.values())))
        if turn == 2:
            story.open(1)
            held = dict(model.edges), list(model.names), model.version
        story.open()
        ask_edges(story, 0, model.edges, model.names)
        story.give("close,0", "close 0")
        collect(story, model, [held[2]] if held[2] else [])
    ask_edges(story, 1, held[0], held[1])
    return story


def collect(story: Story, model: Model, held: List[int]) -> None:
    needed = [it for it in model.retired if it.is_needed(held)]
    recycled, model.retired = len(model.retired) - len(needed), needed
    story.give("collect", f"collect floor={min([model.version, *held])} recycled={recycled} retired={len(needed)}")


CASES: Dict[str, Callable[[], Story]] = {
    "the complete graph of 66 vertices": complete_graph, "104,000 edges": many_edges, "65,536 names": all_names,
    "64 kinds in a row": all_kinds, "32,000 old rows": many_old_rows, "16 seats": all_seats,
    "batches for several workers": long_batches}


def fault_of(program: str, story: Story, workers: int) -> str:
    """What a run of the story does otherwise than told; nothing where it does as told."""
    words = [program, "run", "--workers", str(workers), *story.options]
    script = "".join(f"{it}\n" for it in story.records)
    run = subprocess.run(words, input=script, stdout=subprocess.PIPE, text=True, timeout=100)
    lines = run.stdout.splitlines()
    for number, (wanted, line) in enumerate(zip(story.lines, lines), 1):
        if wanted != line:
            return f"{workers} workers: line {number} is {line!r}, wanted {wanted!r}"
    if len(lines) != len(story.lines) or run.returncode != story.status:
        return f"{workers} workers: {len(lines)} lines, status {run.returncode}; wanted {len(story.lines)} and {story.status}"
    return ""


def main(program: str, *options: str) -> int:
    failed = 0
    for name, tell in CASES.items():
        begun = time.monotonic()
        story = tell()
        faults = [it for it in (fault_of(program, story, workers) for workers in story.workers) if it]
        failed += bool(faults)
        print(f"{name}: {'; '.join(faults) or 'as computed'}", flush=True)
        if "--seconds" in options:
            print(f"{time.monotonic() - begun:.1f} s, {len(story.records)} records", file=sys.stderr)
    return int(failed > 0)


if __name__ == "__main__":
    sys.exit(main(*sys.argv[1:]))
