"""The scripts whose costs are kept (`python3 -m bench run costs`): some twenty, small enough for the gate."""
from __future__ import annotations

import itertools
import random
from typing import Callable, Dict

from bench.scripts import Lines, batches, hub, inserted, skewed, tree


def asked(request: str, times: int) -> Lines:
    """A graph of both shapes, and a request of a session, so many times."""
    yield from batches(inserted(skewed(12_000, 3_000)))
    yield from batches(inserted(tree(6_000)))
    yield "open,0"
    yield from [request] * times


def over_a_tree(*records: str, times: int) -> Lines:
    """A tree, and then these records again and again."""
    yield from batches(inserted(tree(9_000)))
    yield from itertools.chain.from_iterable(itertools.repeat(records, times))


def single_edges() -> Lines:
    yield from batches(inserted(skewed(8_000, 2_000)))
    yield from batches(inserted(skewed(2_000, 2_000), 2), 1)


def updates_far_apart() -> Lines:
    """Batches that change a row in each of 64 pages of rows. No page is copied, since nobody else has the table of rows."""
    yield from batches(inserted((source, source + 1) for source in range(4_096)))
    for time in range(300):
        yield from (f"a,link,v{source},v{source + 1},1,{time}" for source in range(time % 64, 4_096, 64))
        yield from ("commit", "collect")


def replaced_under_a_session() -> Lines:
    """Each of 6,000 blocks is replaced once while a session holds what was there, and then collections find nothing."""
    edges = [(source, source % 16) for source in range(6_000)]
    yield from batches(inserted(edges, 1), 1_000)
    yield "open,0"
    yield from batches(inserted(edges, 2), 1_000)
    yield from ["collect"] * 2_000


def expiries() -> Lines:
    yield from batches(f"i,link,v{place % 2_000},v{place},1,{place}" for place in range(12_000))
    for time in range(0, 12_000, 500):
        yield from (f"x,{time}", "commit", "collect")


def idle_expiries() -> Lines:
    """Expiries that find nothing over many rows, a third of which have two blocks. Bounds of the rows say so."""
    yield from batches(f"i,k{place // 6_000},v{place % 6_000},w{place % 100},1,9" for place in range(8_000))
    yield from ["x,5", "commit"] * 1_000


def names_found() -> Lines:
    """Removals of edges that aren't there, which look for two names and do nothing else."""
    yield from batches(inserted(tree(8_000)))
    draws = random.Random(13)
    yield from batches(f"r,link,v{draws.randrange(8_000)},v0" for _ in range(40_000))


def names_that_begin_alike() -> Lines:
    """The same over 200 of 4,100 names, which differ in their last bytes alone, and of which none is a source."""
    names = [f"{place:020}" for place in range(4_100)]
    yield from batches(f"i,link,hub,{name},1,1" for name in names)
    draws = random.Random(17)
    few = draws.sample(names, 200)
    yield from batches(f"r,link,{draws.choice(few)},{draws.choice(few)}" for _ in range(24_000))


def rebases(times: int) -> Lines:
    yield from batches(inserted((source, source + 1) for source in range(1_500)))
    for _ in range(times):
        yield from ("open,0", "rebase,0")


def edges_asked(blocks: int) -> Lines:
    yield from hub(blocks)
    yield "open,0"
    yield from (f"edge,0,link,hub,v{32 * blocks - 1}" for _ in range(2_000))


def windows() -> Lines:
    yield from batches(f"i,link,hub,v{place},1,{place}" for place in range(16_000))
    yield "open,0"
    yield from (f"deg,0,*,{15_990},{16_000}" for _ in range(20))


def few_reached() -> Lines:
    yield from batches(inserted(tree(12_000)))
    yield from batches((f"i,far,w{place},w{place + 1},1,1" for place in range(50)))
    yield "open,0"
    yield from ["bfs,0,w0,far,0,9"] * 200


def long_names() -> Lines:
    names = [f"{'account-of-a-customer-with-a-long-name-':.40}{place:08}" for place in range(6_000)]
    yield from batches(f"i,link,{one},{other},1,1" for one, other in zip(names, names[1:]))
    yield from batches(f"i,link,{one},{other},2,2" for one, other in zip(names, names[1:]))


SCRIPTS: Dict[str, Callable[[], Lines]] = {
    "nothing": lambda: iter(()),
    "a skewed load": lambda: batches(inserted(skewed(40_000, 8_000))),
    "a tree": lambda: batches(inserted(tree(20_000))),
    "a hub": lambda: hub(500),
    "a batch of one on a hub": lambda: itertools.chain(hub(300), batches(inserted([(0, 0)] * 1), 1),
                                                       *([f"i,link,hub,v{9_599},2,{time}", "commit"] for time in range(200))),
    "the last edge of a hub": lambda: edges_asked(300),
    "single edges": single_edges,
    "updates far apart": updates_far_apart,
    "long names": long_names,
    "removals": lambda: itertools.chain(batches(inserted(tree(9_000))), batches(
        f"r,link,v{source},v{target}" for source, target in tree(9_000))),
    "empty commits": lambda: iter(["commit"] * 20_000),
    "levels": lambda: asked("bfs,0,v0,*,0,9", 5),
    "few reached": few_reached,
    "components": lambda: asked("comp,0,*,0,9", 5),
    "core numbers": lambda: asked("core,0,*,0,9", 5),
    "degrees": lambda: asked("deg,0,*,0,9", 5),
    "a late window of a hub": windows,
    "a session over replaced blocks": replaced_under_a_session,
    "expiries": expiries,
    "expiries that find nothing": idle_expiries,
    "names found": names_found,
    "names that begin alike": names_that_begin_alike,
    "rebases": lambda: rebases(30),
    "stat": lambda: over_a_tree("stat", times=20_000),
    "sessions opened and closed": lambda: over_a_tree("open,0", "close,0", times=2_000),
    "a skewed load by two workers": lambda: batches(inserted(skewed(40_000, 8_000))),
}
# How many workers run a script, where there isn't one.
WORKERS = {"a skewed load by two workers": 2}
