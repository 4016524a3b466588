"""A file of edges, and the client over it: what `client` compares other packages with."""
from __future__ import annotations

import csv
import random
from typing import Any, Dict, List, Set, Tuple

from misteluk import Columns, Store

# Of how many vertices the edges are asked, and how many single edges are added.
ASKED, SINGLE = 100, 5_000


class Input:
    """A file of edges, each ordered pair of vertices once; a few vertices have most of them."""

    def __init__(self, path: str, count: int) -> None:
        made = random.Random(7)
        seen: Set[Tuple[str, str]] = set()
        self.path, self.vertices = path, max(count * 3 // 25, 10)
        while len(seen) < count:
            seen.add((self.account(made), self.account(made)))
        pairs = sorted(seen)
        made.shuffle(pairs)
        self.rows = [(source, target, made.randrange(1, 100_000), at) for at, (source, target) in enumerate(pairs)]
        with open(path, "w", newline="") as file:
            write = csv.writer(file, lineterminator="\n").writerows
            write([("source", "target", "weight", "time"), *self.rows])
        names = sorted({it for row in self.rows for it in row[:2]})
        self.asked, self.first = made.sample(names, min(ASKED, len(names))), self.rows[0][0]

    def account(self, made: random.Random) -> str:
        return f"a{min(made.randrange(self.vertices) for _ in range(3))}"

    def read(self) -> List[Tuple[str, str, int, int]]:
        with open(self.path, newline="") as file:
            rows = csv.reader(file)
            next(rows)
            return [(source, target, int(weight), int(when)) for source, target, weight, when in rows]


class Client:
    """The store in this process, by sessions."""

    name = "misteluk"

    def __init__(self, given: Input) -> None:
        self.given = given
        self.columns = Columns("source", "target", weight="weight", time="time")

    def load(self) -> None:
        self.store: Any = Store()
        self.store.load(self.given.path, by="set", columns=self.columns, progress=False)
        self.session = self.store.open()

    def rows(self) -> None:
        with Store() as store:
            store.load(self.given.rows, by="set", progress=False)

    def degrees(self) -> Any:
        table = self.session.degrees().columns
        return table["out"].values, table["into"].values

    def weights(self) -> Any:
        with self.store.open() as session:
            return session.degrees().columns["weight_out"].values

    def weights_in(self) -> Any:
        return self.session.weights_in().columns["weight_in"].values

    def levels(self) -> Any:
        return self.session.levels(self.given.first)

    def components(self) -> Any:
        return self.session.components()

    def cores(self) -> Any:
        return self.session.cores()

    def out_of(self) -> Any:
        return [self.session.out_edges(it) for it in self.given.asked]

    def into(self) -> Any:
        return [self.session.in_edges(it) for it in self.given.asked]

    into_again = into

    def arrays(self) -> Any:
        with self.store.open() as session:
            return session.edges()

    def frame(self) -> Any:
        with self.store.open() as session:
            return session.edges().to_pandas()

    def gathered(self) -> int:
        for it in range(SINGLE):
            self.store.insert("link", self.given.asked[it % ASKED], self.given.asked[it * 7 % ASKED], it, it)
        self.store.commit()
        return SINGLE

    def single(self) -> int:
        for it in range(SINGLE // 5):
            self.store.insert("link", self.given.asked[it % ASKED], self.given.asked[it * 7 % ASKED], it, it)
            self.store.commit()
        return SINGLE // 5

    def told(self, what: str, found: Any) -> Any:
        """The answer by names, as the others' are told."""
        names = self.session.edges().names
        if what == "degrees":
            return {name: (out, into) for name, out, into in zip(names, *found)}
        if what in ("weights", "weights_in"):
            return dict(zip(names, found))
        if what == "components":
            return parts(found.to_dict())
        if what in ("out_of", "into"):
            return [sorted(it[2 if what == "out_of" else 1] for it in edges) for edges in found]
        if what == "arrays":
            return sorted((source, target, edge.weight) for _, source, target, edge in found)
        return found.to_dict()

    def close(self) -> None:
        self.session.close()
        self.store.close()


def parts(labels: Dict[str, Any]) -> Any:
    """Which vertices are joined, whatever their labels are called."""
    found: Dict[Any, List[str]] = {}
    for name, label in labels.items():
        found.setdefault(label, []).append(name)
    return sorted(sorted(it) for it in found.values())
