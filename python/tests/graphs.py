"""A store beside a model of it: random operations, loads, expiries, held sessions and rebases."""
import random

from support import IS_SERVED

from misteluk import Edge, Store
from misteluk.values import records

# Names that go as they are, that need quotes in a record, and that go as ids.
NAMES = [f"v{it}" for it in range(7)] + ["a,b", 'say "x"', "Иванов Пётр", "two words", "z" * 80]
KINDS = ["k", "l,m", "шлёт"]


class Graph(dict):
    """The edges of a version by kind, source and target, and its names and kinds, each in order."""

    def __init__(self, edges=(), names=(), kinds=()):
        super().__init__(edges)
        self.names, self.kinds = dict(names), dict(kinds)

    def copy(self):
        return Graph(self, self.names, self.kinds)

    def put(self, kind, source, target, weight, time, adds):
        before = self.get((kind, source, target))
        if before is None:
            self.names.update({source: None, target: None})
            self.kinds[kind] = None
            self[kind, source, target] = Edge(weight, time, time)
        elif not adds or abs(before.weight + weight) <= records.MOST_WEIGHT:
            self[kind, source, target] = Edge(weight + before.weight * adds, before.first, time)

    def expire(self, time):
        for it in [it for it, edge in self.items() if edge.recent < time]:
            del self[it]

    def view(self, kind, since, until):
        """The edges of a kind, or of any, and of a window, each as (kind, source, target) and its `Edge`."""
        return [(it, edge) for it, edge in self.items() if kind in (None, it[0]) and since <= edge.recent <= until]


class Play:
    """A store, its last version, and sessions with what they hold. In an `orderly` one times go up, no weight is too great, and
    the store isn't begun anew."""

    def __init__(self, seed, orderly=False):
        self.random, self.orderly = random.Random(seed), orderly
        self.weights = [1, 7, -5, 0 if orderly else records.MOST_WEIGHT]
        self.store = Store(blocks=4096, seats=4)
        self.now, self.time, self.held = Graph(), 0, []
        self.kinds = KINDS[:self.random.randrange(1, 4)]

    def ends(self):
        """A kind, a source and a target; some sources have many."""
        pick = self.random.random
        return self.random.choice(self.kinds), NAMES[int(len(NAMES) * pick() ** 2)], NAMES[int(len(NAMES) * pick())]

    def some_time(self):
        """Mostly later than all before, and at times long ago."""
        self.time += 1
        return self.time if self.orderly or self.random.random() < 0.8 else self.random.randrange(self.time + 1)

    def operation(self):
        chance = self.random.random()
        if chance < 0.6:
            adds, time, weight = chance < 0.3, self.some_time(), self.random.choice(self.weights)
            ends = self.ends()
            (self.store.add if adds else self.store.insert)(*ends, weight, time)
            self.now.put(*ends, weight, time, adds)
        elif chance < 0.95:
            ends = self.random.choice(list(self.now) or [self.ends()]) if chance < 0.8 else self.ends()
            self.store.remove(*ends)
            self.now.pop(ends, None)
        else:
            time = self.random.randrange(max(0, self.time - 40), self.time + 1)
            self.store.expire(time)
            self.now.expire(time)

    def load(self):
        rows = [(*self.ends(), self.some_time()) for _ in range(self.random.randrange(1, 30))]
        self.store.load([(source, target, 2, time, kind) for kind, source, target, time in rows], by="add", batch=9)
        for kind, source, target, time in rows:
            self.now.put(kind, source, target, 2, time, True)

    def step(self):
        """One commit or load; then a session is opened, closed, or what the store is begun anew from."""
        if self.random.random() < 0.3:
            self.load()
        else:
            for _ in range(self.random.randrange(12)):
                self.operation()
            self.store.commit(batch=self.random.choice([5, 4096]), collect=True)
        chance = self.random.random()
        if chance < 0.4 and len(self.held) < 3:
            self.held.append((self.store.open(), self.now.copy()))
        elif chance < 0.7 and self.held:
            self.held.pop(self.random.randrange(len(self.held)))[0].close()
        elif chance < 0.75 and self.held and not self.orderly and not IS_SERVED:  # (a server alone does so)
            session, graph = self.random.choice(self.held)
            self.store.compact(session)
            self.now, self.held = graph.copy(), []
            if self.random.random() < 0.5:  # (a session of version 0, which has edges now)
                self.held.append((self.store.open(), self.now.copy()))

    def end(self):
        self.store.discard()
        self.store.close()
