"""Three threads ask clones of held versions while one feeds: each table is the one that the version gives alone. A call of ctypes
lets the interpreter's lock go, so that the calls themselves run at once."""
import random
import threading
import unittest
from typing import List, Tuple

from calls import Code, Desk, Refused, Version, view
from places import library

VERTICES, EDGES = 3_000, 20_000
NAMES = [f"v{it}".encode() for it in range(VERTICES)]


def edges(seed: int, count: int) -> List[Tuple[int, int, int, int]]:
    pick = random.Random(seed)
    return [(pick.randrange(VERTICES), pick.randrange(VERTICES), pick.randrange(99), it) for it in range(count)]


def tables(version: Version) -> Tuple[object, ...]:
    every = view()
    told = version.cores(every), version.labels(every), version.degrees(every), version.levels(every, 0)
    return (*told, version.edges(every, 8192))


class Threads(unittest.TestCase):
    def test_each_table_is_the_one_of_its_version_alone(self) -> None:
        desk = Desk(library(), 65_536)
        held: List[Version] = []
        for seed in range(3):
            self.assertEqual(desk.insert_columns(b"k", NAMES, edges(seed, EDGES))[0], Code.OK)
            held.append(desk.hold())
        wanted, is_over = [tables(it) for it in held], threading.Event()
        faults: List[int] = []
        rounds = [0] * len(held)

        def ask(place: int, mine: Version) -> None:
            try:
                while not is_over.is_set():
                    if tables(mine) != wanted[place]:
                        faults.append(place)
                    rounds[place] += 1
            except Refused:
                faults.append(place)
            mine.free()

        askers = [threading.Thread(target=ask, args=(place, it.clone())) for place, it in enumerate(held)]
        for asker in askers:
            asker.start()
        seed = 3
        try:
            while min(rounds) < 3 and not faults:
                self.assertEqual(desk.insert_columns(b"k", NAMES, edges(seed, EDGES))[0], Code.OK)
                seed += 1
        finally:
            is_over.set()
            for asker in askers:
                asker.join()
        self.assertEqual(faults, [])
        self.assertEqual([tables(it) for it in held], wanted)
        self.assertGreater(desk.stat().version, held[-1].size.version)
        for it in held:
            desk.release(it)
        desk.free()

    def test_a_version_answers_when_its_desk_is_ended_by_another_thread(self) -> None:
        desk = Desk(library(), 4_096)
        desk.insert_columns(b"k", NAMES, edges(1, 4_000))
        held = desk.hold()
        wanted = tables(held)
        ender = threading.Thread(target=desk.free)
        ender.start()
        self.assertEqual(tables(held), wanted)
        ender.join()
        self.assertEqual(tables(held), wanted)
        held.free()


if __name__ == "__main__":
    unittest.main()
