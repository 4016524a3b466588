"""What interrupts calls of a store, and what they are."""
import contextlib
import dis
import gc
import itertools
import os
import random
import signal
import sys
import warnings
from unittest import mock

from support import HERE, kill, row

import misteluk
from misteluk import Degree, Store

PACKAGE = f"{HERE.parent}/misteluk/"
# Its files, and what Python writes for its classes, as a dataclass's `__eq__`.
OF_PACKAGE = (PACKAGE, "<string>")
EDGES = {("l", "a", "b"): (5, 1, 1), ("l", "b", "c"): (7, 1, 1)}
DEGREES = {"a": Degree(1, 0, 5), "b": Degree(1, 1, 7), "c": Degree(0, 1, 0)}
# How many places of a call are tried, how many of those at its end, and how many may go wrong before a test ends.
MOST_PLACES, AT_THE_END, MOST_WRONG = 30, 12, 50
STEPS = {}


def made_at_once(self, what):
    """A fault to plant: calls are made by the caller itself, so that an interrupt comes between any two steps of them."""
    return what()


# The steps of Python's own after which none of its versions looks for a signal. It looks after calls and jumps back, and as a
# function begins; Python 3.9 after most other steps too.
QUIET = frozenset(dis.opmap[it] for it in (
    "CACHE", "CONTAINS_OP", "COPY", "DUP_TOP", "EXTENDED_ARG", "IS_OP", "LOAD_CONST", "LOAD_FAST", "LOAD_FAST_CHECK",
    "LOAD_FAST_LOAD_FAST", "NOP", "POP_JUMP_FORWARD_IF_NONE", "POP_JUMP_IF_NONE", "POP_TOP", "PUSH_NULL", "ROT_TWO", "STORE_FAST",
    "STORE_FAST_LOAD_FAST", "SWAP") if it in dis.opmap)
# And after a jump forwards by what these gave, which is `True` or `False` and nothing else.
BOOLS, JUMPS = (frozenset(dis.opmap[it] for it in some if it in dis.opmap) for some in (
    ("CONTAINS_OP", "IS_OP"), ("POP_JUMP_IF_FALSE", "POP_JUMP_IF_TRUE")))


def at_place(wanted, call, of="opcode"):
    """Makes a call and interrupts it at the so-manieth place of the package where Python may do so: between two steps of its own,
    of which one line has several. Gives how many places there were by then."""
    count = 0

    def begin(frame, event, _):
        code, is_quiet, last = frame.f_code, False, 0
        if not code.co_filename.startswith(OF_PACKAGE):
            return None
        steps = STEPS.setdefault(code, code.co_code)

        def step(frame, event, _):
            nonlocal count, is_quiet, last
            if event == of:
                if not is_quiet:
                    count += 1
                    if count == wanted:
                        raise KeyboardInterrupt
                now = steps[frame.f_lasti]
                is_quiet, last = of == "opcode" and (now in QUIET or now in JUMPS and last in BOOLS), now
            return step
        frame.f_trace = step  # (Python 3.13 looks for this as it is told to trace each step of its own)
        frame.f_trace_opcodes = of == "opcode"
        return step
    before = sys.gettrace()
    sys._getframe().f_trace_opcodes = True  # (Python 3.12 looks for this as it begins to trace)
    sys.settrace(begin)
    try:
        call()
    except KeyboardInterrupt:
        pass
    finally:
        sys.settrace(before)
    return count


def at_line(wanted, call):
    """The same at a line, of which there are few, for long calls that keep nothing; tells whether there are so many."""
    return at_place(wanted, call, "line") == wanted


def places(make, call, is_right, most=MOST_PLACES, at_the_end=AT_THE_END):
    """How many places a call has, and at which of them an interrupt makes it go wrong, which `is_right` tells. So many are tried,
    by chance, and those at its end; all of them where MISTELUK_INTERRUPTS is "all". Another seed is said there too."""
    said = os.environ.get("MISTELUK_INTERRUPTS", "7")
    counts, wrong = [], []
    gc.freeze()  # (what is there by now isn't looked through again and again)
    for _ in range(2):
        scene = make()
        counts.append(at_place(0, lambda: call(scene)))
        scene.end()
    tried = range(1, counts[1] + 1)
    if said != "all" and counts[1] > most + at_the_end:
        tried = [*sorted(random.Random(said).sample(tried[:-at_the_end], most)), *tried[-at_the_end:]]
    for at in itertools.chain(tried, itertools.count(counts[1] + 1)):
        scene = make()
        try:
            is_over = at_place(at, lambda: call(scene)) < at
            is_right(scene)
        except Exception as fault:
            is_over = False
            wrong.append((at, repr(fault)[:100]))
        finally:
            scene.end()
        if is_over and at > counts[1] or len(wrong) == MOST_WRONG:
            return counts[1], wrong
    raise AssertionError


def one_wrong():
    """Entered where a fault is planted: the first place at which it makes a call go wrong is enough."""
    return mock.patch(f"{__name__}.MOST_WRONG", 1)


class Scene:
    """A store with two edges, a session of them, and an amount that is pending three times; or what becomes of these. What was
    told of commits and rebases is kept."""

    def __init__(self, **options):
        self.told, self.lost = [], []
        self.store = Store(**{"blocks": 64, "seats": 3, **options})
        self.store.insert("l", "a", "b", 5, 1)
        self.store.insert("l", "b", "c", 7, 1)
        self.store.commit()
        self.session = self.store.open()
        for _ in range(3):
            self.store.add("l", "a", "b", 1, 2)

    def is_right(self, rebased=False, closed=False):
        """Whether the store goes on as one that wasn't interrupted: every batch once, and told once; every seat free but that of
        the session."""
        store, session = self.store, self.session
        gc.collect()
        if not (rebased or closed):
            assert session.get_edges(list(EDGES)) == list(EDGES.values()) and session.degrees() == DEGREES, "the session"
        taken = 0 if rebased or closed else 1
        self.told.append(store.commit())
        assert (sum(it.updated for it in self.told), store.pending) == (3, 0), self.told
        others = [store.open() for _ in range(3 - taken)]
        try:
            store.open()
        except misteluk.errors.NoSeat:
            pass
        for it in others:
            assert it.edge("l", "a", "b") == (8, 1, 2) and it.edge("l", "b", "c") == (7, 1, 1), "the last version"
            it.close()
        stat, batches = store.stat(), sum(it.batches for it in self.told)
        assert (stat.vertices, stat.edges, stat.version) == (3, 2, batches + (not rebased)), (stat, self.told)
        assert self.told[-1].version == stat.version

    def rebase(self):
        self.told.append(self.store.compact(self.session))

    def was_rebased(self):
        """Whether the store begins with what the session held, which was told once: no second time, and no commit is lost that
        came between."""
        store, told, wanted = self.store, self.told, (0, 3, 2, 2)
        if not told and store.stat().version == 0:
            assert (store.commit().version, row(store.compact(self.session))[:4], store.stat().version) == (1, wanted, 1)
            assert store.open().edge("l", "a", "b") == (8, 1, 2)
            return
        told = told or [store.compact(self.session)]
        self.told = []
        assert [row(it)[:4] for it in told] == [wanted], told
        try:
            store.compact(self.session)
        except misteluk.SessionClosed:
            self.is_right(rebased=True)
            return
        raise AssertionError("it was told twice")

    def nothing_pending(self):
        self.store.discard()
        self.told.append(self.store.commit())

    def close(self):
        try:
            self.store.close()
        except misteluk.errors.Uncommitted as fault:
            self.lost.append(fault.operations)

    def leave(self):
        """The end of a `with` that an error ends."""
        with warnings.catch_warnings():
            warnings.simplefilter("always")
            warnings.showwarning = lambda *told: self.lost.append(LOST if str(told[0]) == WARNED else told)
            self.store.__exit__(KeyError, KeyError(), None)

    def was_closed(self):
        """Whether it is told once what is lost, and all is given back."""
        self.close()
        self.close()
        assert self.lost == [LOST] and self.store.is_closed, self.lost
        desks, mine = self.store._engine.handles.desks, self.session._held.desk.raw
        self.session._held.desk = None
        gc.collect()
        self.store._engine.handles.give_back(self.store._engine.library)
        assert not any(it.raw is mine for it in desks._known), "the desk"

    def end(self):
        kill(self.store)


LOST, WARNED = ["a,l,a,b,1,2\n"] * 3, "3 operations were pending and are not applied"


def in_batches(scene):
    """A commit in small batches."""
    scene.told.append(scene.store.commit(batch=1))


def commit(scene):
    scene.told.append(scene.store.commit())


# Each call.
CALLS = {
    "commit": commit,
    "small batches": in_batches,
    "nothing": Scene.nothing_pending,
    "open": lambda it: it.store.open(),
    "open a slot": lambda it: it.store._open(2),
    "stat": lambda it: it.store.stat(),
    "collect": lambda it: it.store.collect(),
    "renew": lambda it: it.store.compact(),
    "edge": lambda it: it.session.edge("l", "b", "c"),
    "edges": lambda it: it.session.get_edges([("l", "b", "c"), ("l", "a", "b")]),
    "levels": lambda it: it.session.levels("a"),
    "components": lambda it: it.session.components(),
    "cores": lambda it: it.session.cores(),
    "degrees": lambda it: it.session.degrees(),
    "into": lambda it: it.session.predecessors("c"),
    "out_of": lambda it: it.session.successors("a"),
    "rebase": Scene.rebase,
    "close": lambda it: it.session.close(),
    "end": Scene.close,
    "leave": Scene.leave,
}


def after(name, scene):
    """Raises unless that is true of a scene which is so once its call was interrupted, and made again where it is one that is."""
    if name == "rebase":
        scene.was_rebased()
    elif name in ("end", "leave"):
        scene.was_closed()
    elif name == "nothing":
        scene.store.discard()
        scene.told.append(scene.store.commit())
        assert sum(it.batches for it in scene.told) == scene.store.stat().version - 1 <= 2, scene.told
    else:
        if name == "close":
            scene.session.close()
        scene.is_right(closed=name == "close")
    return True


IN_A_CALL = [False]


def interrupt_in_a_call(_, frame):
    """Interrupts a call of the store, and not what the test does around it."""
    while frame is not None and not frame.f_code.co_filename.startswith(PACKAGE):
        frame = frame.f_back
    if IN_A_CALL[0] and frame is not None:
        IN_A_CALL[0] = False
        raise KeyboardInterrupt


@contextlib.contextmanager
def handler(of_alarms):
    before = signal.signal(signal.SIGALRM, of_alarms)
    try:
        yield
    finally:
        signal.setitimer(signal.ITIMER_REAL, 0)
        signal.signal(signal.SIGALRM, before)
