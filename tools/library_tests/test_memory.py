"""Each request for memory of each call refused in turn. A call either does what it does otherwise, or its code is MEMORY and all
that can be read is as it was before."""
import ctypes
import itertools
import pathlib
import subprocess
import tempfile
import unittest
from typing import Any, Callable, List, Optional, Tuple

from calls import Batch, Code, Desk, Library, Operation, Owner, Refused, Version, fields, interface, must, view, whole
from differing import differences
from places import compiler, linker, static_library

INSERT, ADD, REMOVE, EXPIRE = interface.INSERT, interface.ADD, interface.REMOVE, interface.EXPIRE
FIRST = [(b"k", b"a", b"b", 1, 5), (b"k", b"b", b"c", 2, 6), (b"m", b"a", b"c", 3, 7), (b"k", b"c", b"a", 4, 8)]


class Failing:
    """The library, linked anew over memory that refuses."""

    def __init__(self, room: pathlib.Path) -> None:
        made, code = room / "failing.so", room / "failing.o"
        exports = room / "exports.map"
        exports.write_text("{ global: misteluk_*; refuse_calls; calls_asked; local: *; };\n")
        source = pathlib.Path(__file__).with_name("failing.c")
        subprocess.run([*compiler(), "-O1", "-fPIC", "-Wall", "-Wextra", "-Werror", "-c", "-o", code, source], check=True)
        wrapped = ["--wrap=malloc", "--wrap=realloc", f"--version-script={exports}"]
        subprocess.run([*linker(), "-shared", *wrapped, "-o", made, code, "--whole-archive", static_library()], check=True)
        self.library, opened = Library(str(made)), ctypes.CDLL(str(made))
        self.refuse_calls, self.calls_asked = opened.refuse_calls, opened.calls_asked
        self.refuse_calls.argtypes, self.refuse_calls.restype = [ctypes.c_ulong] * 2, None
        self.calls_asked.argtypes, self.calls_asked.restype = [], ctypes.c_ulong


class State:
    """A desk that has applied three batches, a batch with operations, a version that is held, and what a call makes."""

    def __init__(self, library: Library) -> None:
        self.library, self.desk, self.batch = library, Desk(library, 32), Batch(library)
        for it in FIRST:
            self.batch.insert(*it)
        self.desk.apply(self.batch)
        self.held = self.desk.hold()
        self.batch.add(b"k", b"a", b"b", 1, 9)
        self.batch.remove(b"k", b"b", b"c")
        self.desk.apply(self.batch)
        self.batch.insert(b"n", b"d", b"a", 9, 9)
        self.batch.expire(8)
        self.made: List[Owner] = []

    def read(self) -> Tuple[object, ...]:
        """All that can be read of it: of the desk also by what it holds next, which is given back."""
        last = self.desk.hold()
        told = (fields(self.desk.stat()), whole(last), whole(self.held), len(self.batch), [whole(it) for it in self.versions()])
        self.desk.release(last)
        return told

    def versions(self) -> List[Version]:
        return [it for it in self.made if isinstance(it, Version)]

    def apply_then(self) -> Tuple[object, ...]:
        """What the batch does now, and a collection, and what is there then."""
        told = fields(self.desk.apply(self.batch))
        return told, self.desk.collect(), self.read()

    def free(self) -> None:
        for it in [*self.made, self.held, self.batch, self.desk]:
            it.free()


def indexed(state: State, call: Callable[[], object]) -> object:
    """What a call gives once the edges are indexed by their targets."""
    state.held.index()
    return call()


# Each call, and what it hands back: those that ask for no memory too, so that one which comes to ask is refused here.
CALLS: "dict[str, Callable[[State], object]]" = {
    "batch_new": lambda it: it.made.append(Batch(it.library)),
    "batch_insert": lambda it: it.batch.insert(b"k", b"x", b"y", 1, 1),
    "batch_add": lambda it: it.batch.add(b"k", b"x", b"y", 1, 1),
    "batch_remove": lambda it: it.batch.remove(b"k", b"a", b"b"),
    "batch_expire": lambda it: it.batch.expire(3),
    "batch_columns": lambda it: append(it.batch),
    "batch_columns of an empty one": lambda it: append_alone(it),
    "desk_new": lambda it: it.made.append(Desk(it.library, 16)),
    "desk_new_within": lambda it: it.made.append(Desk(it.library, 65_537, (3, 2, 2))),
    "desk_limits": lambda it: it.desk.limits(),
    "desk_apply": lambda it: fields(it.desk.apply(it.batch)),
    "desk_begin": lambda it: in_two_steps(it, it.desk.cancel),
    "desk_finish": lambda it: fields(in_two_steps(it, it.desk.finish)),
    "desk_cancel": lambda it: in_two_steps(it, it.desk.cancel),
    "desk_insert_columns": lambda it: insert_columns(it),
    "desk_open_columns": lambda it: open_columns(it),
    "desk_hold": lambda it: it.made.append(it.desk.hold()),
    "desk_rebase": lambda it: it.desk.rebase(),
    "version_clone": lambda it: it.made.append(it.held.clone()),
    "version_levels": lambda it: it.held.levels(view(), 0),
    "version_labels": lambda it: it.held.labels(view()),
    "version_cores": lambda it: it.held.cores(view()),
    "version_index": lambda it: indexed(it, lambda: it.held.within(view(), interface.AGAINST, [2], 2)),
    "version_within along": lambda it: it.held.within(view(), interface.ALONG, [0], 2),
    "version_within against": lambda it: it.held.within(view(), interface.AGAINST, [2], 2),
    "version_within either way": lambda it: it.held.within(view(), interface.EITHER, [1, 1], interface.ANY_STEPS),
    "version_path": lambda it: (it.held.path(view(), 0, 2), it.held.path(view(), 2, 1)),
    "version_clone of an indexed one": lambda it: indexed(it, lambda: it.made.append(it.held.clone())),
    "version_in_edges": lambda it: it.held.in_edges(view(), 2),
    "version_in_edges of an indexed one": lambda it: indexed(it, lambda: it.held.in_edges(view(0), 0)),
    "version_degrees": lambda it: it.held.degrees(view()),
    "version_weights_in": lambda it: it.held.weights_in(view()),
    "version_row": lambda it: it.held.row(view(), 0),
    "version_edges": lambda it: it.held.edges(view(), 3),
    "desk_diff": lambda it: differences_to(it, 1),
    "diff_edges": lambda it: differences_to(it, 9),
    "version_names": lambda it: it.held.names(),
    "version_names_like": lambda it: it.held.names_like(b"b", 1),
    "version_vertex": lambda it: it.held.vertex(b"b"),
    "desk_collect": lambda it: it.desk.collect(),
    "desk_stat": lambda it: fields(it.desk.stat()),
    "desk_release": lambda it: release_one_of_two(it),
    "batch_length": lambda it: len(it.batch),
    "batch_records": lambda it: it.batch.records(),
    "version_size": lambda it: fields(Version(it.library, it.held.handle).size),
    "version_kind": lambda it: it.held.kind(b"m"),
    "version_kind_names": lambda it: it.held.kind_names(),
    "version_edge": lambda it: it.held.edge(0, 0, 1),
    "code_text": lambda it: in_words(it),
}


def in_words(state: State) -> object:
    text = ctypes.create_string_buffer(interface.TEXT_BYTES)
    must(state.library.code_text(Code.MEMORY, text, interface.TEXT_BYTES))
    return text.value


def append(batch: Batch) -> object:
    rows: List[Operation] = [(INSERT, 0, 0, 1, 5, 5), (ADD, 1, 1, 2, 6, 6), (REMOVE, 0, 0, 1, 0, 0), (EXPIRE, 0, 0, 0, 0, 7)]
    code, done = batch.append([b"q", b"k"], [b"a", b"new", b"names"], rows)
    assert done == (4 if code == Code.OK else 0)
    must(code)
    return len(batch)


def in_two_steps(state: State, end: "Callable[[], Any]") -> "Any":
    """Makes the batch ready, and ends that."""
    state.desk.begin(state.batch)
    return end()


def release_one_of_two(state: State) -> object:
    """Takes one of two holds on a version back: the other one stays."""
    second = state.desk.hold()
    state.desk.release(second)
    return fields(state.desk.stat())


def differences_to(state: State, room: int) -> object:
    """What became of edges from the version that is held to the last one, in columns of so many places."""
    last = state.desk.hold()
    try:
        return differences(state.desk, state.held, last, view(), room)
    finally:
        state.desk.release(last)


def append_alone(state: State) -> object:
    """Operations in an empty batch, which asks for the room of all of them at once."""
    batch = Batch(state.library)
    try:
        return append(batch)
    finally:
        batch.free()


def insert_columns(state: State) -> object:
    code, done, counts = state.desk.insert_columns(b"q", [b"a", b"new", b"names"], [(0, 1, 5, 5), (1, 2, 6, 6), (2, 0, 7, 7)])
    assert done == (3 if code == Code.OK else 0)
    must(code)
    return fields(counts)


def open_columns(state: State) -> object:
    """An opening of a desk of its own: where it is refused, that desk is empty still."""
    desk = Desk(state.library, 16)
    try:
        rows: List[Operation] = [(INSERT, 0, 0, 1, 5, 5), (ADD, 1, 1, 2, 6, 6), (ADD, 0, 0, 1, 7, 7)]
        code, _ = desk.open_columns([b"q", b"k"], [b"a", b"new", b"names"], rows)
        version = desk.hold() if code == Code.OK else None
        told = version and whole(version)
        if version:
            desk.release(version)
        assert told or fields(desk.stat())[:4] == (0, 0, 0, 0)
        must(code)
        return told
    finally:
        desk.free()


class Memory(unittest.TestCase):
    failing: Failing

    @classmethod
    def setUpClass(cls) -> None:
        room = tempfile.TemporaryDirectory()
        cls.addClassCleanup(room.cleanup)
        cls.failing = Failing(pathlib.Path(room.name))

    def play(self, call: Callable[[State], object], first: int, last: int) -> "tuple[Optional[Code], int, object]":
        """The code that a call was refused with, how often it asked for memory, and what was read behind it."""
        state, code = State(self.failing.library), None
        before, told = state.read(), None
        self.failing.refuse_calls(first, last)
        try:
            told = call(state)
        except Refused as refused:
            code = refused.code
        asked = self.failing.calls_asked()
        self.failing.refuse_calls(0, 0)
        behind = state.read()
        if code is not None:
            self.assertEqual((code, behind, state.made), (Code.MEMORY, before, []))
        found = (told, behind, state.apply_then())
        state.free()
        return code, asked, found

    def test_each_refusal_leaves_all_as_it_was(self) -> None:
        refused = 0
        for name, call in CALLS.items():
            with self.subTest(call=name):
                _, asked, wanted = self.play(call, 0, 0)
                _, _, without = self.play(lambda it: None, 0, 0)
                for place, last in ((it, last) for it in range(1, asked + 1) for last in (it, 1 << 60)):
                    code, _, found = self.play(call, place, last)
                    if code is None:
                        self.assertEqual(found, wanted)
                    else:
                        assert isinstance(found, tuple) and isinstance(without, tuple)
                        self.assertEqual(found[1:], without[1:])
                        refused += 1
        self.assertGreater(refused, 100)

    def test_no_call_is_forgotten(self) -> None:
        called = {name.partition(" ")[0] for name in CALLS}
        ends = {name for name in interface.FUNCTIONS if name.endswith("_free")}
        self.assertEqual(set(interface.FUNCTIONS) - called - ends, {"interface", "library_version"})

    def test_columns_that_were_refused_go_in_by_the_same_call(self) -> None:
        """Operations in columns from the third place on, in a batch with operations or none: where a request is refused the place
        stays, and the call made again leaves what it leaves where none is."""
        rows: List[Operation] = [(ADD, 0, it % 3, (it + 1) % 3, 1 << it, it) for it in range(40)]
        refused, found = 0, set()
        for begun, limit, place in itertools.product((0, 2), (interface.OPERATIONS, 65_536), range(1, 90)):
            with self.subTest(begun=begun, limit=limit, place=place):
                desk, batch = Desk(self.failing.library, 64), Batch(self.failing.library)
                for edge in FIRST[:begun]:
                    batch.insert(*edge)
                self.failing.refuse_calls(place, place)
                code, done = batch.append([b"k"], [b"a", b"b", b"c"], rows, 2, limit)
                self.failing.refuse_calls(0, 0)
                if code != Code.OK:
                    self.assertEqual((code, done, len(batch)), (Code.MEMORY, 2, begun))
                    code, done = batch.append([b"k"], [b"a", b"b", b"c"], rows, done, limit)
                    refused += 1
                self.assertEqual((code, done, len(batch)), (Code.OK, 40, begun + 38))
                desk.apply(batch)
                version = desk.hold()
                found.add((begun, tuple(version.edges(view(), 8))))
                for owner in (version, batch, desk):
                    owner.free()
        sums = [sum(1 << it for it in range(2, 40) if it % 3 == source) for source in range(3)]
        self.assertEqual(found, {
            (0, ((0, 0, 1, sums[2], 2, 38), (0, 1, 2, sums[0], 3, 39), (0, 2, 0, sums[1], 4, 37))),
            (2, ((0, 0, 1, sums[0] + 1, 5, 39), (0, 1, 2, sums[1] + 2, 6, 37), (0, 2, 0, sums[2], 2, 38)))})
        self.assertGreater(refused, 100)

    def test_a_load_of_several_batches_keeps_those_that_are_in(self) -> None:
        edges = [(it % 3, (it + 1) % 3, it, it) for it in range(9_000)]
        names, most = [b"a", b"b", b"c"], 0
        for place in range(1, 60_000, 977):
            desk = Desk(self.failing.library, 9_000)
            self.failing.refuse_calls(place, 1 << 60)
            code, done, counts = desk.insert_columns(b"k", names, edges)
            self.failing.refuse_calls(0, 0)
            self.assertEqual((code, done % 4096), (Code.MEMORY, 0) if done < 9_000 else (Code.OK, 9_000 % 4096))
            beside = Desk(self.failing.library, 9_000)
            if done:
                self.assertEqual(beside.insert_columns(b"k", names, edges[:done])[0], Code.OK)
            versions = desk.hold(), beside.hold()
            self.assertEqual(*map(whole, versions))
            self.assertEqual((counts.inserted + counts.updated, fields(desk.stat())), (done, fields(beside.stat())))
            most = max(most, done)
            for it in (*versions, desk, beside):
                it.free()
        self.assertGreaterEqual(most, 4096)

    def test_out_of_memory_makes_no_batch_smaller(self) -> None:
        """Of 9,000 edges a desk of 9,000 blocks takes 8,192 at once. Where one request is refused, that batch is in as it is, or
        the call ends without it."""
        edges, ends = [(it % 3, (it + 1) % 3, it, it) for it in range(9_000)], set()
        for place in [*range(1, 40), *range(40, 60_000, 1_499)]:
            desk = Desk(self.failing.library, 9_000)
            self.failing.refuse_calls(place, place)
            code, done, counts = desk.insert_columns(b"k", [b"a", b"b", b"c"], edges)
            self.failing.refuse_calls(0, 0)
            ends.add((code, done, counts.version))
            desk.free()
        self.assertEqual(ends, {(Code.MEMORY, 0, 0), (Code.MEMORY, 8_192, 1), (Code.OK, 9_000, 2)})


if __name__ == "__main__":
    unittest.main()
