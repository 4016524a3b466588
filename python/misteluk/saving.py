"""A version in one file, and a store that is made of it again.

The file is a script that `stinger run` takes: behind its records the graph is the version's. Its head tells what the program
doesn't know: a digest, the units, and the texts of names that go as ids. It does so in insertions before a `rebase` to the empty
store that a run begins with, so nothing of them is in the graph, nor among its names and kinds.
"""
from __future__ import annotations

import contextlib
import hashlib
import os
import re
from dataclasses import dataclass
from typing import TYPE_CHECKING, Any, Callable, Dict, List, NamedTuple, Optional, Tuple
from urllib.parse import unquote

from . import files

from .values import records
from .engine.calling import MOST_AT_ONCE
from .engine.copies import Content, content_of, operations_of
from .engine.openings import as_batches, may_open
from .engine.operations import Numbered, Operations
from .engine.room import Room
from .engine.scripts import Records, operations_in
from .errors import Missing, PoolEmpty, Refused, SaveFault, StoreError
from .feeds.feed import escaped, parts_of
from .values.texts import Path
from .values.names import MARK
from .values.units import NUMBER, Units
from .feeds.progress import Progress

if TYPE_CHECKING:
    from .session import Session
    from .store import Store

# Of a later form this package knows nothing.
FORM = 1
# The kind that the head's insertions are of.
KIND = "misteluk"
_OPENING, _REBASE = "open,0\n", "commit\nrebase,0\n"
_BEGINNING = re.compile(rb"open,0\ni,misteluk,form:(\d{1,9}),([0-9a-f]{64}),0,0\n")
# How many bytes that has at most: the rest of a packed file isn't unpacked before it is seen to be one.
_MOST_BEGINNING = 200
# The head's last insertion, and what comes behind it.
_END = f"i,{KIND},end,of-head,0,0\n{_REBASE}"
_WRITTEN_AT_ONCE = 1 << 20


@dataclass(frozen=True)
class Saved:
    """What a save wrote: the file's path, the version, its vertices and edges, and the records and blocks of a run by this file.

    >>> session.save("roads.csv.gz").vertices
    4
    """

    path: str
    version: int
    vertices: int
    edges: int
    records: int
    blocks: int

    def __str__(self) -> str:
        is_script = self.records <= records.MOST_RECORDS and self.blocks <= records.MOST_BLOCKS
        told = f" for `stinger run --blocks {self.blocks}`" if is_script else ", more than `stinger run` takes"
        return f"{self.path}: version {self.version} with {size_of(self.vertices, self.edges)}, in {self.records} records{told}"


def size_of(names: int, edges: int) -> str:
    """How many names and edges there are, in words."""
    return f"{names} name{'s' * (names != 1)} and {edges} edge{'s' * (edges != 1)}"


class Found(NamedTuple):
    """What a saved file has: what its head tells, the texts of ids, and the operations of the graph."""

    facts: Dict[str, str]
    texts: Dict[str, str]
    operations: Numbered

    def count(self, fact: str) -> int:
        return int(self.facts[fact])


def save(session: Session[Any, Any], path: Path) -> Saved:
    """Writes the version that the session holds as one file. See `Session.save`."""
    ending = files.ending_of(path)
    files.place_of(path)
    content = content_of(session._held)
    operations = operations_of(content)
    room = Room(operations)
    blocks = room.fitting()
    size = room.batch(blocks) or records.MOST_OPERATIONS
    script = _script(_head(session, content, blocks), operations, size)
    with files.whole(path) as file, files.packer(file, ending) as packed:
        for at in range(0, len(script), _WRITTEN_AT_ONCE):
            packed.write(script[at:at + _WRITTEN_AT_ONCE])
    return Saved(os.fspath(path), session.version, len(content.names), content.edges.size, script.count(b"\n"), blocks)


# What is written.

def _script(head: str, operations: Numbered, size: int) -> bytes:
    written = Records(operations)
    batches = (f"{written.text(slice(at, at + size))}commit\ncollect\n" for at in range(0, len(operations.codes), size))
    told = "".join([head, *batches]).encode("ascii")
    return f"{_OPENING}i,{KIND},form:{FORM},{hashlib.sha256(told).hexdigest()},0,0\n".encode("ascii") + told


def _head(session: Session[Any, Any], content: Content, needed: int) -> str:
    """What is told of the file behind its digest. It goes in batches, of which each is let go before the next one, so that few
    names and blocks are enough."""
    store, units = session.store, session.store.units
    facts = {"version": session.version, "names": len(content.names), "edges": content.edges.size, "blocks": store.blocks,
             "needed": needed, **({"grows": 1} if store._engine.grows else {})}
    told = [(it, str(value)) for it, value in facts.items()]
    if store._ledger.units_are_set:
        told += [("weight_scale", str(units.weight_scale)), ("times", units.times or NUMBER)]
    to_user = store._ledger.terms.names.to_user
    texts = ((it, to_user(it)) for it in dict.fromkeys([*content.kinds, *content.names]) if it.startswith(MARK))
    told += [(it, piece) for it, text in texts if text != it for piece in _pieces(escaped(text))]
    lines = (records.record(("i", KIND, it, piece, "0", "0")) for it, piece in told)
    batches = map("".join, parts_of(lines, records.MOST_OPERATIONS - 2))
    return f"{_REBASE}{_OPENING}".join(batches) + _END


def _pieces(text: str) -> List[str]:
    return [text[at:at + records.MOST_NAME] for at in range(0, len(text), records.MOST_NAME)]


# What is read.

def is_saved(path: Path) -> bool:
    """Whether a file begins as those that `save` writes do. Raises `OSError` where there is none."""
    with open(path, "rb") as file:
        data = file.read()
    try:
        return _BEGINNING.match(files.unpacked(data, os.fspath(path), _MOST_BEGINNING)) is not None
    except (SaveFault, Missing):
        return False


def read(path: Path) -> Found:
    with open(path, "rb") as file:
        return found_in(file.read(), os.fspath(path))


def found_in(data: bytes, name: str) -> Found:
    """What a saved file has, whose bytes these are. Raises `SaveFault` where it is none, or isn't as it was written."""
    found = _BEGINNING.match(files.unpacked(data, name, _MOST_BEGINNING))
    if not found:
        raise SaveFault(f"{name} is no saved version: it doesn't begin as those that Session.save writes. Nothing is restored")
    if int(found[1]) != FORM:
        raise SaveFault(f"{name} is of form {int(found[1])}, and this package knows form {FORM}. Nothing is restored")
    told = files.unpacked(data, name)[found.end():]
    if hashlib.sha256(told).hexdigest().encode("ascii") != found[2]:
        raise SaveFault(f"{name} is damaged or cut: its digest is another than that of what it has. Nothing is restored")
    head, _, body = told.decode("ascii").partition(_END)
    facts, texts = _told(head)
    return Found(facts, texts, operations_in(body))


def _told(head: str) -> Tuple[Dict[str, str], Dict[str, str]]:
    """The facts of a head, and the texts of ids."""
    pieces: Dict[str, str] = {}
    for fields in map(records.split_record, head.splitlines()):
        if fields[0] == "i":
            pieces[fields[2]] = pieces.get(fields[2], "") + fields[3]
    facts = {it: value for it, value in pieces.items() if not it.startswith(MARK)}
    return facts, {it: unquote(text) for it, text in pieces.items() if it.startswith(MARK)}


def restore(path: Path, make: Callable[[int, Units[Any, Any]], Store[Any, Any]], blocks: Optional[int],
            progress: Optional[bool]) -> Store[Any, Any]:
    """A store of a saved file. `make` makes it, with so many blocks and in the file's units. See `Store.restore`."""
    found = read(path)
    grows = blocks is None and "grows" in found.facts
    size = records.MOST_OPERATIONS
    if grows:
        blocks = found.count("blocks")
    else:
        room = Room(found.operations)
        if blocks is None:
            most = found.count("blocks")
            blocks = most if room.batch(most) else room.fitting()
        size = _batch(os.fspath(path), found, room, blocks)
    scale = int(found.facts["weight_scale"]) if "weight_scale" in found.facts else None
    times: Any = found.facts.get("times")
    store: Optional[Store[Any, Any]] = None
    try:
        store = make(blocks, Units(scale, times))
        store._engine.grows = grows
        store._engine.fit(found.count("names"), len(found.operations.of_kinds.names), found.count("needed"))
        _fill(store, found, size, Progress(f"restoring {os.fspath(path)}", len(found.operations.codes), progress))
        stat, wanted = store.stat(), (found.count("names"), found.count("edges"))
        if (stat.vertices, stat.edges) != wanted:
            raise StoreError(f"{stat.vertices} names and {stat.edges} edges came of {os.fspath(path)}, and not {wanted}")
        return store
    except BaseException as fault:
        if store is not None:
            store.__exit__(type(fault), fault, None)
        raise


def _fill(store: Store[Any, Any], found: Found, size: int, told: Progress) -> None:
    """Applies a file's operations, in batches of this size, to an empty store, and takes its names and kinds."""
    ledger = store._ledger
    ledger.terms.names.put(found.texts)
    at, count, whole = 0, len(found.operations.codes), Operations(columns=found.operations)
    if size == records.MOST_OPERATIONS and may_open(store._engine):
        whole.opens = as_batches(store._engine, found.operations)
    if whole.opens:
        with contextlib.suppress(Refused):  # (batches say why)
            ledger.apply(whole, True)
            told.step(count)
            at = count
    while at < count:
        most = store.stat().free // records.MOST_OPERATIONS * records.MOST_OPERATIONS
        part = found.operations.some(slice(at, at + max(min(most, MOST_AT_ONCE), size or 1)))
        ledger.apply(Operations(columns=part), True)
        told.step(len(part.codes))
        at += len(part.codes)
    told.end()
    ledger.kinds.update(dict.fromkeys(map(ledger.terms.names.to_user, found.operations.of_kinds.names)))


def _batch(name: str, found: Found, room: Room, blocks: int) -> int:
    """The size of batches for so many blocks. Raises where there is none."""
    size = room.batch(blocks)
    if found.operations.codes and not size:
        raise PoolEmpty(needed=room.needed(1), free=blocks, text=f"{name} needs at least {room.needed(1)} blocks, and {blocks} "
                        "are said. Nothing is restored", advice="")
    return size
