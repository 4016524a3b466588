"""A feed is read whole, counted and checked before its first row is applied."""
from __future__ import annotations

import time
from array import array
from dataclasses import dataclass
from functools import cached_property, partial
from itertools import compress
from typing import TYPE_CHECKING, Any, Dict, Iterable, List, Optional, Sequence, Tuple

from .advice import advise, as_written
from .feed import ROWS_AT_ONCE, Block, Path, came_of, part_of, rows_of, turned
from .opening import ReadAs, reads
from .parts import Counted, Part, Parts, counted
from .progress import Progress
from .rejects import Bin, Rejected, Rejects, rejected
from .spans import shown_length
from .terms import Terms
from ..engine.operations import COMMANDS as OF_COMMANDS, Dictionary, Numbered
from ..errors import BadTime, Place, Refused
from ..values import records
from ..values.collector import no_collection
from ..values.columns import FieldColumn
from ..values.fields import numpy_for

if TYPE_CHECKING:
    from typing_extensions import Unpack

    from ..options import By, ReadOptions

COMMANDS = {"set": "i", "add": "a"}
# How many faults are told of, beside the first of each rule.
MOST_FAULTS = 10


def _now() -> int:
    """The clock's time, in microseconds since 1970."""
    return time.time_ns() // 1_000


@dataclass(frozen=True, repr=False)
class Survey:
    """What a feed has, read whole, checked and counted; `Store.load` loads it. Edges and blocks are counted when somebody asks.

    >>> found = survey(roads, by="set")
    >>> found.rows, found.vertices, found.kinds, found.bad
    (4, 4, ['road', 'rail'], 0)

    `bad` is how many rows are bad, `faults` has the first ten faults and the first of each rule, `fault_counts` how many rows
    break each rule, and `last_bad` the last such row. `seconds` is how long the reading took."""

    feed: str
    by: str
    parts: Parts
    rows: int
    vertices: int
    kinds: List[str]
    bad: int
    fault_counts: Dict[str, int]
    faults: List[Refused]
    seconds: float
    terms: Terms
    joins: bool = False
    last_bad: Optional[Rejected] = None

    @cached_property
    def _counted(self) -> Counted:
        return counted(self.parts)

    @property
    def edges(self) -> int:
        """The number of edges, each counted once.

        >>> found.edges
        4
        """
        return self._counted.edges

    @property
    def blocks(self) -> int:
        """The number of blocks that these edges take in an empty store.

        >>> found.blocks
        4
        """
        return self._counted.blocks

    def _records(self, collect: bool = True, batches: Optional[int] = None) -> int:
        """How many records a load sends: the rows, a commit for each batch, and a collection."""
        return self.rows - self.bad + (2 if collect else 1) * (len(self.parts) if batches is None else batches)

    @property
    def needed(self) -> int:
        """The number of blocks that an empty store without sessions needs to load it: a batch asks for as many as it has
        operations.

        >>> found.needed
        4
        """
        return self._needed_beside(0)

    def _needed_beside(self, used: int) -> int:
        """How many blocks a store needs of which so many are used."""
        return max((it.beside(used) for it in self._counted.needs), default=0)

    @property
    def _room(self) -> int:
        """How many blocks are enough, as is seen before edges are counted."""
        count = self.rows - self.bad
        return min(count, self.vertices * len(self.kinds)) + count // records.BLOCK_EDGES + self._largest

    @property
    def _largest(self) -> int:
        """How many operations the largest batch has."""
        return max((end - self.parts.before(at) for at, end in enumerate(self.parts.ends)), default=0)

    def _surely_fits(self, blocks: int, used: int = 0) -> bool:
        """Whether so many blocks, of which so many are used, are surely enough."""
        return used + self._room <= blocks

    @property
    def times(self) -> Tuple[Any, Any]:
        """The first and the last time, in the units of the feed.

        >>> found.times
        (1, 4)
        """
        times = self.parts.whole.columns.times or [0]
        return self.terms.units._time_to_user(min(times)), self.terms.units._time_to_user(max(times))

    def _fitting(self) -> int:
        """The number of blocks to make a store with: the usual one, or what is needed."""
        return min(max(records.USUAL_BLOCKS, self.needed), records.MOST_BLOCKS)

    def counts(self) -> Dict[str, int]:
        """Returns everything that was counted, by name.

        >>> found.counts()["edges"]
        4
        """
        return {"rows": self.rows, "vertices": self.vertices, "kinds": len(self.kinds), "edges": self.edges,
                "blocks": self.blocks, "needed": self.needed, "records": self._records(), "bad": self.bad}

    def __str__(self) -> str:
        counts = ((self.rows, "row"), (self.vertices, "name"), (len(self.kinds), "kind"), (self.edges, "edge"),
                  (self.blocks, "block"))
        *told, blocks = (f"{count} {word}{'s' * (count != 1)}" for count, word in counts)
        # (of several batches it isn't known yet how many are made: a load in this process may make larger ones)
        batches = {0: "0 batches need", 1: "1 batch needs"}.get(len(self.parts), f"batches of {self._largest} need")
        return f"{self.feed}: {', '.join(told)} in {blocks}; {batches} {self.needed} blocks"

    def __repr__(self) -> str:
        bad = f"; {self.bad} bad row{'s' * (self.bad != 1)}" * bool(self.bad)
        return f"<Survey of {self}{bad}>"


class Count:
    """Checks rows, and makes batches of them. A loop over rows is one in C where it can be: there are many rows."""

    def __init__(self, feed: str, by: str, batch: int, terms: Terms, decimal: str = ".") -> None:
        self.begun = time.monotonic()
        self.terms, self.decimal = terms, decimal
        self.feed, self.by, self.command, self.batch = feed, by, COMMANDS[by], batch
        self.code = OF_COMMANDS.index(self.command)
        self.of_kinds, self.of_names = Dictionary(), Dictionary()
        columns: Any = map(array, "BIIIqQ")
        self.taken = Part(Numbered._make([*columns, self.of_kinds, self.of_names]), array("q"))
        self.bad = self.rows = 0
        self.faults: List[Refused] = []
        # How many rows break a rule, by its word and field.
        self.fault_counts: Dict[str, int] = {}
        self.last_bad: Optional[Rejected] = None
        # Where rows are kept that can't be taken, and how far ahead of the clock a row may be, in microseconds.
        self.bin: Optional[Bin] = None
        self.ahead: Optional[int] = None
        # Another one whenever numbers of names aren't the same any more.
        self._whose = object()

    def take(self, block: Block) -> None:
        """Counts rows, and puts those that can be taken into batches of `batch`: all at once, or a few at a time where some are
        seen to be wrong."""
        if self._take_at_once(block):
            return
        if len(block.lines) > ROWS_AT_ONCE:
            for at in range(0, len(block.lines), ROWS_AT_ONCE):
                self.take(part_of(block, slice(at, at + ROWS_AT_ONCE)))
            return
        block = self.written(block.plain())
        names = map(self.of_names.column, (block.sources, block.targets))
        self._fill(block.lines, (self.of_kinds.column(block.kinds), *names, block.weights, block.times))

    def _take_at_once(self, block: Block) -> bool:
        """Whether rows were taken, of which each is seen to be right as it stands."""
        units = self.terms.units
        weights = block.weights.weights(units) if isinstance(block.weights, FieldColumn) else units._weights_of(block.weights)
        times = block.times.times(units) if isinstance(block.times, FieldColumn) else units._times_of(block.times)
        is_right = not any(it is None or not isinstance(it, array) and None in it for it in (weights, times))
        columns = self._numbered(block) if is_right else None
        if columns is not None:
            self.rows += len(block.lines)
            self._fill(block.lines, (*columns, weights, times))
        return columns is not None

    def _numbered(self, block: Block) -> Optional[List[array[int]]]:
        """The numbers of rows' kinds, sources and targets, where each is a name."""
        kinds, names = len(self.of_kinds.numbers), len(self.of_names.numbers)
        found: List[array[int]] = []
        for dictionary, column, is_kind in ((self.of_kinds, block.kinds, True), (self.of_names, block.sources, False),
                                            (self.of_names, block.targets, False)):
            numbers_of = partial(self._numbers_of, dictionary, is_kind)
            numbers = column.numbered(numbers_of, self._whose) if isinstance(column, FieldColumn) else numbers_of(column)
            if numbers is None:
                self.of_kinds.forget_since(kinds)
                self.of_names.forget_since(names)
                self._whose = object()  # (numbers that were given since are those of other names from now on)
                return None
            found.append(numbers)
        return found

    def _numbers_of(self, dictionary: Dictionary, is_kind: bool, texts: Sequence[str]) -> Optional[array[int]]:
        """The numbers of names, or kinds, where each is one."""
        before = len(dictionary.numbers)
        found = dictionary.column(texts)
        new = dictionary.since(before)
        if not new or self.terms.are_as_they_are(new):
            return found
        dictionary.forget_since(before)
        names = self.terms.names_of(texts, is_kind)
        return None if "" in names else dictionary.column(names)

    def _fill(self, lines: Sequence[int], columns: Sequence[Any]) -> None:
        """Puts rows to those that were taken."""
        self.taken.columns.codes.frombytes(bytes((self.code,)) * len(lines))
        for column, values in zip(self.taken.columns[1:6], columns):
            column.extend(values)
        self.taken.lines.extend(_at_once(lines))

    def written(self, block: Block) -> Block:
        """The rows that can be taken, in the engine's terms; what is wrong with others is counted and told."""
        self.rows += len(block.lines)
        found = self.terms.written(block)
        found = found._replace(times=self._not_too_far(found.times))
        if not any("" in it for it in found[1:4]) and None not in found.weights and None not in found.times:
            return found
        is_right = [bool(kind and source and target) and weight is not None and time is not None
                    for _, kind, source, target, weight, time in rows_of(found)]
        wrong = [at for at, right in enumerate(is_right) if not right]
        rows = list(rows_of(block))
        reasons = [self._tell((self.command, *rows[at][1:]), rows[at][0]) for at in wrong]
        self._keep_wrong(block, wrong, reasons)
        return Block(*(list(compress(it, is_right)) for it in found[:6]))

    def _not_too_far(self, times: Sequence[Optional[int]]) -> Sequence[Optional[int]]:
        """The times, with none for those that are too far ahead of the clock."""
        latest = None if self.ahead is None else _now() + self.ahead
        if latest is None or max((it for it in times if it is not None), default=0) <= latest:
            return times
        return [None if it is None or it > latest else it for it in times]

    def _faults_of(self, fields: Sequence[str]) -> List[records.Fault]:
        """The rules that a row breaks; where it breaks none its time is too far ahead."""
        found = self.terms.faults_of(fields)
        if found or self.ahead is None:
            return found
        far = shown_length(int(self.terms.units._time_to_program(fields[-1])) - _now())
        reason = f"a time is at most {shown_length(self.ahead)} ahead of the clock here, and this is {far} ahead (ahead, --ahead)"
        return [records.Fault(BadTime.word, "time", fields[-1], reason)]

    def _keep_wrong(self, block: Block, wrong: Sequence[int], reasons: Sequence[str]) -> None:
        """Keeps rows of a block that can't be taken, with their reasons: the last one, and all where they are written."""
        came = came_of(block)
        for at, reason in zip(wrong, reasons) if self.bin is not None else ():
            self.bin.put(block.lines[at], reason, came[at], came.form)  # type: ignore[union-attr]
        self.last_bad = rejected(block.lines[wrong[-1]], reasons[-1], came[wrong[-1]], came.form.sign)

    def write_wrong(self, rejects: Optional[Rejects]) -> None:
        """Writes the rows that were kept since the last time."""
        lines = None if self.bin is None else self.bin.emptied()
        if lines is not None and rejects is not None:
            rejects.append(lines)

    def _tell(self, fields: Sequence[str], line: int) -> str:
        """Counts a row that breaks a rule, and tells of it; gives the reason."""
        self.bad += 1
        faults = [as_written(it, self.decimal) for it in self._faults_of(fields)]
        for it in faults:
            rule = f"{it.word} {it.field}"
            self.fault_counts[rule] = self.fault_counts.get(rule, 0) + 1
            if len(self.faults) < MOST_FAULTS or self.fault_counts[rule] == 1:
                self.faults.append(self.terms.refusal(it, place=Place(self.feed, line)))
        return "; ".join(map(str, faults))

    def survey(self, joins: bool = False) -> Survey:
        kinds = list(map(self.terms.names.to_user, self.of_kinds.names))
        parts = Parts.of(self.taken, self.batch)
        return Survey(self.feed, self.by, parts, self.rows, len(self.of_names.numbers), kinds, self.bad, self.fault_counts,
                      self.faults, time.monotonic() - self.begun, self.terms, joins, self.last_bad)


def _at_once(lines: Sequence[int]) -> Iterable[int]:
    """Lines that follow one another as an array, which an array takes at once, where numpy is worth it."""
    numpy = numpy_for(len(lines)) if isinstance(lines, range) else None
    return lines if numpy is None else array("q", numpy.arange(lines[0], lines[-1] + 1, dtype="int64").tobytes())


def must_be_way(by: str, batch: int) -> None:
    """Raises `ValueError` where rows can't be taken so, or batches not be so large."""
    if by not in COMMANDS:
        raise ValueError(f"by is 'set' (a later weight replaces an earlier one) or 'add' (amounts are summed), and not {by!r}")
    if not 1 <= batch <= records.MOST_OPERATIONS:
        raise ValueError(f"batch is from 1 to {records.MOST_OPERATIONS}, and not {batch}")


@reads
def survey(data: Any, *, by: By, batch: Optional[int] = None, progress: Optional[bool] = None, rejects: Optional[Path] = None,
           **read_as: Unpack[ReadOptions]) -> Survey:
    """Reads a feed whole, checks and counts it, and applies nothing: returns a `Survey`.

    `data`, `by`, `batch`, `rejects` and `progress` are those of `Store.load`.

    >>> survey([("bonn", "kassel", 230), ("bonn", "", 98)], by="set").faults[0].field
    'target'
    """
    how = ReadAs(**read_as)
    return surveyed(data, how, Terms(units=how.units_given), by, batch, progress, rejects)


def surveyed(data: Any, how: ReadAs, terms: Terms, by: str, batch: Optional[int], progress: Optional[bool],
             rejects: Optional[Path]) -> Survey:
    """A feed's survey in these terms."""
    size = records.MOST_OPERATIONS if batch is None else batch
    must_be_way(by, size)
    feed = turned(how.feed(data), names=how.names)
    counter, told = Count(feed.name, by, size, terms, how.decimal), Progress(f"reading {feed.name}", None, progress)
    kept = None if rejects is None else Rejects(rejects, how.encoding, data)
    counter.bin = None if kept is None else Bin()
    for block in feed.blocks():
        try:
            counter.take(block)
        finally:
            counter.write_wrong(kept)
        told.step(len(block.lines))
    told.end()
    advise(counter.faults, how.reading(data, terms.units))
    return counter.survey(joins=batch is None)
