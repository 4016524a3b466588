"""Operations that go in together, in the engine's terms: as rows, or as columns whose names stand once each.

A removal has no weight and time, 0, and an expiry nothing but its time.
"""
from __future__ import annotations

from array import array
from collections import defaultdict
from itertools import accumulate, chain, compress, count, islice
from operator import itemgetter
from typing import TYPE_CHECKING, Any, Callable, DefaultDict, Dict, Iterable, List, NamedTuple, Optional, Sequence, Tuple

from ..errors import Place
from ..values import records
from ..values.fields import numpy_for

if TYPE_CHECKING:
    from ..feeds.terms import Terms

# What an operation does, as the C interface numbers it; and the commands of records, by that number.
INSERT, ADD, REMOVE, EXPIRE = range(4)
COMMANDS = "iarx"
FORMS = ("i,{},{},{},{},{}\n", "a,{},{},{},{},{}\n", "r,{},{},{}\n", "x,{4}\n")
# What an operation does, its kind, source and target, its weight and its time.
Row = Tuple[int, str, str, str, int, int]
EXPIRY = (EXPIRE, "", "", "", 0)
# What stands for the name of an expiry, which has none.
NO_NAME = "-"


class Dictionary:
    """Names by number, from 0 on, as each was asked for first."""

    def __init__(self) -> None:
        self.numbers: DefaultDict[str, int] = defaultdict(count().__next__)
        self._encoded: Tuple[bytes, "array[int]"] = (b"", array("Q"))

    def column(self, names: Sequence[str]) -> "array[int]":
        if not names or names[0] == names[-1] and names.count(names[0]) == len(names):
            return array("I", [self.numbers[it] for it in names[:1]]) * len(names)
        return array("I", itemgetter(*names)(self.numbers))

    def since(self, count: int) -> List[str]:
        """The names behind the first ones, so many, the last one first."""
        return list(islice(reversed(self.numbers), len(self.numbers) - count))

    def forget_since(self, number: int) -> None:
        """Lets the names behind the first ones go, so many."""
        for it in self.since(number):
            del self.numbers[it]
        self.numbers.default_factory = count(number).__next__

    @property
    def names(self) -> List[str]:
        return list(self.numbers)

    @property
    def encoded(self) -> "Tuple[bytes, array[int]]":
        """The names one after another, and where each ends."""
        if len(self._encoded[1]) != len(self.numbers):
            self._encoded = _encoded([it or NO_NAME for it in self.numbers])
        return self._encoded


def _encoded(names: Sequence[str]) -> "Tuple[bytes, array[int]]":
    return "".join(names).encode("ascii"), array("Q", accumulate(map(len, names)))


class Listed(Dictionary):
    """Names by number that are all there, each once; they aren't asked for any more."""

    def __init__(self, names: Sequence[str]) -> None:
        super().__init__()
        self._names = names

    @property
    def names(self) -> List[str]:
        return list(self._names)

    @property
    def encoded(self) -> "Tuple[bytes, array[int]]":
        if not self._encoded[1]:
            self._encoded = _encoded(self._names)
        return self._encoded


class Encoded(Dictionary):
    """Names by number as they were encoded, perhaps by another process; they aren't asked for any more."""

    def __init__(self, text: bytes, ends: "array[int]") -> None:
        super().__init__()
        self._encoded = text, ends

    @property
    def names(self) -> List[str]:
        text, ends = self._encoded
        return [text[begin:end].decode("ascii") for begin, end in zip([0, *ends], ends)]

    @property
    def encoded(self) -> "Tuple[bytes, array[int]]":
        return self._encoded


class Numbered(NamedTuple):
    """Operations as columns of one length: what each does; its kind, source and target by number; its weight and time."""

    codes: "array[int]"
    kinds: "array[int]"
    sources: "array[int]"
    targets: "array[int]"
    weights: "array[int]"
    times: "array[int]"
    of_kinds: Dictionary
    of_names: Dictionary

    @staticmethod
    def of(rows: Sequence[Row]) -> "Numbered":
        return Numbered.by(Dictionary(), Dictionary(), *(zip(*rows) if rows else ((),) * 6))

    @staticmethod
    def by(of_kinds: Dictionary, of_names: Dictionary, *columns: Sequence[Any]) -> "Numbered":
        """Operations by columns, whose names these dictionaries have, or get."""
        codes, kinds, sources, targets, weights, times = columns
        return Numbered(array("B", codes), of_kinds.column(kinds), of_names.column(sources), of_names.column(targets),
                        array("q", weights), array("Q", times), of_kinds, of_names)

    def some(self, rows: slice) -> "Numbered":
        columns: Any = [it[rows] for it in self[:6]]
        return Numbered._make([*columns, self.of_kinds, self.of_names])

    def only(self, marks: bytes) -> "Numbered":
        """The operations that are marked by 1, of marks that are 0 or 1."""
        numpy = numpy_for(len(marks))
        columns: Any = [array(it.typecode, compress(it, marks) if numpy is None else
                              numpy.asarray(it)[numpy.frombuffer(marks, "bool")].tobytes()) for it in self[:6]]
        return Numbered._make([*columns, self.of_kinds, self.of_names])

    def has(self, code: int) -> bool:
        """Whether an operation of this sort is among them."""
        return code in self.codes.tobytes()  # (an array would make a number of each of them)

    def vertices(self) -> List[str]:
        """The vertices that operations name, each once, in their order."""
        ends: Any = zip(self.sources, self.targets)
        if self.has(EXPIRE):
            ends = compress(ends, map(EXPIRE.__ne__, self.codes))
        names = self.of_names.names
        return [names[it] for it in dict.fromkeys(chain.from_iterable(ends))]

    def rows(self) -> List[Row]:
        kinds, names = self.of_kinds.names.__getitem__, self.of_names.names.__getitem__
        rows: Any = zip(self.codes, map(kinds, self.kinds), map(names, self.sources), map(names, self.targets), self.weights,
                        self.times)
        return list(rows)


class Post(NamedTuple):
    """Whose batch it is, and its number there: the same one is sent again until its answer came, and is applied once. Without a
    number it is a key, which no other batch of who feeds has."""

    producer: str
    sequence: Optional[int]

    def checked(self) -> "Post":
        """Itself; raises `ValueError` where a producer has no name, or a number is none from 0 to 2^63 - 1."""
        if not self.producer or self.sequence is None or not 0 <= self.sequence <= records.MOST_TIME:
            raise ValueError("a commit that is applied once has a producer's name and a sequence from 0 to 2^63 - 1, and not "
                             f"{self.producer!r} and {self.sequence}")
        return self


class Operations:
    """Operations that go in together, as rows or as columns, and where each came from, by its place. `post` says whose batch it
    is where it is to be applied once, `terms` the names and units of a feed whose first batch it is, `feeder` who fed it, by
    name, and `feed` of which followed feed it is, and to which place, as JSON. `batches` says as how many batches they count.
    With `opens` they are none: a desk without vertices opens with them, in one step that counts as so many."""

    def __init__(self, rows: Optional[Sequence[Row]] = None, columns: Optional[Numbered] = None,
                 place: Optional[Callable[[int], Place]] = None, post: Optional[Post] = None) -> None:
        self._rows, self._columns, self.place, self.post = rows, columns, place, post
        self.terms: "Optional[Terms]" = None
        self.feeder: Optional[str] = None
        self.feed: Optional[str] = None
        self.batches, self.opens = 1, 0
        self.size = len(rows) if rows is not None else len(columns.codes) if columns else 0

    @property
    def rows(self) -> Sequence[Row]:
        return self._rows if self._rows is not None else self._columns.rows() if self._columns else ()

    @property
    def columns(self) -> Numbered:
        if self._columns is None:
            self._columns = Numbered.of(self.rows)
        return self._columns

    def known_after(self, names: Iterable[str], kinds: Iterable[str]) -> Tuple[int, int]:
        """How many vertices and kinds there would be after the operations, with these from before."""
        rows = [it for it in self.rows if it[0] < REMOVE]
        return len({*names, *(it[2] for it in rows), *(it[3] for it in rows)}), len({*kinds, *(it[1] for it in rows)})

    def vertices(self) -> List[str]:
        """The vertices that the operations name, each once, in their order. (Which edges expire they don't say.)"""
        return self.names_of_vertices()()

    def ends(self, most: int) -> Optional[List[Tuple[str, str]]]:
        """The ends of each edge that the operations insert or add to; `None` where their columns know more names than so many."""
        if self._rows is None and len(self.columns.of_names.encoded[1]) > most:
            return None
        return [(it[2], it[3]) for it in self.rows if it[0] < REMOVE]

    def names_of_vertices(self) -> "Callable[[], List[str]]":
        """What gives them, which keeps of rows no more than the names."""
        if self._rows is None:
            return self.columns.vertices
        names = vertices_of(self._rows)
        return lambda: names

    @property
    def expires(self) -> bool:
        """Whether an operation expires edges; then the batch asks for the used blocks too."""
        return EXPIRE in (self._columns.codes if self._columns is not None else map(itemgetter(0), self.rows))

    def asked(self, used: int) -> int:
        """How many free blocks the batch asks for, where so many are used."""
        return self.size + (used if self.expires else 0)

    @property
    def text(self) -> bytes:
        return records_of(self.rows).encode("ascii")


def vertices_of(rows: Iterable[Row]) -> List[str]:
    """The vertices that operations name, each once, in their order."""
    return list(dict.fromkeys(chain.from_iterable([it[2:4] for it in rows if it[0] != EXPIRE])))


class Quoted(Dict[str, str]):
    """Names as fields of records."""

    def __missing__(self, name: str) -> str:
        found = self[name] = records.quoted(name)
        return found


def records_of(rows: Iterable[Row]) -> str:
    """The records of operations, one line each."""
    quoted = Quoted()
    return "".join([FORMS[code].format(quoted[kind], quoted[source], quoted[target], weight, time)
                    for code, kind, source, target, weight, time in rows])


def row_of(fields: Sequence[str]) -> Row:
    """The operation that the fields of a record say."""
    code = COMMANDS.index(fields[0])
    if code == EXPIRE:
        return (*EXPIRY, int(fields[1]))
    weight, time = map(int, fields[4:] or "00")
    return (code, fields[1], fields[2], fields[3], weight, time)


def fields_of(row: Row) -> List[str]:
    return records.split_record(records_of([row]))
