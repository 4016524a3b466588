"""The errors of the client: each says what is wrong (record, line and field), why, and what to do.

Examples go on from that of `misteluk.Session`, after `from misteluk.errors import *`."""
from __future__ import annotations

import importlib
from typing import TYPE_CHECKING, Any, Dict, List, NamedTuple, Optional, Sequence, Tuple, Type

from .values.records import Fault

if TYPE_CHECKING:
    from .values.answers import Commit


class StoreError(Exception):
    """The base of this package's errors. Wrong arguments raise `ValueError` or `TypeError`.

    >>> try:
    ...     session.levels("ulm")
    ... except StoreError as error:
    ...     print(error)
    NoVertex: levels('ulm'). The version that the session holds has no such name; a later one may
    """

    def __reduce__(self) -> Tuple[Any, ...]:
        """What pickles it, as it stands: the errors of a part come from another process."""
        return _as_it_stood, (type(self), self.args, self.__dict__)


def _as_it_stood(kind: Type[StoreError], told: Tuple[Any, ...], state: Dict[str, Any]) -> StoreError:
    error = kind.__new__(kind, *told)
    error.args = told
    error.__dict__.update(state)
    return error


class Place(NamedTuple):
    """The place that an operation came from: a feed and a line in it; of tables and graphs the row, from 1.

    >>> print(Place("roads.csv", 7))
    roads.csv:7
    """

    feed: str
    line: int

    def __str__(self) -> str:
        return f"{self.feed}:{self.line}"


class Refused(StoreError):
    """An operation or a question was refused, and changed nothing.

    >>> try:
    ...     store.insert("road", "", "bonn")
    ... except Refused as error:
    ...     refused = error
    >>> refused.word, str(refused.fault)
    ('BadName', "source '': a name has at least one byte")

    `word` is the error's name, `place` where the operation came from, `fault` the field and the reason, `advice` what to do, and
    `message` the text without the advice. `applied` has what the batches before a refused one did, or `None`."""

    word = ""
    advice = ""
    applied: Optional[Commit] = None

    def __init_subclass__(cls) -> None:
        cls.word = cls.__name__

    def __init__(self, text: str = "", *, place: Optional[Place] = None, fault: Optional[Fault] = None,
                 word: Optional[str] = None, advice: Optional[str] = None) -> None:
        self.place, self.fault = place, fault
        self.word = word or self.word
        self.advice = self.advice if advice is None else advice
        where = f"{place}: " if place else ""
        reason = text or (str(fault) if fault else "")
        self.message = f"{where}{self.word}" + (f": {reason}" if reason else "")
        super().__init__(self.message + (f". {self.advice}" if self.advice else ""))

    @property
    def field(self) -> Optional[str]:
        """The name of the wrong field, or `None`.

        >>> refused.field
        'source'
        """
        return self.fault.field if self.fault else None

    @property
    def reason(self) -> Optional[str]:
        """Why the field is wrong; `None` if only the word is known.

        >>> refused.reason
        'a name has at least one byte'
        """
        return self.fault.reason if self.fault else None


class BadCommand(Refused):
    """A record's command has a name that no command has."""


class BadFields(Refused):
    """A record has more or fewer fields than its command takes."""


class BadName(Refused):
    """A name is empty or has bytes that are no text, or a kind is `*`.

    >>> store.insert("*", "kassel", "bonn")
    Traceback (most recent call last):
    misteluk.errors.BadName: BadName: kind '*': a kind is not *, which stands for any kind in a request
    """


class BadWeight(Refused):
    """A weight or amount is no number that the store's units have, or is outside the limits.

    >>> store.insert("road", "kassel", "bonn", 230.5)
    Traceback (most recent call last):
    misteluk.errors.BadWeight: BadWeight: weight '230.5': a weight is a whole number, of at most 19 digits. ...
    """


class BadTime(Refused):
    """A time, or an end of a window, is none that the store's units have, or is outside the limits.

    >>> store.insert("road", "kassel", "bonn", 230, time="2024-05-01")
    Traceback (most recent call last):
    misteluk.errors.BadTime: BadTime: time '2024-05-01': ... Dates are taken by a store with Units(times='iso') (--times iso)
    """

    advice = "Dates are taken by a store with Units(times='iso') (--times iso)"


class BadSlot(Refused):
    """A record's slot isn't a number from 0 to the number of seats minus 1."""

    advice = "Ask for more seats when the store is made (seats=, or --seats; 16 at most)"


class NotOpen(Refused):
    """A record asks a slot in which no session is open."""

    advice = "Open a session first"


class AlreadyOpen(Refused):
    """A record opens a slot in which a session is open."""

    advice = "Close the session in that slot, or take another slot"


class BadWindow(Refused):
    """A window begins after its end.

    >>> session.edges(since=3, until=2)
    Traceback (most recent call last):
    misteluk.errors.BadWindow: BadWindow: edges(since=3, until=2): since 3 is after until 2. ...
    """

    advice = "A window begins no later than it ends"


class NoKind(Refused, LookupError):
    """The version has no edge of this kind, and never had one.

    >>> session.edges(kind="river")
    Traceback (most recent call last):
    misteluk.errors.NoKind: NoKind: edges(kind='river'). ...
    """

    advice = "The version that the session holds has no edge of this kind, and never had; a later one may"


class NoVertex(Refused, LookupError):
    """The version has no vertex of this name.

    >>> session.levels("ulm")
    Traceback (most recent call last):
    misteluk.errors.NoVertex: NoVertex: levels('ulm'). The version that the session holds has no such name; a later one may
    """

    advice = "The version that the session holds has no such name; a later one may"


class BatchFull(Refused):
    """A script's batch has as many operations as a batch can have, and refuses one more."""

    advice = "A batch has at most 4,096 operations: commit in between"


class BatchLimit(Refused):
    """The store has applied as many batches as its limits allow."""

    advice = "Make batches larger, or start the store over (Store.compact)"


class NamesFull(Refused):
    """A batch would make more vertices than the store takes.

    >>> with Store(limits=Limits(vertices=3)) as small:
    ...     loaded = small.load(roads[:2], by="set")
    ...     small.load(roads[2:], by="set")
    Traceback (most recent call last):
    misteluk.errors.NamesFull: rows:1: NamesFull: the batch of lines 1 to 2 was refused, ...
    """

    advice = "The names of removed edges count too"


class KindsFull(Refused):
    """A batch would make more kinds than the store takes.

    >>> with Store(limits=Limits(kinds=1)) as small:
    ...     loaded = small.load(roads[:3], by="set")
    ...     small.load(roads[3:], by="set")
    Traceback (most recent call last):
    misteluk.errors.KindsFull: rows:1: KindsFull: the batch of lines 1 to 1 was refused, ...
    """

    advice = "A graph has at most 64 kinds; those of removed edges count too"


class TooLarge(Refused):
    """A request is longer than the server takes, and wasn't applied."""

    advice = "Send or ask less at once (batch=), or have the server take longer requests (--body)"


class PoolEmpty(Refused):
    """A batch found too few free blocks: it needs one for each operation, and with an expiry as many more as are used.

    >>> with Store(blocks=16) as small:
    ...     small.load(roads * 5, by="set", batch=20)
    Traceback (most recent call last):
    misteluk.errors.PoolEmpty: PoolEmpty: rows needs at least 20 blocks in batches of 20, and the store was made with 16; ...

    `needed` and `free` are numbers of blocks; `free` is `None` if it isn't known."""

    advice = "Make batches smaller, or give the store more blocks"

    def __init__(self, *, needed: int, free: Optional[int], place: Optional[Place] = None, text: str = "",
                 advice: Optional[str] = None) -> None:
        self.needed, self.free = needed, free
        self.advice = self.advice if advice is None else advice
        left = "" if free is None else f", and {free} are free"
        super().__init__(text or f"the batch needs {needed} free blocks{left}", place=place)


WORDS: Dict[str, Type[Refused]] = {it.word: it for it in Refused.__subclasses__()}


def refusal(word: str, text: str = "", *, place: Optional[Place] = None, fault: Optional[Fault] = None,
            advice: Optional[str] = None) -> Refused:
    """The exception for a word, or a plain `Refused` for one that this package doesn't know. `advice` stands for that of the
    word, where it is told."""
    known = WORDS.get(word, Refused)
    if known is PoolEmpty:
        return Refused(text, place=place, fault=fault, word=word)
    return known(text, place=place, fault=fault, word=word, advice=advice)


class BadRows(StoreError):
    """Rows of a feed are bad. Nothing of the feed is loaded; if it is followed, the text says what is in.

    >>> store.load([("bonn", "kassel", 230), ("bonn", "", 98)], by="set")
    Traceback (most recent call last):
    misteluk.errors.BadRows: rows: 1 of 2 rows can't be taken, and none is loaded
      rows:2: BadName: target '': a name has at least one byte
      ...

    `count` is how many are bad, of `rows`; `faults` has the first ten faults and the first of each rule, and `fault_counts` how
    many rows break each rule, by its word and field."""

    def __init__(self, feed: str, count: int, rows: int, faults: Sequence[Refused],
                 fault_counts: Optional[Dict[str, int]] = None, stands: str = "none is loaded") -> None:
        self.feed, self.count, self.rows, self.faults = feed, count, rows, list(faults)
        self.fault_counts = dict(fault_counts or {})
        lines = [it.message for it in self.faults]
        told = len({it.place for it in self.faults})
        lines += [f"and {count - told} more rows" if count - told > 1 else "and 1 more row"] if count > told else []
        if len(self.fault_counts) > 1:
            lines.append("In all " + ", ".join(f"{times} {rule}" for rule, times in self.fault_counts.items()))
        lines += dict.fromkeys(it.advice for it in self.faults if it.advice)
        lines += ["The others can be loaded without them: skip_bad=True (--skip-bad)"] if count < rows else []
        super().__init__("\n  ".join([f"{feed}: {count} of {rows} rows can't be taken, and {stands}", *lines]))


class OverLimit(StoreError):
    """A feed is more than the store takes, and nothing of it is loaded. `counts` has what was counted.

    >>> with Store(limits=Limits(vertices=2)) as small:
    ...     small.load(roads, by="set")
    Traceback (most recent call last):
    misteluk.errors.OverLimit: rows has 4 vertices, where the store takes 2. ...
    """

    def __init__(self, text: str, counts: Dict[str, int]) -> None:
        self.counts = counts
        super().__init__(text)


class NoSeat(StoreError):
    """All seats of a store hold sessions.

    >>> with Store(seats=1) as single:
    ...     first, second = single.open(), single.open()
    Traceback (most recent call last):
    misteluk.errors.NoSeat: all 1 seats hold sessions: close one, or make the store with more (seats=, 16 at most)
    """


class SessionClosed(StoreError):
    """The session was closed, by itself or by `Store.compact`, or the server dropped it. Nothing was asked.

    >>> session.close()
    >>> session.vertices()
    Traceback (most recent call last):
    misteluk.errors.SessionClosed: the session of version 1 is closed
    """


class LeftOut(UserWarning):
    """A warning: a graph's nodes without edges aren't loaded, or a table's columns kind, weight and time aren't, if no column was
    named.

    >>> import warnings
    >>> warnings.simplefilter("error", LeftOut)
    >>> store.load({"source": ["bonn"], "target": ["ulm"], "weight": [270]}, by="set")
    Traceback (most recent call last):
    misteluk.errors.LeftOut: ...
    """


class Uncommitted(StoreError):
    """Operations are pending where none may be: a store was closed with them, or a feed is to be loaded. `operations` has them.

    >>> store.insert("road", "bonn", "kassel", 230)
    >>> store.load(roads, by="set")
    Traceback (most recent call last):
    misteluk.errors.Uncommitted: 1 operations are pending: commit or discard them before a load
    """

    def __init__(self, text: str, operations: List[str]) -> None:
        self.operations = operations
        super().__init__(text)


class FeedFault(StoreError):
    """A file or graph isn't in the form that was given.

    >>> store.load({"source": ["bonn"], "target": []}, by="set")
    Traceback (most recent call last):
    misteluk.errors.FeedFault: the columns aren't equally long: source has 1, target has 0
    """


class SaveFault(StoreError):
    """A file is no saved version, or isn't as it was written. Nothing of it is restored.

    >>> count = session.edges().to_csv("roads.csv")
    >>> Store.restore("roads.csv")
    Traceback (most recent call last):
    misteluk.errors.SaveFault: roads.csv is no saved version: ...
    """


class JournalError(StoreError):
    """The base of errors with a store's file. Operations to be committed aren't in the store, and stay pending.

    >>> with Store("roads.db") as kept:
    ...     try:
    ...         Store("roads.db")
    ...     except JournalError as error:
    ...         print(type(error).__name__)
    Locked
    """


class NotWritten(JournalError):
    """A batch couldn't be written to a store's file, as on a full disk. What was in the file is there, and sessions answer."""


class JournalFault(JournalError):
    """A store's file isn't as it was written, or a sync of it failed; nothing more is written to it until it is opened again.

    >>> with open("notes.txt", "w") as file:
    ...     count = file.write("These notes are no store's file.")
    >>> Store("notes.txt")
    Traceback (most recent call last):
    misteluk.errors.JournalFault: ...

    `whole` is the last version that `Store.at` can read, or `None` if that isn't known."""

    def __init__(self, text: str, whole: Optional[int] = None) -> None:
        self.whole = whole
        super().__init__(text)


class Locked(JournalError):
    """Another process writes the store's file, or another store of this one does; the text says which process.

    >>> with Store("roads.db") as kept:
    ...     Store("roads.db")
    Traceback (most recent call last):
    misteluk.errors.Locked: ...
    """


class SequenceTaken(JournalError):
    """A producer has sent another batch by this number or a later one, or another batch came by this key.

    `last` is the producer's last number, and `None` for a key.

    >>> with Store("roads.db") as kept:
    ...     kept.insert("road", "kassel", "fulda", 105)
    ...     first = kept.commit(producer="sensor", sequence=1)
    ...     kept.insert("road", "fulda", "hanau", 98)
    ...     kept.commit(producer="sensor", sequence=1)
    Traceback (most recent call last):
    misteluk.errors.SequenceTaken: sensor has sent another batch ...
    """

    def __init__(self, text: str, last: Optional[int]) -> None:
        self.last = last
        super().__init__(text)


class ReadOnly(JournalError):
    """A store at a version takes no batches.

    >>> with Store("roads.db") as kept:
    ...     done = kept.commit()
    >>> with Store.at("roads.db", version=1) as earlier:
    ...     earlier.commit()
    Traceback (most recent call last):
    misteluk.errors.ReadOnly: the store is as of version 1, and is only read
    """


class ProgramNotFound(StoreError):
    """The program `stinger` isn't there."""


class LibraryNotFound(StoreError):
    """The library isn't there, or isn't the one of this package. The text says the next step."""


class NoMemory(StoreError, MemoryError):
    """The library ran out of memory for a call, which changed nothing."""


class NoAnswer(StoreError, TimeoutError):
    """A server was silent for longer than `timeout`. Call again: a batch that was sent is waited for, and not applied twice."""


class Busy(StoreError):
    """Another client feeds the server's store: one does at a time.

    >>> with connect("http://127.0.0.1:7700") as first, connect("http://127.0.0.1:7700") as second:
    ...     done = first.commit()
    ...     second.commit()
    Traceback (most recent call last):
    misteluk.errors.Busy: ...
    """


class NoServer(StoreError, ConnectionError):
    """No server answers at this address, or it went away in the middle of an answer. The server applies no batch twice.

    `is_sent` says whether the request may have reached a server.

    >>> connect("unix:nowhere")
    Traceback (most recent call last):
    misteluk.errors.NoServer: ...
    """

    is_sent = True


class NotAllowed(StoreError, PermissionError):
    """The server refuses a call without the right token, or one from a page of another origin."""


class Misread(StoreError):
    """An answer isn't one of a server that this package knows."""


class Missing(StoreError, ImportError):
    """An optional package isn't installed; the text says how to install it.

    >>> raise Missing("pandas", "a frame")
    Traceback (most recent call last):
    misteluk.errors.Missing: a frame needs pandas: apt-get install python3-pandas, or pip install pandas
    """

    def __init__(self, package: str, what: str) -> None:
        super().__init__(f"{what} needs {package}: apt-get install python3-{package}, or pip install {package}")


class Form(NamedTuple):
    """What an error is outside of Python: the status of a server's answer, and that of a command which it ends."""

    error: Type[BaseException]
    status: int = 400
    exit_code: int = 1


# Each error by its word, which is its name: in answers of a server, in records, and in Python.
TABLE: Dict[str, Form] = {it.error.__name__: it for it in (
    *(Form(it) for it in (
        StoreError, Refused, BadCommand, BadFields, BadName, BadWeight, BadTime, BadSlot, NotOpen, AlreadyOpen, BadWindow,
        BatchFull, BadRows, OverLimit, Uncommitted, FeedFault, SaveFault, ProgramNotFound, LibraryNotFound, NoServer, Misread,
        Missing)),
    *(Form(it, 403) for it in (NotAllowed, ReadOnly)),
    *(Form(it, 404) for it in (NoKind, NoVertex)),
    *(Form(it, 409) for it in (BatchLimit, NamesFull, KindsFull, PoolEmpty, Busy, Locked, SequenceTaken)),
    *(Form(it, 410) for it in (SessionClosed,)),
    *(Form(it, 413) for it in (TooLarge,)),
    *(Form(it, 503) for it in (NoMemory, NoSeat, NoAnswer, JournalError, JournalFault, NotWritten)),
    *(Form(it) for it in (OSError, ValueError)),
    Form(KeyboardInterrupt, exit_code=130),
    Form(BrokenPipeError, exit_code=128 + 13))}  # (as a shell tells of a command whose output lost its reader)


def exit_code_of(fault: BaseException) -> int:
    """The status of a command that an error ends."""
    return next((TABLE[it.__name__].exit_code for it in type(fault).__mro__ if it.__name__ in TABLE), 1)


def needed(package: str, what: str) -> Any:
    """An optional package, or a module of it, by its name. Raises `Missing` where it isn't there, which says what needs it."""
    try:
        return importlib.import_module(package)
    except ImportError:
        raise Missing(package.partition(".")[0], what) from None
