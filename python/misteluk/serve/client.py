"""A store that a server has, as an engine: its sessions are those of a store in this process."""
from __future__ import annotations

import re
from array import array
from functools import partial
from typing import Any, Dict, List, Mapping, Optional, Sequence, Tuple, Union, overload
from weakref import WeakValueDictionary

from . import wire
from .alive import Hold
from .limits import MOST_VALUES
from .talk import Talk, part
from ..engine.guard import Guard, alone
from ..engine.operations import Operations
from ..engine.protocol import NO_FEEDS, SERVED, Arrays, Denied, Ends, Held, Marks, Scope
from ..errors import Busy, NoAnswer, NoServer, NotAllowed, Refused, SessionClosed, StoreError
from ..options import _named
from ..session import Session
from ..store import Store
from ..values.answers import Collected, Commit, Stat, T, W
from ..values.limits import MOST_BLOCKS, Limits
from ..values.names import NameTable
from ..values.parcels import unpacked
from ..values.units import Units, units_given

_AN_ID = re.compile(rb"~~[A-Za-z0-9_-]{20}")
UNKNOWN = "Whether the batch that was sent is in isn't known"


class ServedVersion:
    """A version that a server holds for this client, and what it answers."""

    def __init__(self, engine: ServedEngine, told: Mapping[str, Any], slot: int) -> None:
        self.slot, self.number, self.count = slot, int(told["version"]), int(told["vertices"])
        self.name, self._engine = str(told["session"]), engine
        self.is_held = True
        self.address = f"/v1/sessions/{part(self.name)}"
        self._hold = Hold(self, engine.talk, self.address, engine.idle, engine.keep_alive)
        self._lists: Dict[str, List[str]] = {}

    @property
    def is_open(self) -> bool:
        return self.is_held and not self._engine.is_closed

    def close(self) -> None:
        self._engine.release(self)

    def end(self) -> None:
        """Notes that the server holds it no more."""
        self.is_held = False
        self._hold.end()

    def _ask(self, call: str, **given: Any) -> bytes:
        self._engine.guard.check()
        self._must_be_open()
        try:
            return self._engine.talk.call("POST", f"{self.address}/ask", {"call": call, **given}).body
        except StoreError as fault:
            self._must_be_open()  # (it may have been closed meanwhile, and its server too)
            if not isinstance(fault, SessionClosed):
                raise
            self.end()
            raise SessionClosed(f"the server let version {self.number} go: {fault}. Open another session") from None
        finally:
            if self._engine.is_closed:  # (so nobody else closes the connection that was in use)
                self._engine.talk.close()

    def _must_be_open(self) -> None:
        if not self.is_open:
            raise SessionClosed(f"the session of version {self.number} is closed")

    def _columns(self, call: str, scope: Scope, **given: Any) -> List[array[int]]:
        return unpacked(self._ask(call, kind=scope.kind, since=scope.since, until=scope.until, **given)).columns

    def _list(self, call: str) -> List[str]:
        if call not in self._lists:
            self._lists[call] = wire.taken(wire.loaded(self._ask(call)), self._engine.names)
        return self._lists[call]

    def names(self) -> List[str]:
        return self._list("names")

    def kinds(self) -> List[str]:
        return self._list("kinds")

    def degrees(self, scope: Scope) -> Tuple[array[int], array[int], array[int]]:
        out, into, weights = self._columns("degrees", scope)
        return out, into, weights

    def weights_in(self, scope: Scope) -> array[int]:
        return self._columns("weights_in", scope)[0]

    def labels(self, scope: Scope) -> array[int]:
        return self._columns("labels", scope)[0]

    def cores(self, scope: Scope) -> array[int]:
        return self._columns("cores", scope)[0]

    def levels(self, scope: Scope, source: str) -> Tuple[Sequence[int], array[int]]:
        reached, levels = self._columns("levels", scope, name=source)
        return reached, levels

    def within(self, scope: Scope, source: str, steps: int, either: bool) -> Tuple[array[int], array[int]]:
        vertices, levels = self._columns("within", scope, name=source, steps=steps, either=either)
        return vertices, levels

    def path(self, scope: Scope, source: str, target: str) -> array[int]:
        return self._columns("path", scope, name=source, target=target)[0]

    def found(self, ends: Sequence[Ends]) -> List[Union[Marks, Denied, None]]:
        told: List[Any] = []
        for at in range(0, max(len(ends), 1), MOST_VALUES):
            told += wire.loaded(self._ask("found", ends=list(ends[at:at + MOST_VALUES])))
        return [Denied(it) if isinstance(it, str) else it if it is None else (it[0], it[1], it[2]) for it in told]

    def edge(self, ends: Ends) -> Optional[Marks]:
        found = self.found([ends])[0]
        if isinstance(found, Denied):
            raise found
        return found

    def edges(self, scope: Scope) -> Arrays:
        return Arrays(*self._columns("edges", scope))

    def differences(self, later: Held, scope: Scope) -> None: ...  # (they are found by the edges of both)

    def out_of(self, scope: Scope, name: str) -> Arrays:
        found = Arrays(*self._columns("out_of", scope, name=name))
        return found.in_order(found.targets)  # (here, since the server answers others meanwhile)

    def into(self, scope: Scope, name: str) -> Arrays:
        return Arrays(*self._columns("into", scope, name=name))


class ServedFlight:
    """A batch on its way to a server, by its number: the server applies it once, however often it is sent."""

    def __init__(self, batch: Operations, collect: bool) -> None:
        self.batch, self.collect = batch, collect
        self.cut: List[None] = []
        self.feeder, self.number = "", 0


class ServedEngine:
    """The store of a server. The first batch takes the seat of the one that feeds it; it is given back at the end."""

    name = SERVED
    operations_kept = None
    has_ended = False  # (the store goes on without this client, and a batch that was sent may be in)
    limits, most_blocks, feeds = Limits(), MOST_BLOCKS, NO_FEEDS

    def __init__(self, talk: Talk, keep_alive: bool = False) -> None:
        self.talk, self.is_closed, self.keep_alive = talk, False, keep_alive
        self.guard = self._guard = Guard()
        try:
            told = talk.call("GET", "/v1/stat").json()
        except BaseException:
            talk.close()
            raise
        try:
            self.grows, self.seats = bool(told["blocks"]["grow"]), int(told["seats"])
            # (a store that grows has as many as it needs: the server says where that is too many)
            self.blocks = MOST_BLOCKS if self.grows else int(told["blocks"]["all"])
            self.units, self.idle = Units(**told["units"]), float(told["limits"]["idle"])
            talk.most_body = int(told["limits"]["body"])
        except (KeyError, TypeError):
            talk.close()
            raise StoreError(f"{talk.url} is no server of a store") from None
        # The texts of names that go as ids, which the store's terms share.
        self.names = NameTable()
        # (one that nobody has any more isn't held)
        self._held: WeakValueDictionary[int, ServedVersion] = WeakValueDictionary()
        self._feeder, self._number = "", 0

    @property
    def is_elsewhere(self) -> bool:
        return self.guard.is_elsewhere

    @property
    def open_count(self) -> int:
        return len(self._held)

    def told(self) -> str:
        return f"the server {self.talk.url}"

    def fit(self, vertices: int, kinds: int, blocks: int) -> None:
        """The server's store sees to its room."""

    # Batches.

    def flight(self, batch: Operations, collect: bool) -> ServedFlight:
        return ServedFlight(batch, collect)

    @alone
    def fly(self, flight: ServedFlight) -> Commit:
        run = self.talk.run
        try:
            if not self._feeder:
                self._feeder = str(self._as_feeder("POST", "/v1/feeder")["feeder"])
            if flight.feeder != self._feeder:
                self._number += 1
                flight.feeder, flight.number = self._feeder, self._number
            return Commit(**self._of_batch("POST", flight, self._body_of(flight)))
        except (NoServer, NoAnswer) as fault:
            if flight.feeder and (isinstance(fault, NoAnswer) or fault.is_sent):
                raise type(fault)(f"{fault}. {UNKNOWN}: the next commit asks") from fault
            flight.feeder = ""
            unsent = type(fault)(f"{fault}. No batch was sent, and what is pending stays so")
            unsent.__dict__.update(is_sent=False)
            raise unsent from fault
        except (Refused, NotAllowed, Busy):
            if self.talk.run == run:  # (so it isn't in, and nobody is asked for it)
                flight.feeder = ""
            raise
        except SessionClosed as fault:
            if self.talk.run == run or not flight.feeder:
                raise
            # (the server before may have had it, and saved it)
            raise SessionClosed(f"{fault}. {UNKNOWN}: look before you commit it again") from None

    def _body_of(self, flight: ServedFlight) -> Dict[str, Any]:
        text = flight.batch.text
        ids = {it.decode("ascii") for it in _AN_ID.findall(text)}
        texts = {it: self.names.to_user(it) for it in ids if self.names.to_user(it) != it}
        return {"operations": text.decode("ascii"), "texts": texts, "collect": flight.collect}

    def _of_batch(self, method: str, flight: ServedFlight, body: Optional[Mapping[str, Any]] = None) -> Dict[str, Any]:
        return self._as_feeder(method, f"/v1/feeder/{part(flight.feeder)}/batches/{flight.number}", body)

    def _as_feeder(self, method: str, path: str, body: Optional[Mapping[str, Any]] = None) -> Dict[str, Any]:
        try:
            return self.talk.call(method, path, body).json()
        except SessionClosed as fault:
            self._feeder = ""
            raise SessionClosed(f"{fault}. What is pending stays so; the next commit takes the seat again") from None

    @alone
    def landed(self, flight: ServedFlight) -> Optional[Commit]:
        if not flight.feeder or flight.feeder != self._feeder:
            return None
        try:
            found = self._of_batch("DELETE", flight)["receipt"]
        except (NoServer, NoAnswer) as fault:
            raise type(fault)(f"{fault}. {UNKNOWN}, and what is pending stays so") from fault
        except SessionClosed as fault:
            flight.feeder = ""
            raise SessionClosed(f"{fault} and applies the batch whose answer was lost, unless it is discarded. Whether that is "
                                "in isn't known: look before you commit it again") from None
        flight.feeder = ""
        return None if found is None else Commit(**found)

    # Versions.

    def stat(self, after: Optional[int] = None) -> Stat:
        """The server's counts; with `after` once it has a later version than that one, or waited for as long as it waits."""
        self._must_be_open()
        told = self.talk.call("GET", "/v1/stat" if after is None else f"/v1/stat?after={after}").json()
        blocks = told["blocks"]
        return Stat(told["version"], told["vertices"], told["edges"], blocks["free"], blocks["retired"], blocks["used"])

    def collect(self) -> Collected:
        """Nothing: the server collects behind each batch."""
        stat = self.stat()
        return Collected(min((it.number for it in self._held.values()), default=stat.version), 0, stat.retired)

    def _must_be_open(self) -> None:
        self.guard.check()
        if self.is_closed:
            raise StoreError("the store is closed")

    @alone
    def hold(self, slot: Optional[int], version: Optional[int] = None) -> ServedVersion:
        self._must_be_open()
        if slot in self._held:
            raise Denied("AlreadyOpen")
        at = next(it for it in range(len(self._held) + 1) if it not in self._held) if slot is None else slot
        path = "/v1/sessions" if version is None else f"/v1/sessions?version={version}"
        self._held[at] = found = ServedVersion(self, self.talk.call("POST", path).json(), at)
        return found

    @alone
    def release(self, version: ServedVersion) -> None:
        self._release(version)

    def _release(self, version: ServedVersion) -> None:
        if self._held.get(version.slot) is version:
            del self._held[version.slot]
        if version.is_held and not self.is_closed:
            version.end()
            self._left(version.address)

    def _left(self, path: str) -> None:
        """Gives back what the server has for this client; one that doesn't answer lets it go by itself."""
        try:
            self.talk.ask("DELETE", path)
        except StoreError:
            pass

    def rebase(self, version: Any = None) -> Any:
        raise StoreError("a server's store is begun anew by the server alone")

    renew = rebase

    @alone
    def close(self) -> None:
        if self.is_closed:
            return
        for it in list(self._held.values()):
            self._release(it)
        if self._feeder:
            self._left(f"/v1/feeder/{part(self._feeder)}")
        self.is_closed = True
        self.talk.close()


class ServedStore(Store[W, T]):
    """A store of a server, which `connect` returns: sessions of its versions, and a feed for it.

    >>> served = connect("http://127.0.0.1:7700")
    >>> served.stat().edges
    4

    One client feeds a server's store at a time: its first commit takes that seat, and `close` gives it back; the others' commits
    raise `Busy`. A batch whose answer is lost is sent again, and applied once. A server drops a session that asks nothing for as
    long as its `--idle` says, unless it is kept alive."""

    def __init__(self, engine: ServedEngine, units: Optional[Units[Any, Any]]) -> None:
        self._is_closed = True
        given = units_given(units)._or_those(engine.units)
        if not given._same_as(engine.units):
            raise ValueError(f"{engine.told()} has {engine.units}, and {given} is given")
        self._begin(engine, given, True)
        self._ledger.terms.names = engine.names

    def open(self, version: Optional[int] = None) -> Session[W, T]:
        """Returns a session that holds the last version, or a version with this number that another session still holds.

        >>> with served.open() as first, served.open(first.version) as second:
        ...     second.version
        1
        """
        self._ledger.settle()
        engine: Any = self._engine
        return Session(self, engine.hold(None, version))

    def stat(self, after: Optional[int] = None) -> Stat:
        """Returns the last version's number, vertices and edges, and how many blocks are free, retired and used.

        With `after`, a version's number, it waits for a later version, 25 s at most: so you hear of changes without asking again
        and again. The `timeout` of `connect` has to be longer.

        >>> with served.open() as session:
        ...     later = served.stat(after=session.version - 1)
        >>> later.version
        1
        """
        engine: Any = self._engine
        found: Stat = self._asked("stat", partial(engine.stat, after))
        return found

    def discard(self) -> int:
        """Drops the pending operations and returns how many there were.

        If the answer to a batch is missing, it asks the server first: operations that are in aren't pending any more, and the
        next commit counts them. If the server doesn't answer (`NoServer`, `NoAnswer`) nothing is dropped. If another server
        answers, it raises `SessionClosed` once, since nobody knows then whether the batch is in; the next `discard` drops it too.

        >>> served.add("road", "bonn", "kassel", 230)
        >>> served.discard()
        1
        """
        try:
            if not self.is_closed:
                self._ledger.settle()
        except Refused:  # (so it isn't in)
            pass
        return super().discard()

    def _told_of_lost(self, lost: Sequence[str]) -> str:
        sent, others = self._ledger.unanswered, "; the others aren't applied"
        if not sent:
            return super()._told_of_lost(lost)
        return (f"{len(lost)} operations were pending. The first {sent} were sent, and whether they are in isn't known"
                f"{others if len(lost) > sent else ''}")

    def __repr__(self) -> str:
        state = f"{self._engine.open_count} sessions open, {self.pending} pending"
        return f"<Store of {self._engine.told()}: {'closed' if self._is_closed else state}>"


@overload
def connect(url: str, *, units: Units[W, T], token: Optional[str] = None, timeout: float = 60.0,
            keep_alive: bool = False) -> ServedStore[W, T]: ...


@overload
def connect(url: str, *, units: None = None, token: Optional[str] = None, timeout: float = 60.0,
            keep_alive: bool = False) -> ServedStore[Any, Any]: ...


@_named
def connect(url: str, *, units: Optional[Units[Any, Any]] = None, token: Optional[str] = None, timeout: float = 60.0,
            keep_alive: bool = False) -> ServedStore[Any, Any]:
    """Returns the store of a server, whose sessions answer as those of a store in this process do.

    The server is a process of its own: `python -m misteluk serve graph.db`, say, or with a file that it follows (`--help`).

    >>> with connect("http://127.0.0.1:7700") as served, served.open() as session:
    ...     session.path("kassel", "bonn")
    ['kassel', 'hanau', 'bonn']

    `url` is `http://HOST:PORT`, with a path if a proxy has the server there, or `unix:PATH`. `units` say how weights are shown
    and rounded (`Units`); what they count is the server's. `token` is the server's, or without it that of the variable
    MISTELUK_TOKEN. `timeout` is for how many seconds the server may be silent. With `keep_alive` a thread keeps sessions from
    being dropped until they are closed or nobody refers to them.

    Raises `NoServer` if none answers, `NotAllowed` if it refuses this client, and `ValueError` for other units."""
    engine = ServedEngine(Talk(url, token, timeout), keep_alive)
    try:
        return ServedStore(engine, units)
    except BaseException:
        engine.close()
        raise
