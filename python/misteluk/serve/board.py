"""The versions that a server holds, and who holds them: the last one, and those that clients have."""
from __future__ import annotations

import math
import secrets
import threading
import time
from collections import deque
from contextlib import contextmanager
from typing import Any, Callable, Deque, Dict, Iterator, List, NamedTuple, Optional, Tuple

from .limits import ServerLimits
from .people import EVERYONE, Person
from .precedence import Precedence
from .recent import Recent
from ..errors import SessionClosed, StoreError
from ..session import Session
from ..store import Store
from ..values.answers import Stat

# How many seats an engine has for a board, which counts by itself what clients hold.
ANY_NUMBER = 1 << 30


class Full(StoreError):
    """There is no room for one more client, or for what it asks; `after` says in how many seconds it may ask again."""

    def __init__(self, word: str, text: str, after: int) -> None:
        self.word, self.after = word, after
        super().__init__(text)


class Shared:
    """A version that is held, with the leases of those that hold it, and how many questions it is asked right now."""

    def __init__(self, session: "Session[Any, Any]") -> None:
        self.session, self.version = session, session.version
        self.leases: "Dict[str, Lease]" = {}
        self.asked = 0

    @property
    def is_needed(self) -> bool:
        return bool(self.leases) or self.asked > 0


class Lease:
    """One client's hold of a version: when it last was heard of, and how many of its questions are being answered."""

    def __init__(self, shared: Shared, heard: float, owner: Person) -> None:
        self.name, self.shared, self.heard, self.asked = secrets.token_urlsafe(15), shared, heard, 0
        self.owner = owner


class HeldVersion(NamedTuple):
    """A version that is held, as it is told: by how many clients, and whether it is the last one."""

    version: int
    vertices: int
    clients: int
    is_last: bool


class LeaseTold(NamedTuple):
    """A session as it is told: whose it is, which version it holds, and for how many seconds nothing was heard of it."""

    session: str
    owner: str
    version: int
    silent: float
    asked: int


class Board:
    """The versions of a store that are held. Whoever feeds the store calls `advance` behind each commit; so a question for the
    last version, the newest one that was published, never waits for the feed. It is always held, whatever clients hold; those are
    `versions` at most."""

    def __init__(self, store: "Store[Any, Any]", limits: ServerLimits, clock: Callable[[], float] = time.monotonic) -> None:
        self.store, self.limits, self._clock = store, limits, clock
        store._engine.seats = ANY_NUMBER
        # One thread advances at a time; the other lock is for what takes no time.
        self._turn, self._lock = threading.Lock(), threading.Lock()
        # Sessions that are to be closed, which waits for a batch that is being applied: never with the lock.
        self._gone: "Deque[Session[Any, Any]]" = deque()
        self._leases: Dict[str, Lease] = {}
        self.stat: Stat = store.stat()
        self._last = Shared(store.open())
        # What is called when there is another last version.
        self.ring: Callable[[], None] = lambda: None
        self.precedence, self.recent = Precedence(), Recent(store)
        store._ledger.noted = self.recent.note
        self._held: Dict[int, Shared] = {self._last.version: self._last}

    def advance(self) -> None:
        """Holds the last version in the place of the one before, unless versions are published at intervals."""
        if not self.limits.publish:
            self.publish()

    def publish(self) -> None:
        """The same now. (A store may begin anew for that: nobody waits for it but the feed.)"""
        with self._turn:
            stat = self.store.stat()
            if stat.version == self._last.version:
                return
            session = self.store.open()
            with self._locked():
                self.stat, before = stat, self._last
                self._last = self._held[session.version] = Shared(session)
                self._drop(before)
            self.ring()

    @contextmanager
    def _locked(self) -> Iterator[None]:
        """Has the board alone; behind that the sessions are closed that were let go."""
        with self._lock:
            yield
        self._close_gone()

    def _close_gone(self) -> None:
        while self._gone:
            try:
                self._gone.popleft().close()
            except IndexError:  # (another thread took it)
                return

    def _drop(self, shared: Shared) -> None:
        """Lets a version go that nobody needs."""
        if not shared.is_needed and shared is not self._last and self._held.get(shared.version) is shared:
            del self._held[shared.version]
            self._gone.append(shared.session)

    # What clients hold.

    def lease(self, version: Optional[int] = None, person: Person = EVERYONE) -> Lease:
        """A hold of the last version, or of this one, where it is held. Raises `Full` where there are too many."""
        self.sweep()
        with self._locked():
            if len(self._leases) >= self.limits.clients:
                raise Full("Full", f"there are {self.limits.clients} sessions, which is how many this server allows",
                           self._first_end(self._leases.values()))
            lease = Lease(self._with_room(self._find(version)), self._clock(), person)
            self._leases[lease.name] = lease.shared.leases[lease.name] = lease
            return lease

    def _with_room(self, shared: Shared) -> Shared:
        """The version, where clients may hold it beside those that they hold. Raises `Full` else."""
        others = [it for it in self._held.values() if it.leases and it is not shared]
        if len(others) >= self.limits.versions:
            raise Full("NoSeat", f"clients hold {len(others)} other versions, which is how many this server allows",
                       min(map(self._last_end, others)))
        return shared

    def _find(self, version: Optional[int]) -> Shared:
        if version is None:
            return self._last
        if version not in self._held:
            raise SessionClosed(f"version {version} isn't held")
        return self._held[version]

    def keep(self, name: str, person: Person = EVERYONE) -> Lease:
        """Notes that this client was heard of. Raises `SessionClosed` where its version was let go, and `NotAllowed` where it is
        another's."""
        with self._lock:
            return self._known(name, person)

    def _known(self, name: str, person: Person) -> Lease:
        lease = self._leases.get(name)
        if lease is None:
            raise SessionClosed(f"this server holds no version for this session: its client let it go, was silent for "
                                f"{self.limits.idle:g} s, or had it of a server before this one")
        person.must_own(lease.owner, "session")
        lease.heard = self._clock()
        return lease

    def let_go(self, name: str, person: Person = EVERYONE) -> Lease:
        """Lets a client's version go; what is being answered of it is answered to its end."""
        with self._locked():
            lease = self._known(name, person)
            self._end(lease)
            return lease

    def _end(self, lease: Lease) -> None:
        del self._leases[lease.name], lease.shared.leases[lease.name]
        self._drop(lease.shared)

    def let_all_go(self) -> None:
        """Lets go what clients hold: the last version is held then."""
        with self._locked():
            for it in list(self._leases.values()):
                self._end(it)

    def sweep(self) -> int:
        """Lets go what silent clients hold, and gives how many they were."""
        with self._locked():
            before = self._clock() - self.limits.idle
            silent = [it for it in self._leases.values() if not it.asked and it.heard <= before]
            for it in silent:
                self._end(it)
            return len(silent)

    # What is asked.

    @property
    def is_busy(self) -> bool:
        """Whether a question would wait for what somebody else does here."""
        return self._lock.locked()

    @contextmanager
    def lent(self, name: Optional[str] = None, version: Optional[int] = None,
             person: Person = EVERYONE) -> "Iterator[Session[Any, Any]]":
        """The session of a client, or that of a version, or of the last one, for as long as a question takes. What it lets go
        others close: the next commit, or `sweep`."""
        loan = self.lend(name, version, person)
        try:
            yield loan[0].session
        finally:
            self.take_back(*loan)

    def lend(self, name: Optional[str] = None, version: Optional[int] = None,
             person: Person = EVERYONE) -> "Tuple[Shared, Optional[Lease]]":
        """The same until `take_back`."""
        with self._lock:
            lease = None if name is None else self._known(name, person)
            shared = self._find(version) if lease is None else lease.shared
            shared.asked += 1
            if lease is not None:
                lease.asked += 1
            return shared, lease

    def take_back(self, shared: Shared, lease: Optional[Lease]) -> None:
        with self._lock:
            shared.asked -= 1
            if lease is not None:
                lease.asked, lease.heard = lease.asked - 1, self._clock()
            self._drop(shared)

    # What is told.

    def held(self) -> List[HeldVersion]:
        """The versions that are held, in order."""
        with self._lock:
            return [HeldVersion(it.version, it.session.vertex_count, len(it.leases), it is self._last)
                    for it in sorted(self._held.values(), key=lambda it: it.version)]

    def leases(self, person: Person) -> List[LeaseTold]:
        """The sessions of a person, or all for an admin, those first that were silent for the longest."""
        with self._lock:
            now = self._clock()
            found = [LeaseTold(it.name, it.owner.name, it.shared.version, round(now - it.heard, 1), it.asked)
                     for it in self._leases.values() if person.may("admin") or it.owner.name == person.name]
        return sorted(found, key=lambda it: -it.silent)

    def _first_end(self, leases: Any) -> int:
        """In how many seconds the first of these leases ends, if its client stays silent."""
        ends = [it.heard + self.limits.idle - self._clock() for it in leases]
        return max(1, math.ceil(min(ends, default=1.0)))

    def _last_end(self, shared: Shared) -> int:
        """In how many seconds a version is let go, if all its clients stay silent."""
        return max((self._first_end([it]) for it in shared.leases.values()), default=1)

    def close(self) -> None:
        """Lets all go."""
        with self._lock:
            self._gone.extend(it.session for it in self._held.values())
            self._held, self._leases = {}, {}
        self._close_gone()
