"""The server's calls over HTTP, each by its route."""
from __future__ import annotations

import pkgutil
import re
from typing import Any, Callable, Dict, Iterator, Mapping, Optional, Tuple

from starlette.applications import Starlette
from starlette.exceptions import HTTPException
from starlette.requests import ClientDisconnect, Request
from starlette.responses import Response
from starlette.routing import Route

from . import log, wire
from .asking import ASK, OF_FEW, ROWS, Answers, Shortcut
from .bodies import loaded, rows_of_csv, rows_of_json
from .board import Board, Full, Lease
from .faults import told_fault
from .feeding import Feeding, place_of
from .gate import Run
from .health import Health
from .keeping import Keeper
from .flow import CALL, PERSON, Pool, Shares, Streamed, as_json, first_of, within
from .limits import BODIES, LITTLE, ServerLimits, TooLarge
from .openapi import AFTER, CALLS, described
from .news import LONGEST, Bell, Events, Told
from .page import FILES, POLICY, VIEWED
from .people import People, Person
from .posts import WaitingPost
from .questions import AT_ONCE, HELD, QUESTIONS, QUICK, WHOLE, Parameter, ServedQuestion
from .recent import Known
from .several import Several
from .tables import AS_CSV, CSV, wants_csv
from .turns import Turns
from ..engine.protocol import Denied
from ..page.page import style
from ..errors import NotAllowed, StoreError
from ..journal.engine import Journaled
from ..journal.replica import told_added, told_base

QUICK_THREADS = 4
# A date in an address, behind which + and a colon stand as they are: a zone or a time of day.
_ZONE_OR_TIME = re.compile(r"(?:^|&)(?:since|until)=\d{4}-\d\d-\d\d\+\d\d:", re.A)
# What a request notes of its body: how many bytes are here.
TAKEN = "misteluk.taken"
# How the rows of a post are read.
FORMS = {"text/csv": rows_of_csv, "application/json": rows_of_json}
# The media type of Prometheus's text form.
NUMBERS = "text/plain; version=0.0.4; charset=utf-8"
# What says of a post that a repeat gets its answer, and how long that may be.
KEY, LONGEST_KEY = "Idempotency-Key", 255
BATCH = Parameter("number", "a batch's number", least=1)
Handle = Callable[[Request], Any]


class Api:
    """The calls of a server over a board and a feed."""

    def __init__(self, board: Board, feeding: Feeding, limits: ServerLimits, run: Run, keeper: Optional[Keeper],
                 health: Health, people: People) -> None:
        self.board, self.feeding, self.limits, self._run, self._keeper = board, feeding, limits, run, keeper
        self.health, self.people, self.bell = health, people, Bell()
        board.ring = self.bell.ring
        self.store = board.store
        self.quick = Pool(QUICK_THREADS, limits, "quick")
        # (to let a version go waits for a batch that is being applied)
        self.held = Pool(QUICK_THREADS, limits, "held")
        self.slow = Pool(limits.questions, limits, "whole")
        self.feed = Pool(1, limits, "rows")
        self.bodies = Pool(1, limits, "bodies")
        self._pools = self.quick, self.held, self.slow, self.feed, self.bodies
        self.turns = Turns(self.feed, limits, feeding.rows)
        self.shares = Shares(limits.each)
        self.answers = Answers(board, self.store._ledger.terms.names)
        # How many bytes of bodies are here.
        self._taken = 0

    def shortcut(self) -> Shortcut:
        rows = self._call(self.rows, "rows", CALLS[ROWS]["POST"].role)
        return Shortcut(self.app(), self._call(self.ask, ASK), rows, self.answers, self.limits)

    def app(self) -> Starlette:
        files = [Route(path, _file(name, media), methods=["GET"]) for path, (name, media) in FILES.items()]
        asked = [Route(f"/v1/{it.name}", self._call(self._asking(it), it.name), methods=["GET"]) for it in QUESTIONS]
        # (routes are looked through in order: those that are asked most come first)
        held = [("POST", "/v1/sessions/{session}/ask", self.ask), ("POST", "/v1/sessions", self.hold),
                ("PUT", "/v1/sessions/{session}", self.keep), ("DELETE", "/v1/sessions/{session}", self.let_go)]
        others = [("GET", "/v1/stat", self.stat), ("GET", "/v1/events", self.events), ("GET", "/v1/log", self.log),
                  ("GET", "/v1/rate", self.rate),
                  ("POST", "/v1/ask", self.several),
                  ("GET", "/v1/sessions", self.sessions), ("POST", ROWS, self.rows),
                  ("POST", "/v1/feeder", self.claim), ("DELETE", "/v1/feeder/{feeder}", self.leave),
                  ("POST", "/v1/feeder/{feeder}/batches/{number}", self.batch),
                  ("DELETE", "/v1/feeder/{feeder}/batches/{number}", self.landed), ("GET", "/openapi.json", self.description),
                  ("GET", "/metrics", self.metrics), ("GET", "/readyz", self.readyz), ("GET", "/healthz", self.healthz)]
        app = Starlette(routes=[*map(self._route, held), *asked, *map(self._route, others), *files],
                        exception_handlers={HTTPException: _no_route})
        app.router.redirect_slashes = False
        return app

    def _route(self, call: Tuple[str, str, Handle]) -> Route:
        method, path, handle = call
        return Route(path, self._call(handle, handle.__name__, CALLS[path][method].role), methods=[method])

    @property
    def is_busy(self) -> bool:
        return any(it.is_busy for it in self._pools)

    def close(self) -> None:
        for it in self._pools:
            it.close()

    def _call(self, handle: Handle, name: str, role: str = "read") -> Handle:
        """A call of those who have a role, whose faults are told as JSON."""
        async def call(request: Request) -> Any:
            request.scope[CALL] = name
            try:
                if not request.scope[PERSON].may(role):
                    raise NotAllowed(f"this call is for those with the role {role}")
                if role == "read":
                    await self.board.precedence.turn()
                return await handle(request)
            except (StoreError, Denied, ValueError, TypeError) as fault:
                return told_fault(fault, request.scope, place_of(self.store))
            except ClientDisconnect:  # (nobody reads it)
                return Response(status_code=400)
            finally:
                self._taken -= request.scope.pop(TAKEN, 0)
        return call

    # What is asked.

    def _asking(self, question: ServedQuestion) -> Callable[[Request], Any]:
        async def handle(request: Request) -> Any:
            if _ZONE_OR_TIME.search(request.url.query):
                raise ValueError("a + in an address stands for a space: write %2B before a zone, and T before a time of day")
            given, person = question.given(request.query_params.multi_items(), question.held), _person(request)
            is_csv = question.columns != () and wants_csv(request.headers.get("accept", ""))
            given = {**given, **({AS_CSV: True} if is_csv else {})}
            return await self._answered(lambda headers: self._parts(question, given, person, headers),
                                        CSV if is_csv else question.media, question.way, person)
        return handle

    def _parts(self, question: ServedQuestion, given: Dict[str, Any], person: Person, headers: Dict[str, str]) -> Iterator[bytes]:
        of, beside = question.versions
        with self.board.lent(given.get("session"), given.get(of), person) as session:
            headers["misteluk-version"] = str(session.version)
            if given.get(beside) is None:
                yield from question.answer(session, given)
                return
            with self.board.lent(version=given[beside]) as other:
                yield from question.answer(session, {**given, "other": other})

    async def several(self, request: Request) -> Any:
        """Several questions of one version."""
        asked, person = Several.of(await self._object(request)), _person(request)
        return await self._answered(lambda _: asked.parts(self.board, person), wire.JSON, WHOLE, person)

    async def _answered(self, parts: Callable[[Dict[str, str]], Iterator[bytes]], media: str, way: int, person: Person) -> Any:
        """An answer, whose parts add headers of their own as they begin."""
        headers = {"content-type": media, **({"content-security-policy": VIEWED} if media.startswith("text/html") else {})}
        if way == AT_ONCE and not self.board.is_busy:
            found = b"".join(parts(headers))
            return Response(found, headers=headers)
        pool = self.slow if way == WHOLE else self.quick
        with self.shares.one(person):
            flow, first, is_more = await pool.run(lambda: first_of(lambda: parts(headers)), lambda it: it[0].close())
        if not is_more:
            return Response(first, headers=headers)
        return Streamed(flow, first, headers, self.slow, self.limits)

    async def stat(self, request: Request) -> Response:
        """What the store holds; no question waits for the feed by it. With `after` it waits for a version above that one."""
        if set(request.query_params) - {AFTER.name} or len(request.query_params.multi_items()) > 1:
            raise ValueError("stat is asked with nothing, or with after")
        if request.query_params:
            after: int = AFTER.read(request.query_params[AFTER.name])
            request.scope[CALL] = "stat_after"
            await self.bell.until(lambda: self.board.stat.version > after, min(LONGEST, self.limits.time))
        stat, units, replica = self.board.stat, self.store._ledger.terms.units, self.health.replica
        told = {"server": self._run.name, "began": self._run.began, "saved": self._keeper and self._keeper.told(),
                "file": await self.quick.run(self.health.of_file), "replica": replica and replica.told(),
                "version": stat.version, "vertices": stat.vertices, "edges": stat.edges,
                "operations_kept": self.store._engine.operations_kept,
                "blocks": {"all": self.store.blocks, "grow": self.store._engine.grows, "free": stat.free, "retired": stat.retired,
                           "used": stat.used},
                "held": [it._asdict() for it in await self.quick.run(self.board.held)], "seats": self.limits.versions,
                "feed": self.feeding.told(), "limits": self.limits._asdict(),
                "units": {"weight_scale": units.scale, "times": units._settled().times, "decimals": units.decimals,
                          "rounding": units.rounding}}
        return as_json(told)

    async def log(self, request: Request) -> Response:
        """What a replica applies: the batches behind `after`, for which it waits; without that a base to begin with."""
        engine = self.store._engine
        if not isinstance(engine, Journaled):
            raise ValueError("this server's store has no file, and so no log: misteluk serve FILE")
        journaled = engine
        if AFTER.name not in request.query_params:
            return as_json(await self.slow.run(lambda: told_base(journaled)))
        after: int = AFTER.read(request.query_params[AFTER.name])
        request.scope[CALL] = "log_after"
        await self.bell.until(lambda: self.board.stat.version > after, min(LONGEST, self.limits.time))
        return as_json(await self.quick.run(lambda: told_added(journaled, after)))

    async def events(self, request: Request) -> Events:
        """Each version's counts and the vertices that its batches touched, as events sent by the server."""
        people, changes, recent = self.people, self.people.changes, self.board.recent
        known = Known.read(request.headers.get("last-event-id", ""))
        is_known = await self.quick.run(lambda: recent.is_known(known, self._run.name))
        return Events(self.bell, self.board, self._event, self.limits, lambda: bool(people.changes == changes),
                      known.version if known is not None and is_known else None)

    async def _event(self, after: Optional[int]) -> Told:
        """The event of the last version, for who knows one before it."""
        stat, rate, recent = self.board.stat, self.feeding.rate, self.board.recent
        told = {"version": stat.version, "vertices": stat.vertices, "edges": stat.edges, "rows": rate.total,
                "rows_a_second": round(rate.a_second(), 1), "expired": self.feeding.expired}
        mark, touched = await self.quick.run(lambda: (
            recent.mark_of(stat.version, self._run.name), None if after is None else recent.since(after, stat.version)))
        return Known(mark, stat.version).written(), {**told, "touched": touched}

    async def rate(self, request: Request) -> Response:
        return as_json(self.feeding.rate.told())

    async def description(self, request: Request) -> Response:
        return as_json(described())

    # For those who watch the server.

    async def healthz(self, request: Request) -> Response:
        return as_json({"status": "it answers"})

    async def readyz(self, request: Request) -> Response:
        faults = self.health.faults()
        return as_json(wire.fault("NotReady", "; ".join(faults)), 503) if faults else as_json({"status": "it is ready"})

    async def metrics(self, request: Request) -> Response:
        return Response(await self.quick.run(self.health.text), headers={"content-type": NUMBERS})

    # Sessions.

    async def hold(self, request: Request) -> Response:
        version = HELD[1].read(request.query_params["version"]) if "version" in request.query_params else None
        person = _person(request)
        lease = await self.held.run(lambda: self.board.lease(version, person), lambda it: self.board.let_go(it.name))
        log.note("held", who=person.name, version=lease.shared.version)
        return as_json(_lease(lease, self.limits), 201)

    async def sessions(self, request: Request) -> Response:
        """The sessions of who asks, and for an admin those of all."""
        found = await self.quick.run(lambda: self.board.leases(_person(request)))
        return as_json({"sessions": [it._asdict() for it in found]})

    async def keep(self, request: Request) -> Response:
        lease = await self.held.run(lambda: self.board.keep(request.path_params["session"], _person(request)))
        return as_json(_lease(lease, self.limits))

    async def let_go(self, request: Request) -> Response:
        person = _person(request)
        lease = await self.held.run(lambda: self.board.let_go(request.path_params["session"], person))
        if lease.owner.name != person.name:
            log.note("ended", who=person.name, owner=lease.owner.name, version=lease.shared.version)
        return Response(status_code=204)

    async def ask(self, request: Request) -> Any:
        """A question of a client in Python, in the engine's terms."""
        asked = await self._object(request)
        name, call = request.path_params["session"], str(asked.get("call"))
        return await self._answered(lambda _: self.answers.parts(name, asked, _person(request)), wire.COLUMNS,
                                    QUICK if call in OF_FEW else WHOLE, _person(request))

    # The feed.

    async def rows(self, request: Request) -> Response:
        """Rows of a client, in the user's terms."""
        name = request.query_params.get("feeder")
        read = FORMS.get(request.headers.get("content-type", "").partition(";")[0].strip().lower())
        if read is None:
            raise ValueError("rows are text/csv or application/json, as their Content-Type says")
        key = self._key_of(request)
        person = _person(request)
        receipt = await self.turns.answer(WaitingPost(read(await self._body(request)), name, person, key))
        log.note("posted", who=person.name, version=receipt.version)
        return as_json(vars(receipt))

    def _key_of(self, request: Request) -> Optional[str]:
        """The key by which a post is applied once. Raises `ValueError` where nothing keeps it over a restart."""
        key: Optional[str] = request.headers.get(KEY)
        if key is not None and not isinstance(self.store._engine, Journaled):
            raise ValueError(f"{KEY} is for a server whose store has a file: misteluk serve FILE")
        if key is not None and not (key.isascii() and key.isprintable() and 0 < len(key) <= LONGEST_KEY):
            raise ValueError(f"{KEY} has 1 to {LONGEST_KEY} signs of ASCII")
        return key

    async def claim(self, request: Request) -> Response:
        person = _person(request)
        feeder = await self.feed.run(lambda: self.feeding.claim(person), lambda it: self.feeding.let_go(it.name))
        return as_json({"feeder": feeder.name, "idle": self.limits.idle}, 201)

    async def leave(self, request: Request) -> Response:
        await self.feed.run(lambda: self.feeding.let_go(request.path_params["feeder"], _person(request)))
        return Response(status_code=204)

    async def batch(self, request: Request) -> Response:
        """A batch of a client in Python, in the engine's terms."""
        seat, number, given = *_batch_of(request), await self._object(request)
        text, texts, collect = given.get("operations"), given.get("texts", {}), bool(given.get("collect", True))
        if not isinstance(text, str) or not isinstance(texts, dict) or not all(isinstance(name, str) for name in texts.values()):
            raise ValueError("a batch has operations, a text, and texts by their ids")
        records, person = str(text), _person(request)
        receipt = await self.feed.run(lambda: self.feeding.batch(seat, number, records, texts, collect, person))
        log.note("posted", who=person.name, version=receipt.version)
        return as_json(vars(receipt))

    async def landed(self, request: Request) -> Response:
        seat, number = _batch_of(request)
        receipt = await self.feed.run(lambda: self.feeding.landed(seat, number, _person(request)))
        return as_json({"receipt": None if receipt is None else vars(receipt)})

    # Bodies.

    async def _body(self, request: Request) -> bytes:
        """The body; no more of it is read than may be."""
        found = bytearray()
        async with within(self.limits.time, "the request's body doesn't come"):
            async for part in request.stream():
                found.extend(part)
                if len(found) > self.limits.body:
                    raise TooLarge(f"a body has at most {self.limits.body:,} bytes")
                self._take(request, len(part))
        return bytes(found)

    def _take(self, request: Request, size: int) -> None:
        """Notes that so many bytes of a request's body came, until it is answered. Raises `Full` where all have too many."""
        if self._taken + size > BODIES * self.limits.body:
            raise Full("TooMany", "too many bodies are being read", 1)
        self._taken += size
        request.scope[TAKEN] = request.scope.get(TAKEN, 0) + size

    async def _object(self, request: Request) -> Mapping[str, Any]:
        body = await self._body(request)
        found: Any = loaded(body) if len(body) <= LITTLE else await self.bodies.run(lambda: loaded(body))
        if not isinstance(found, dict):
            raise ValueError("the body is an object of JSON")
        return found


def _lease(lease: Lease, limits: ServerLimits) -> Dict[str, Any]:
    held = lease.shared
    return {"session": lease.name, "version": held.version, "vertices": held.session.vertex_count, "idle": limits.idle}


def _person(request: Request) -> Person:
    """Who asks."""
    found: Person = request.scope[PERSON]
    return found


def _batch_of(request: Request) -> Tuple[str, int]:
    """The seat and the number of a batch."""
    return request.path_params["feeder"], BATCH.read(request.path_params["number"])


def _file(name: str, media: str) -> Callable[[Request], Any]:
    """A file of the package, which is the page or a part of it."""
    data = (style().encode("utf-8") if media == "text/css" else b"") + (pkgutil.get_data(__package__ or "", name) or b"")

    async def handle(request: Request) -> Response:
        return Response(data, headers={"content-type": media, "content-security-policy": POLICY})
    return handle


def _no_route(request: Request, fault: Exception) -> Response:
    status = getattr(fault, "status_code", 404)
    reason = "there is no such call: /openapi.json tells which there are" if status == 404 else "this call has another method"
    return as_json(wire.fault("NoCall", reason), status, getattr(fault, "headers", None))
