"""The description of a server's calls, as OpenAPI has it: made of the questions themselves."""
from __future__ import annotations

from typing import Any, Dict, NamedTuple, Optional

from . import schemas
from .questions import HELD, QUESTIONS, Parameter, ServedQuestion
from .schemas import Schema
from ..version import VERSION

# What each fault is told for, by its status.
FAULTS = {400: "it isn't asked so", 401: "the token is wrong or lacks", 403: "it is for those with another role",
          404: "the version has no such vertex or kind",
          405: "the call has another method", 409: "another feeds, or there is no room", 410: "the session's version was let go",
          413: "it is too long",
          503: "no seat, or too many ask; `Retry-After` has seconds"}
class Call(NamedTuple):
    """What a call does, the form of its answer, its media type and status, and the role of those who may ask it."""

    about: str
    answer: Optional[Schema] = None
    role: str = "read"
    status: int = 200
    media: str = "application/json"


DONE = 204
# What stat waits for.
AFTER = Parameter("after", "a version's number, above which the last one is awaited for 25 s at most", least=0)
# Calls beside the questions, which those with the role read may ask.
CALLS: Dict[str, Dict[str, Call]] = {
    "/v1/stat": {"GET": Call("what the store holds, who holds which version, how fast it is fed, and which rows weren't taken; "
                             "with `after` as soon as there is a version above that one", schemas.STAT)},
    "/v1/events": {"GET": Call("each version, as events of these data; a reader that comes again says its Last-Event-ID. "
                               "`touched` has the vertices that the batches' rows named since the version that it knows, or of "
                               "more than 1,000 how many; null where that isn't known",
                               schemas.EVENT, media="text/event-stream")},
    "/v1/rate": {"GET": Call("how many rows came in within each `step` seconds of the last hour", schemas.RATE)},
    "/v1/log": {"GET": Call("what a replica applies: the batches behind `after`, as soon as there are some; without that the "
                            "base to begin with", schemas.LOG, "admin")},
    "/v1/ask": {"POST": Call("several questions of one version, a hundred at most", schemas.SEVERAL)},
    "/v1/sessions": {"POST": Call("holds the last version, or `version`, until the session is let go or silent too long",
                                  schemas.SESSION, status=201),
                     "GET": Call("the sessions of who asks; of all for an admin", schemas.SESSIONS)},
    "/v1/sessions/{session}": {"PUT": Call("says that the session is in use", schemas.SESSION),
                               "DELETE": Call("lets its version go; an admin may end another's", status=DONE)},
    "/v1/sessions/{session}/ask": {"POST": Call("a question of the client in Python, whose answer is columns of bytes",
                                                schemas.TEXT, media="application/octet-stream")},
    "/v1/rows": {"POST": Call("applies rows, a million at most: text/csv or JSON, each an operation (insert, add, remove, "
                              "expire) and its fields", schemas.RECEIPT, "feed")},
    "/v1/feeder": {"POST": Call("takes the seat of the one that feeds the store; 409 where another has it",
                                schemas.of({"feeder": schemas.TEXT, "idle": schemas.NUMBER}), "feed", 201)},
    "/v1/feeder/{feeder}": {"DELETE": Call("gives that seat back", None, "feed", DONE)},
    "/v1/feeder/{feeder}/batches/{number}": {
        "POST": Call("a batch of the client in Python, applied once for each number", schemas.RECEIPT, "feed"),
        "DELETE": Call("what that batch did; it can't come any more",
                       schemas.of({"receipt": schemas.or_null(schemas.RECEIPT)}), "feed")},
    "/openapi.json": {"GET": Call("this description", {"type": "object"}, "none")},
    "/metrics": {"GET": Call("the server's numbers, in the text form of Prometheus", schemas.TEXT, media="text/plain")},
    "/readyz": {"GET": Call("whether it may be asked; 503 when the feed failed, a save is late, or a file is read at first",
                            schemas.STATUS, "none")},
    "/healthz": {"GET": Call("whether it answers", schemas.STATUS, "none")},
}
OF_ROWS = {"text/csv": {"schema": {"type": "string"}, "example": "add,transfer,ana,bob,5,1\n"},
           "application/json": {"schema": {"type": "object"}, "example": {"rows": [["add", "transfer", "ana", "bob", 5, 1]]}}}


def _parameter(it: Parameter, place: str = "query") -> Dict[str, Any]:
    schema: Dict[str, Any] = {"type": "string" if it.least is None else "integer"}
    for name, value in (("minimum", it.least), ("maximum", it.most), ("enum", list(it.choices) or None)):
        if value is not None:
            schema[name] = value
    return {"name": it.name, "in": place, "required": it.is_needed, "description": it.about, "schema": schema}


def _faults() -> Dict[str, Any]:
    content = {"application/json": {"schema": schemas.FAULT}}
    return {str(status): {"description": text, "content": content} for status, text in FAULTS.items()}


def _question(it: ServedQuestion) -> Dict[str, Any]:
    media, *_ = it.media.partition(";")
    schema = schemas.table(it.columns, **schemas.BESIDE.get(it.name, {})) if it.columns else schemas.ANSWERS[it.name]
    content = {media: {"schema": schema}}
    if it.columns:
        content["text/csv"] = {"schema": schemas.TEXT}
    version = {"misteluk-version": {"schema": schemas.WHOLE, "description": "the version that was asked"}}
    answer = {"description": it.about, "headers": version, "content": content}
    return {"get": {"summary": it.about, "x-role": "read", "operationId": it.name,
                    "parameters": list(map(_parameter, (*it.parameters, *it.held))), "responses": {"200": answer, **_faults()}}}


# What calls are asked with in their addresses, and their bodies.
ASKED = {"POST /v1/sessions": HELD[1], "POST /v1/rows": Parameter("feeder", "the seat of the one that feeds, where it was taken"),
         "GET /v1/stat": AFTER, "GET /v1/log": AFTER}
KEYED = ("POST /v1/rows",)
_OBJECT = {"application/json": {"schema": {"type": "object"}}}
BODIES = {"POST /v1/rows": OF_ROWS, "POST /v1/sessions/{session}/ask": _OBJECT,
          "POST /v1/feeder/{feeder}/batches/{number}": _OBJECT,
          "POST /v1/ask": {"application/json": {
              "schema": {"type": "object"},
              "example": {"questions": [{"question": "levels", "source": "ana"}, {"question": "degrees", "top": 5}]}}}}


def _call(path: str, method: str, call: Call) -> Dict[str, Any]:
    name, named = f"{method} {path}", [part[1:-1] for part in path.split("/") if part.startswith("{")]
    answer: Dict[str, Any] = {"description": call.about}
    if call.answer is not None:
        answer["content"] = {call.media: {"schema": call.answer}}
    told: Dict[str, Any] = {"summary": call.about, "x-role": call.role,
                            "parameters": [_parameter(Parameter(it, it, True), "path") for it in named],
                            "responses": {str(call.status): answer, **_faults()}}
    if name in BODIES:
        told["requestBody"] = {"required": True, "content": BODIES[name]}
    if name in ASKED:
        told["parameters"].append(_parameter(ASKED[name]))
    if name in KEYED:
        told["parameters"].append(_parameter(Parameter("Idempotency-Key", "a repeat with the same key gets the first answer, "
                                                       "also after a restart; for a server whose store has a file"), "header"))
    return told


def described() -> Dict[str, Any]:
    """The description of each call."""
    paths: Dict[str, Any] = {f"/v1/{it.name}": _question(it) for it in QUESTIONS}
    for path, methods in CALLS.items():
        paths[path] = {method.lower(): _call(path, method, call) for method, call in methods.items()}
    return {"openapi": "3.0.3",
            "info": {"title": "Misteluk", "version": VERSION,
                     "description": "One live graph, one feed, many analysts. Each answer names its version."},
            "components": {"securitySchemes": {"token": {"type": "http", "scheme": "bearer"}}},
            "security": [{"token": []}, {}], "paths": paths}
