"""What a server answered, beside what its description says of it: the parts of a schema that such a description has."""
from __future__ import annotations

import json
import re
from functools import lru_cache
from typing import Any, Dict, Iterator, Mapping, Optional, Tuple

TYPES = {"object": (dict,), "array": (list,), "string": (str,), "integer": (int,), "number": (int, float), "boolean": (bool,)}
KNOWN = {"type", "required", "properties", "additionalProperties", "items", "nullable", "minimum", "maximum", "enum", "oneOf"}


def faults(value: Any, schema: Mapping[str, Any], place: str = "it") -> Iterator[str]:
    """Where a value isn't as the schema says."""
    if set(schema) - KNOWN:
        yield f"{place}: this test doesn't know {sorted(set(schema) - KNOWN)}"
    if value is None and schema.get("nullable"):
        return
    if "oneOf" in schema:
        fitting = [it for it in schema["oneOf"] if not list(faults(value, it))]
        if len(fitting) != 1:
            yield f"{place}: {value!r} is as {len(fitting)} of the forms say"
        return
    kind = schema.get("type", "object")
    if not isinstance(value, TYPES[kind]) or isinstance(value, bool) and kind != "boolean":
        yield f"{place}: {value!r} is no {kind}"
        return
    if value not in schema.get("enum", [value]) or kind in ("integer", "number") and value < schema.get("minimum", value):
        yield f"{place}: {value!r} is out of range"
    if kind == "array":
        for at, it in enumerate(value[:200]):
            yield from faults(it, schema.get("items", {}), f"{place}[{at}]")
    if kind == "object":
        yield from _of_object(value, schema, place)


def _of_object(value: Dict[str, Any], schema: Mapping[str, Any], place: str) -> Iterator[str]:
    known = schema.get("properties", {})
    yield from (f"{place}: no {it}" for it in schema.get("required", ()) if it not in value)
    for name, it in value.items():
        if name in known:
            yield from faults(it, known[name], f"{place}.{name}")
        elif schema.get("additionalProperties") is False:
            yield f"{place}: {name} isn't described"


@lru_cache(1)
def _description() -> Any:
    from misteluk.serve.openapi import described
    return json.loads(json.dumps(described()))


def call_of(path: str) -> "Optional[Tuple[str, Any]]":
    """The described path that a request's is."""
    plain = path.partition("?")[0]
    for it, methods in _description()["paths"].items():
        if re.fullmatch(re.sub(r"\\\{\w+\\\}", "[^/]+", re.escape(it)), plain):
            return it, methods
    return None


def wrong(method: str, path: str, status: int, media: str, body: bytes) -> "list[str]":
    """What an answer has that its description doesn't say; nothing where its call isn't described."""
    found = call_of(path)
    call = None if found is None else found[1].get(method.lower())
    if call is None:
        return []
    told = call["responses"].get(str(status))
    if told is None:
        return [f"{method} {path}: the status {status} isn't described"]
    content = told.get("content", {})
    plain = media.partition(";")[0]
    if not body and not content:
        return []
    if plain not in content:
        return [f"{method} {path}: {status} has {plain}, and {list(content)} are described"]
    if plain != "application/json":
        return []
    return [f"{method} {path}: {it}" for it in faults(json.loads(body), content[plain]["schema"])]
