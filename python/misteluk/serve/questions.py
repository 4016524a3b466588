"""Questions in the user's terms, as they are asked by a URL, and their answers as JSON, written part by part."""
from __future__ import annotations

import json
from typing import Any, Callable, Dict, Iterable, Iterator, List, Mapping, NamedTuple, Optional, Sequence, Tuple

from .tables import Part, columns
from ..page.view import MOST_DRAWN, MOST_HOPS, USUAL_DRAWN, view
from ..session import Session
from ..values.answers import OF_DEGREES, Answer, Edge, Values
from ..values.diff import DIFF_HEADER, Diff
from ..values.edges import Edges
from ..values.texts import for_json

Given = Mapping[str, Any]
# How a question is answered: at once, or by threads, where one over the whole graph doesn't delay a quick one.
AT_ONCE, QUICK, WHOLE = range(3)
# The greatest number that SQLite has.
MOST_NUMBER = (1 << 63) - 1


class Parameter(NamedTuple):
    """What a question is asked with: a text, or a number from the least to the most."""

    name: str
    about: str
    is_needed: bool = False
    least: Optional[int] = None
    most: Optional[int] = None
    choices: Tuple[str, ...] = ()

    def read(self, text: str) -> Any:
        """The value; raises `ValueError` where the text is none."""
        if self.choices and text not in self.choices:
            raise ValueError(f"{self.name} is one of {', '.join(self.choices)}")
        if self.least is None:
            return text
        is_number = text.isascii() and text.isdigit() and len(text) < 20
        if not is_number or not self.least <= int(text) <= (self.most or MOST_NUMBER):
            most = "" if self.most is None else f" to {self.most:,}"
            raise ValueError(f"{self.name} is a whole number from {self.least}{most}")
        return int(text)


class ServedQuestion(NamedTuple):
    """A question: its name in the URL, what it tells, what it is asked with, and what answers it, in which way."""

    name: str
    about: str
    parameters: Tuple[Parameter, ...]
    answer: Callable[["Session[Any, Any]", Given], Iterator[bytes]]
    # The columns of its table; none where it answers otherwise.
    columns: Tuple[str, ...] = ()
    way: int = WHOLE
    media: str = "application/json"
    # Which of its parameters says the version that is asked, and which another one beside it.
    versions: Tuple[str, str] = ("version", "beside")

    @property
    def held(self) -> Sequence[Parameter]:
        """What says of which version it is asked, besides its own parameters."""
        return HELD if self.versions[0] == HELD[1].name else ()

    @property
    def is_of_two(self) -> bool:
        """Whether it may be asked of two versions."""
        return self.versions[1] in {it.name for it in self.parameters}

    def given(self, pairs: Iterable[Tuple[str, str]], held: Sequence[Parameter]) -> Dict[str, Any]:
        """What it is asked with, by texts, and of which version. Raises `ValueError` where one is none or lacks."""
        parameters = {it.name: it for it in (*self.parameters, *held)}
        found: Dict[str, Any] = {}
        for name, text in pairs:
            if name not in parameters or name in found:
                raise ValueError(f"{self.name} takes each of these once: {', '.join(parameters)}")
            found[name] = parameters[name].read(text)
        for it in self.parameters:
            if it.is_needed and not found.get(it.name):
                if it.least is None or it.name not in found:
                    raise ValueError(f"{self.name} is asked with {it.name}: {it.about}")
        return found


# What is written.

def whole(session: "Session[Any, Any]", told: Dict[str, Any]) -> Iterator[bytes]:
    """A short answer."""
    yield json.dumps({"version": session.version, **told}, default=for_json).encode("ascii") + b"\n"


def table(session: "Session[Any, Any]", found: "Answer[Any]", given: Given) -> Iterator[bytes]:
    """A table by name: all of its rows, or those with the greatest values."""
    head = {"version": session.version}
    if "top" in given:
        rows = found.top(given["top"], given.get("by"))
        fields = list(found.columns)
        cells = [vars(it).values() if len(fields) > 1 else (it,) for _, it in rows]
        values: List[Any] = [list(it) for it in zip(*cells)] or [[]] * len(fields)
        told = {"name": [name for name, _ in rows], **dict(zip(fields, values))}
        return columns(head, len(rows), {name: _rows(it) for name, it in told.items()}, given)
    parts = {"name": _rows(found.names), **{name: _values(it) for name, it in found.columns.items()}}
    return columns(head, len(found), parts, given)


def _rows(rows: Sequence[Any]) -> Part:
    return lambda first, end: rows[first:end]


def _values(it: Values) -> Part:
    return lambda first, end: it.values[first:end] if it.told is None else it.told(it.values[first:end])


def edges_parts(found: Edges[Any, Any]) -> Dict[str, Part]:
    """The columns of edges."""
    kinds, names, units = found.kinds, found.names, found.units
    return {"kind": lambda a, b: list(map(kinds.__getitem__, found.kind[a:b])),
            "source": lambda a, b: list(map(names.__getitem__, found.source[a:b])),
            "target": lambda a, b: list(map(names.__getitem__, found.target[a:b])),
            "weight": lambda a, b: units._all_weights_to_user(found.weight[a:b]),
            "first": lambda a, b: units._all_times_to_user(found.first[a:b]),
            "recent": lambda a, b: units._all_times_to_user(found.recent[a:b])}


def _below(parts: Sequence[Tuple[int, Optional[Part]]]) -> Part:
    """Columns of so many rows each as one, below one another; where there is none the rows have nothing."""
    def rows(first: int, end: int) -> List[Any]:
        found: List[Any] = []
        for count, part in parts:
            begin, stop = max(first, 0), min(end, count)
            if begin < stop:
                found += [None] * (stop - begin) if part is None else part(begin, stop)
            first, end = first - count, end - count
        return found
    return rows


def difference(session: "Session[Any, Any]", found: Diff[Any, Any], earlier: int, given: Given) -> Iterator[bytes]:
    """The edges that are gone, new and changed, in this order, as they were and as they are."""
    counts = found.counts()
    gone, new, before, after = map(edges_parts, (found.gone, found.new, found.before, found.after))
    states = [state for state, count in counts.items() for _ in range(count)]
    parts: Dict[str, Part] = {"state": _rows(states)}
    ends, sizes = ("kind", "source", "target"), tuple(counts.values())
    parts.update((it, _below(list(zip(sizes, (gone[it], new[it], before[it]))))) for it in ends)
    parts.update((f"{it}_before", _below(list(zip(sizes, (gone[it], None, before[it]))))) for it in Edge._fields)
    parts.update((f"{it}_after", _below(list(zip(sizes, (None, new[it], after[it]))))) for it in Edge._fields)
    return columns({"version": session.version, "from": earlier, **counts}, sum(sizes), parts, given)


def edges(session: "Session[Any, Any]", found: Edges[Any, Any], given: Given) -> Iterator[bytes]:
    """Edges: all of them, or those with the greatest weights."""
    if "top" in given:
        rows = found.top(given["top"])
        told = dict(zip(("kind", "source", "target", *Edge._fields), zip(*((*ends, *edge) for *ends, edge in rows))))
        parts = {it: _rows(told.get(it, ())) for it in edges_parts(found)}
        return columns({"version": session.version}, len(rows), parts, given)
    return columns({"version": session.version}, len(found), edges_parts(found), given)


# What is asked.

def _scope(given: Given) -> Dict[str, Any]:
    return {it: given[it] for it in ("kind", "since", "until") if it in given}


def _table(name: str) -> Callable[["Session[Any, Any]", Given], Iterator[bytes]]:
    return lambda session, given: table(session, getattr(session, name)(**_scope(given)), given)


def _levels(session: "Session[Any, Any]", given: Given) -> Iterator[bytes]:
    return table(session, session.levels(given["source"], **_scope(given)), given)


def _neighborhood(session: "Session[Any, Any]", given: Given) -> Iterator[bytes]:
    is_directed = given.get("directed", "true") == "true"
    return table(session, session.neighborhood(given["vertex"], given["hops"], **_scope(given), directed=is_directed), given)


def _edge(session: "Session[Any, Any]", given: Given) -> Iterator[bytes]:
    found = session.edge(given["kind"], given["source"], given["target"])
    return whole(session, {"edge": None if found is None else found._asdict()})


def _edges(session: "Session[Any, Any]", given: Given) -> Iterator[bytes]:
    return edges(session, session.edges(**_scope(given)), given)


def _out_edges(session: "Session[Any, Any]", given: Given) -> Iterator[bytes]:
    return edges(session, session.out_edges(given["source"], **_scope(given)), given)


def _in_edges(session: "Session[Any, Any]", given: Given) -> Iterator[bytes]:
    return edges(session, session.in_edges(given["target"], **_scope(given)), given)


def _diff(session: "Session[Any, Any]", given: Given) -> Iterator[bytes]:
    other: "Session[Any, Any]" = given["other"]
    return difference(session, other.diff(session, **_scope(given)), other.version, given)


def _path(session: "Session[Any, Any]", given: Given) -> Iterator[bytes]:
    return whole(session, {"path": session.path(given["source"], given["target"], **_scope(given))})


def _names(session: "Session[Any, Any]", given: Given) -> Iterator[bytes]:
    """Names that have a text, those that begin with it first."""
    text = given.get("like", "").casefold()
    all_names = session.store._ledger.terms.names.all_to_user(session._held.names())
    found = [it for it in all_names if text in it.casefold()]
    found.sort(key=lambda it: (not it.casefold().startswith(text), len(it)))
    names = found[:given.get("top", 20)]
    return columns({"version": session.version, "found": len(found)}, len(names), {"name": _rows(names)}, given)


def _view(session: "Session[Any, Any]", given: Given) -> Iterator[bytes]:
    made = view(session, given["around"], given.get("hops", 2), given.get("other"), **_scope(given),
                most=given.get("most", USUAL_DRAWN))
    yield made.html.encode("utf-8")


HELD = (Parameter("session", "the session whose version is asked; else the last version, or that of `version`"),
        Parameter("version", "a version that is held, by its number", least=0))
SCOPE = (Parameter("kind", "edges of this kind; else of any"),
         Parameter("since", "edges with a recent time from this on"), Parameter("until", "and up to this"))
TOP = (Parameter("top", "the rows with the greatest values alone, so many", least=0, most=100_000),)
BY = (Parameter("by", "by which column the greatest are", choices=OF_DEGREES),)
VERTEX, SOURCE, TARGET, AROUND = (Parameter(it, "a vertex's name", True) for it in ("vertex", "source", "target", "around"))
DIRECTED = Parameter("directed", "along edges alone, or either way", choices=("true", "false"))
HOPS = Parameter("hops", "how many steps away", True, 0, 1_000)

OF_EDGES, OF_LEVELS = ("kind", "source", "target", *Edge._fields), ("name", "level")

QUESTIONS = (
    ServedQuestion("edge", "one edge, or null", (Parameter("kind", "a kind", True), SOURCE, TARGET), _edge, way=AT_ONCE),
    ServedQuestion("out_edges", "the edges that go out of a vertex", (SOURCE, *SCOPE, *TOP), _out_edges, OF_EDGES, QUICK),
    ServedQuestion("in_edges", "the edges that come into a vertex", (TARGET, *SCOPE, *TOP), _in_edges, OF_EDGES),
    ServedQuestion("edges", "all edges", (*SCOPE, *TOP), _edges, OF_EDGES),
    ServedQuestion("levels", "how many steps each vertex is from a source that is reached from it",
                   (SOURCE, *SCOPE, *TOP), _levels, OF_LEVELS),
    ServedQuestion("neighborhood", "the vertices within so many steps", (VERTEX, HOPS, DIRECTED, *SCOPE, *TOP), _neighborhood,
                   OF_LEVELS),
    ServedQuestion("path", "a shortest walk as its names, or null", (SOURCE, TARGET, *SCOPE), _path),
    ServedQuestion("degrees", "how many edges go out of each vertex and come in, and the weight that goes out",
                   (*SCOPE, *TOP, *BY), _table("degrees"), ("name", *OF_DEGREES)),
    ServedQuestion("weights_in", "the weight that comes into each vertex", (*SCOPE, *TOP), _table("weights_in"),
                   ("name", "weight_in")),
    ServedQuestion("components", "a label for each vertex, the same for those that edges join", SCOPE, _table("components"),
                   ("name", "label")),
    ServedQuestion("cores", "each vertex's core number", (*SCOPE, *TOP), _table("cores"), ("name", "core")),
    ServedQuestion("diff", "the edges that are gone, new and changed from one held version to another",
                   (Parameter("from", "the earlier version's number", True, 0),
                    Parameter("to", "the later one's; else it is the last version", least=0), *SCOPE), _diff, tuple(DIFF_HEADER),
                   versions=("to", "from")),
    ServedQuestion("names", "names of vertices that have a text", (Parameter("like", "a part of a name"), *TOP), _names,
                   ("name",)),
    ServedQuestion("view", "a page of a vertex's neighborhood, beside that of another version where one is said",
                   (AROUND, HOPS._replace(is_needed=False, most=MOST_HOPS),
                    Parameter("beside", "a version that is held", least=0),
                    Parameter("most", "how many vertices are drawn", least=1, most=MOST_DRAWN), *SCOPE), _view,
                   media="text/html; charset=utf-8"),
)
