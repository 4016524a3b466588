"""Questions that a command line asks of a session, and their answers as lines and for JSON."""
from __future__ import annotations

import shlex
from collections import Counter
from typing import Any, Dict, Iterator, List, NamedTuple, Optional, Tuple

from ..values.answers import Edge, Neighbor
from ..errors import NoKind, NoVertex
from ..values.names import shown
from ..session import Session

# How many names each question has, a kind behind them aside; the kind of an edge stands before them.
NAMES = {"degrees": 0, "weights_in": 0, "components": 0, "cores": 0, "edges": 0, "levels": 1, "predecessors": 1,
         "successors": 1, "neighbors": 1, "neighborhood": 2, "path": 2, "edge": 3}
FORMS = {0: "[KIND]", 1: "NAME [KIND]", 2: "SOURCE TARGET [KIND]", 3: "KIND SOURCE TARGET"}
OF_NEIGHBORHOOD = "NAME HOPS [KIND]"
# The value of a table of one; the others have several, and are sorted by one of these.
VALUES = {"cores": "core", "weights_in": "weight_in"}


class Question(NamedTuple):
    """What is asked, and how it's told of: a table, levels from a name, a path, an edge, or those beside a name; of a kind, or of
    any."""

    text: str
    what: str
    names: Tuple[str, ...] = ()
    kind: Optional[str] = None

    def asked(self, session: Session[Any, Any], top: int, column: str, window: Dict[str, Any]) -> Dict[str, Any]:
        """The answer, with at most `top` rows of a table; what went wrong where the version has no such name or kind."""
        try:
            return _ANSWERS[self.what](self, session, top, column, window)
        except (NoKind, NoVertex) as fault:
            return {"error": fault.word, "reason": "there is no such " + ("kind" if isinstance(fault, NoKind) else "name")}


def question(text: str) -> Question:
    """A question as it is typed: `degrees`, `degrees transfer`, `levels ana`, `edge transfer ana bob`; what has spaces stands
    within quotes. Raises `ValueError` for another text."""
    try:
        what, *words = shlex.split(text) or [""]
    except ValueError:
        raise ValueError(f"a quote isn't closed in {text!r}: a name with one stands within quotes of another sort") from None
    if what not in NAMES:
        raise ValueError(f"a question is one of {', '.join(NAMES)}, and not {what!r}")
    count = NAMES[what]
    is_right = count <= len(words) <= count + (what != "edge")
    if not is_right or what == "neighborhood" and not words[1].isdecimal():
        form = OF_NEIGHBORHOOD if what == "neighborhood" else FORMS[count]
        spaces = ". A name with spaces stands within quotes" if len(words) > count > 0 else ""
        raise ValueError(f"{what} is asked as `{what} {form}`, and not as {text!r}{spaces}")
    kind = words[count] if len(words) > count else None
    return Question(text, what, tuple(words[:count]), kind)


def _window(it: Question, window: Dict[str, Any]) -> Dict[str, Any]:
    """The window of a question, with its kind where it has one."""
    return {**window, "kind": it.kind} if it.kind else window


def _table(it: Question, session: Session[Any, Any], top: int, column: str, window: Dict[str, Any]) -> Dict[str, Any]:
    table: Any = getattr(session, it.what)(**_window(it, window))
    value = VALUES.get(it.what)
    rows = [{"name": name, **({value: found} if value else vars(found))}
            for name, found in table.top(top, None if value else column)]
    told: Dict[str, Any] = {"greatest": max(table.values(), default=0)} if value else {"by": column}
    return {"vertices": len(table), **told, "top": rows}


def _components(it: Question, session: Session[Any, Any], top: int, _: str, window: Dict[str, Any]) -> Dict[str, Any]:
    labels = session.components(**_window(it, window))
    most = [{"name": name, "size": size} for name, size in labels.top(top)]
    return {"components": len(labels.sizes()), "vertices": len(labels), "top": most}


def _levels(it: Question, session: Session[Any, Any], _: int, __: str, window: Dict[str, Any]) -> Dict[str, Any]:
    levels = session.levels(it.names[0], **_window(it, window))
    counts = Counter(levels.values())
    return {"reached": len(levels), "levels": [counts[level] for level in range(max(counts) + 1)]}


def _beside(it: Question, session: Session[Any, Any], top: int, _: str, window: Dict[str, Any]) -> Dict[str, Any]:
    edges: Dict[str, Edge[Any, Any]] = getattr(session, it.what)(it.names[0], **_window(it, window))
    weights: Dict[str, Any] = {name: edge.weight for name, edge in edges.items()}
    most = sorted(weights, key=weights.__getitem__, reverse=True)[:top]
    return {"edges": len(edges), "top": [{"name": name, **edges[name]._asdict()} for name in most]}


def _weight_either_way(row: Tuple[str, Neighbor[Any, Any]]) -> Any:
    return sum(edge.weight for edge in (row[1].out, row[1].into) if edge)


def _path(it: Question, session: Session[Any, Any], _: int, __: str, window: Dict[str, Any]) -> Dict[str, Any]:
    source, target = it.names
    return {"path": session.path(source, target, **_window(it, window))}


def _edge(it: Question, session: Session[Any, Any], _: int, __: str, ___: Dict[str, Any]) -> Dict[str, Any]:
    kind, source, target = it.names
    edge = session.edge(kind, source, target)
    return {"edge": None if edge is None else edge._asdict()}


def _neighbors(it: Question, session: Session[Any, Any], top: int, _: str, window: Dict[str, Any]) -> Dict[str, Any]:
    """The neighbors with the most weight either way first."""
    found = session.neighbors(it.names[0], **_window(it, window))
    most = sorted(found.items(), key=_weight_either_way, reverse=True)[:top]
    return {"neighbors": len(found), "top": [{"name": name, **{way: None if edge is None else edge._asdict() for way, edge in
                                                                 vars(both).items()}} for name, both in most]}


def _neighborhood(it: Question, session: Session[Any, Any], top: int, _: str, window: Dict[str, Any]) -> Dict[str, Any]:
    """The vertices that are reached, the nearest first."""
    found = session.neighborhood(it.names[0], int(it.names[1]), **_window(it, window))
    nearest = sorted(found.items(), key=lambda row: row[1])[:top]
    return {"reached": len(found), "top": [{"name": name, "level": level} for name, level in nearest]}


def _edges(it: Question, session: Session[Any, Any], top: int, _: str, window: Dict[str, Any]) -> Dict[str, Any]:
    """The edges with the greatest weights."""
    found = session.edges(**_window(it, window))
    rows = [{"kind": kind, "source": source, "target": target, **edge._asdict()} for kind, source, target, edge in found.top(top)]
    return {"edges": len(found), "top": rows}


_ANSWERS = {"degrees": _table, "weights_in": _table, "cores": _table, "components": _components, "levels": _levels,
            "predecessors": _beside, "successors": _beside, "neighbors": _neighbors, "neighborhood": _neighborhood,
            "edges": _edges, "path": _path, "edge": _edge}


def lines(asked: Question, found: Dict[str, Any], top: int) -> Iterator[str]:
    """The answer as lines for a terminal: a head, and rows behind it."""
    if "error" in found:
        yield f"{asked.text}: {found['reason']} in this version"
    elif "levels" in found:
        yield f"{asked.text}: {found['reached']} reached, the farthest at {len(found['levels']) - 1}"
        yield from (f"  {level}: {count}" for level, count in enumerate(found["levels"][:top]))
    elif "path" in found:
        walk: Optional[List[str]] = found["path"]
        yield f"{asked.text}: " + (f"{len(walk) - 1} step{'s' * (len(walk) != 2)}" if walk else "none")
        yield from (f"  {shown(it)}" for it in walk or ())
    elif "edge" in found:
        yield f"{asked.text}: {_told_edge(found['edge'])}"
    else:
        yield f"{asked.text}: {_head(found)}"
        yield from (f"  {_name(it)} {_row(it)}" for it in found["top"])


def _told_edge(edge: Optional[Dict[str, Any]]) -> str:
    return f"weight {edge['weight']} first {edge['first']} recent {edge['recent']}" if edge else "none"


def _name(row: Dict[str, Any]) -> str:
    """What a row is of: a name, or an edge by its kind, source and target."""
    return shown(row["name"]) if "name" in row else " ".join(shown(row[it]) for it in ("kind", "source", "target"))


def _head(found: Dict[str, Any]) -> str:
    if "components" in found:
        return f"{found['components']} of {found['vertices']} names"
    if "neighbors" in found:
        return f"{found['neighbors']} neighbor{'s' * (found['neighbors'] != 1)}"
    if "reached" in found:
        return f"{found['reached']} reached"
    if "edges" in found:
        return f"{found['edges']} edge{'s' * (found['edges'] != 1)}"
    how = f"greatest by {found['by']}" if "by" in found else f"greatest {found['greatest']}"
    return f"{found['vertices']} names, {how}"


def _row(row: Dict[str, Any]) -> str:
    if "weight_out" not in row and "into" in row:
        return f"out {_told_edge(row['out'])}, in {_told_edge(row['into'])}"
    if "into" in row:
        return f"out {row['out']} in {row['into']} weight {row['weight_out']}"
    if "recent" in row:
        return _told_edge(row)
    return str(next(row[it] for it in (*VALUES.values(), "level", "size") if it in row))


def all_lines(asked: Question, session: Session[Any, Any], top: int, column: str, window: Dict[str, Any]) -> List[str]:
    """The lines of an answer, where each name and kind has to be there."""
    return list(lines(asked, _ANSWERS[asked.what](asked, session, top, column, window), top))
