"""What became of edges between the versions of two sessions."""
from __future__ import annotations

from typing import TYPE_CHECKING, Any, Optional

from .engine.interface import CHANGED, GONE, NEW
from .engine.protocol import Arrays, Denied
from .errors import NoKind
from .values.answers import T, W
from .values.diff import Diff
from .values.edges import Edges
from .values.units import Moment

if TYPE_CHECKING:
    from .session import Session


def between(earlier: Session[W, T], later: Session[Any, Any], kind: Optional[str], since: Moment, until: Moment) -> Diff[W, T]:
    """What became of one session's edges in another's version, whichever stores hold them."""
    found = _at_once(earlier, later, kind, since, until) if later.store is earlier.store else None
    return Diff(*(edges_or_none(it, kind, since, until) for it in (earlier, later))) if found is None else found


def _at_once(earlier: Session[W, T], later: Session[W, T], kind: Optional[str], since: Moment,
             until: Moment) -> Optional[Diff[W, T]]:
    """The same where the engine tells it, which reads no row that no batch has touched since the earlier version."""
    scope = [it._scope("edges", kind, since, until)[0] for it in (earlier, later)][0]
    try:
        found = earlier._held.differences(later._held, scope)
    except Denied:  # (neither version has the kind)
        return None
    if found is None:
        return None
    gone, new, changed = map(found.of, (GONE, NEW, CHANGED))
    return Diff._of(earlier._edges(found.before.at(gone)), later._edges(found.after.at(new)),
                    earlier._edges(found.before.at(changed)), later._edges(found.after.at(changed)))


def edges_or_none(session: Session[W, T], kind: Optional[str], since: Moment, until: Moment) -> Edges[W, T]:
    """All edges; none of a kind that the version doesn't have."""
    try:
        return session.edges(kind, since, until)
    except NoKind:
        return session._edges(Arrays.none())
