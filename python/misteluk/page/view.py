"""A view: the neighborhood of a vertex in one held version, or in two beside each other, as a page of its own."""
from __future__ import annotations

from html import escape
from typing import TYPE_CHECKING, Any, Dict, Optional, Tuple

from ..values import records
from ..values.limits import within
from ..files import whole_text
from ..options import _named
from ..values.texts import Path
from ..values.names import shown
from .neighborhood import Neighborhood, Window, gather
from .page import Page, counted
from ..values.units import Moment

if TYPE_CHECKING:
    from ..session import Session

# How many vertices are drawn where nothing is said, and how many can be.
USUAL_DRAWN, MOST_DRAWN, MOST_HOPS = 150, 300, 16
# How high a notebook shows a page, in pixels.
FRAME_HEIGHT = 820


class View:
    """An HTML page with the neighborhood of a vertex, made by `view`; a notebook shows it, and `html` is its text.

    >>> page = view(session, around="kassel")
    >>> page
    <View of kassel, 2 hops, version 1: 4 vertices; 4 edges>

    `neighborhood` has what the versions answered."""

    def __init__(self, neighborhood: Neighborhood, title: Optional[str] = None) -> None:
        self.neighborhood = neighborhood
        self.html = Page(neighborhood, title).text()

    def counts(self) -> Dict[str, int]:
        """Returns how many edges are gone, new, changed and kept.

        >>> page.counts()
        {'gone': 0, 'new': 0, 'changed': 0, 'kept': 4}
        """
        return self.neighborhood.counts()

    def save(self, path: Path) -> None:
        """Writes the page to a file, whole or not at all.

        >>> page.save("kassel.html")
        """
        with whole_text(path) as file:
            file.write(self.html)

    def _repr_html_(self) -> str:
        """What a notebook shows: the page in a frame of its own, so that neither's styles and scripts reach the other."""
        return (f'<iframe srcdoc="{escape(self.html)}" sandbox="allow-scripts" loading="lazy" style="width: 100%; '
                f'height: {FRAME_HEIGHT}px; border: 0" title="{escape(repr(self))}"></iframe>')

    def __str__(self) -> str:
        it = self.neighborhood
        sides = " beside ".join(side.label for side in it.sides)
        counts = it.counts()
        edges = (", ".join(f"{count:,} {state}" for state, count in counts.items()) + " edges" if len(it.sides) > 1 else
                 counted(sum(counts.values()), "edge"))
        part = f" among the nearest {len(it.names):,}" if len(it.names) < it.found else ""
        return f"{shown(it.around)}, {counted(it.hops, 'hop')}, {sides}: {counted(it.found, 'vertex')}; {edges}{part}"

    def __repr__(self) -> str:
        return f"<View of {self}>"


@_named
def view(session: Session[Any, Any], around: str, hops: int = 2, beside: Optional[Session[Any, Any]] = None, *,
         kind: Optional[str] = None, since: Moment = 0, until: Moment = records.MOST_TIME, most: int = USUAL_DRAWN,
         title: Optional[str] = None, labels: Optional[Tuple[str, str]] = None) -> View:
    """Returns a page with the vertices within `hops` edges of a vertex, direction ignored, and with the edges among them.

    >>> view(session, around="bonn", hops=1)
    <View of bonn, 1 hop, version 1: 2 vertices; 1 edge>

    With `beside`, another session, it shows which edges are gone and which are new. The earlier version of one store comes first;
    of two stores, whose units must be the same, `session` does. `kind`, `since` and `until` choose the edges, as in a request of
    `Session`. `title` is the page's, and `labels` are the names of the two versions there.

    `hops` is 1 to 16. At most `most` vertices, 1 to 300, are drawn: the nearest, and among these in turn one with an edge gone,
    with a new one, with a changed one and with none of them, of each the heaviest. At most 1,000 edges are drawn: first those
    that aren't kept, then the nearest, and of these the heaviest. The tables have at most 1,000 vertices and 2,000 edges, and
    among the farthest vertices 20,000 edges are shown. A search through hubs stops at 20,000 edges. The page says where there are
    more.

    Each edge shown was asked of its version. Raises `NoVertex` if no version has the vertex."""
    within("hops", hops, 1, MOST_HOPS)
    within("most", most, 1, MOST_DRAWN)
    sessions = [session] if beside is None else [session, beside]
    named = list(labels or [f"version {it.version}" for it in sessions])[:len(sessions)]
    if beside is not None:
        session._must_show_as(beside)
        if session.store is beside.store and beside.version < session.version:
            sessions, named = sessions[::-1], named[::-1]
    return View(gather(sessions, named, around, hops, Window(kind, since, until), most), title)
