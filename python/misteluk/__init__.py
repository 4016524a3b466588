"""Misteluk from Python: a graph that changes by batches, and sessions that hold its versions.

>>> from misteluk import Store
>>> with Store() as store:
...     store.insert("road", "hamburg", "kassel", 12, time=100)
...     done = store.commit()
...     print(store.open().levels("hamburg"))
{'hamburg': 0, 'kassel': 1}

Where a task begins (`help(misteluk.Store.load)` has more, and so on):

- Fill a store: `Store.load` takes a file, a pandas DataFrame, a graph or rows, of which `Columns` says the columns;
  `Store.follow` takes a file that grows, and has alerts (`on=`). `insert`, `add`, `remove` and `expire` are applied by
  `Store.commit`.
- Amounts with cents, and dates: `Store(units=Units(weight_scale=100, times="iso"))`. Without units both are whole numbers.
- Ask: `Store.open` returns a `Session`, with `degrees`, `weights_in`, `out_edges`, `in_edges`, `neighborhood`, `path`,
  `components` and others. Each answer has `to_pandas`; tables and edges have `top`; `Edges` have `to_networkx` too.
  `LiveComponents` goes on with a feed.
- Compare two versions: `Session.diff`, `Session.flows`. Draw them: `view`, which makes a page.
- Keep: `Store("graph.db")` writes each commit to a file, and `Store.at` reads an earlier version of it. `Session.save` writes one
  version, and `Store.restore` reads it.
- Serve: `python -m misteluk serve --help` in a shell. Other processes ask by `connect` or `AsyncSession`, and `ServedStore.stat`
  waits for a later version.
- Errors: those below, and the others in `misteluk.errors`.

Python's standard library is enough; numpy, pandas, networkx and tqdm are used if they are installed. Examples of calls go on from
that of `Session`.
"""
import importlib
from typing import TYPE_CHECKING, Any, Dict, List

from .errors import BadRows, JournalError, NoVertex, Refused, SessionClosed, StoreError
from .feeds.feed import Columns
from .session import Session
from .store import Store
from .values.answers import Answer, Collected, Commit, Compacted, Components, Degree, Edge, Flow, Neighbor, Stat
from .values.diff import Changed, Diff
from .values.edges import Edges
from .values.limits import Limits
from .values.units import Units
from .version import VERSION as __version__

if TYPE_CHECKING:
    from .components import LiveComponents
    from .feeds.following import Following
    from .feeds.loading import Loaded
    from .feeds.rejects import Rejected
    from .feeds.steps import Followed
    from .feeds.surveys import Survey, survey
    from .feeds.touched import Touched
    from .page.view import View, view
    from .part import Part
    from .saving import Saved
    from .serve.awaited import AsyncSession
    from .serve.client import ServedStore, connect

# The modules that are loaded with the first of their names that somebody asks for.
_LATER: Dict[str, str] = {name: module for module, names in {
    "components": "LiveComponents", "feeds.following": "Following", "feeds.loading": "Loaded", "feeds.rejects": "Rejected",
    "feeds.steps": "Followed", "feeds.surveys": "Survey survey", "feeds.touched": "Touched", "page.view": "View view",
    "part": "Part", "saving": "Saved", "serve.awaited": "AsyncSession",
    "serve.client": "ServedStore connect"}.items() for name in names.split()}

# What there is, in the order in which a newcomer meets it.
__all__ = [
    "Store", "Session", "Units", "Limits", "Columns", "connect", "ServedStore", "AsyncSession", "Part",
    "survey", "Survey", "Loaded", "Following", "Followed", "Touched", "Rejected",
    "Commit", "Collected", "Compacted", "Stat", "Saved",
    "Answer", "Components", "LiveComponents", "Degree", "Edge", "Edges", "Neighbor", "Diff", "Changed", "Flow", "view", "View",
    "StoreError", "Refused", "BadRows", "NoVertex", "SessionClosed", "JournalError",
]


def __getattr__(name: str) -> Any:
    """What is loaded later."""
    if name not in _LATER:
        raise AttributeError(f"module {__name__!r} has no attribute {name!r}")
    found = globals()[name] = getattr(importlib.import_module(f".{_LATER[name]}", __name__), name)
    return found


def __dir__() -> List[str]:
    return sorted({*(it for it in globals() if it.startswith("__")), *__all__, "errors"})
