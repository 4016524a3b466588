"""The options of calls, as an editor completes them, mypy checks them, and an error names them."""
from __future__ import annotations

from datetime import timedelta
from functools import wraps
from inspect import Parameter, signature
from typing import TYPE_CHECKING, Any, Callable, Literal, Optional, TypedDict, TypeVar, Union, cast

if TYPE_CHECKING:
    from .feeds.feed import Columns
    from .values.limits import Limits
    from .values.units import Units

_F = TypeVar("_F", bound=Callable[..., Any])

By = Literal["set", "add"]
"""Whether a later row of the same edge sets the weight or adds to it: `store.load(rows, by="add")`."""

Sync = Literal["full", "normal", "off"]
"""When a file's batches are on the disk: at each commit, or later: `Store("graph.db", sync="normal")`."""


class RestoreOptions(TypedDict, total=False):
    """The options that `Store` and `Store.restore` share; `Store` explains them.

    >>> with Store(seats=1) as single:
    ...     print(single.seats)
    1
    """

    limits: Optional[Limits]
    seats: int
    endless: bool


class StoreOptions(RestoreOptions, total=False):
    """The options of `Store`, which explains them; a call of your own takes them as `**options: Unpack[StoreOptions]`.

    >>> options: StoreOptions = {"blocks": 1024, "sync": "full"}
    >>> with Store(**options) as small:
    ...     print(small.blocks)
    1024
    """

    blocks: Optional[int]
    sync: Sync
    history: Union[int, timedelta, None]


class ReadOptions(TypedDict, total=False):
    """How a feed is read: the options that `load`, `follow` and `survey` share, whose help explains them.

    >>> options: ReadOptions = {"columns": Columns("from", "to"), "encoding": "cp1252"}
    >>> store.load({"from": ["bonn"], "to": ["kassel"]}, by="set", **options).commit.inserted
    1
    """

    columns: Columns
    format: Optional[Literal["delimited", "snap", "matrix"]]
    delimiter: Optional[str]
    header: Optional[bool]
    third: Optional[Literal["weight", "time"]]
    both_ways: bool
    encoding: str
    decimal: Literal[".", ","]
    dates: Optional[Literal["dd.mm.yyyy", "dd/mm/yyyy", "mm/dd/yyyy", "seconds", "milliseconds", "microseconds"]]
    names: Literal["plain", "escape"]
    units: Optional[Units[Any, Any]]


def _named(call: _F) -> _F:
    """A call that names its options where one is given that there isn't."""
    told = signature(call).parameters.values()
    options = [it.name for it in told if it.kind != Parameter.VAR_KEYWORD and it.name not in ("self", "cls")]
    for it in told:
        if it.kind == Parameter.VAR_KEYWORD:  # (`Unpack[..]` of a class here)
            options += globals()[it.annotation[len("Unpack["):-1]].__annotations__
    name, known = call.__qualname__.replace(".__init__", ""), frozenset(options)

    @wraps(call)
    def checked(*given: Any, **said: Any) -> Any:
        if not said.keys() <= known:
            wrong = next(it for it in said if it not in known)
            raise TypeError(f"{name} has no option {wrong!r}: there are {', '.join(options)}")
        return call(*given, **said)
    return cast(_F, checked)
