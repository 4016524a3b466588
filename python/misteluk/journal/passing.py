"""An engine that passes each call on to a library's."""
from __future__ import annotations

from typing import Any, Mapping, Optional

from ..engine.library import LibraryEngine
from ..values.limits import Limits


def _passed(name: str) -> Any:
    """What the engine within has by this name; what is set here is set there."""
    return property(lambda it: getattr(it.inner, name), lambda it, value: setattr(it.inner, name, value))


class Passing:
    """An engine around another one, which does all of it."""

    seats: int = _passed("seats")
    grows: bool = _passed("grows")
    limits: Limits = _passed("limits")
    blocks: int = _passed("blocks")
    open_count: int = _passed("open_count")
    is_elsewhere: bool = _passed("is_elsewhere")
    operations_kept: Optional[int] = _passed("operations_kept")
    told: Any = _passed("told")
    fit: Any = _passed("fit")
    flight: Any = _passed("flight")
    fly: Any = _passed("fly")
    landed: Any = _passed("landed")
    stat: Any = _passed("stat")
    collect: Any = _passed("collect")
    hold: Any = _passed("hold")
    hold_apart: Any = _passed("hold_apart")
    listen: Any = _passed("listen")
    rebase: Any = _passed("rebase")
    renew: Any = _passed("renew")
    close: Any = _passed("close")

    def __init__(self, inner: LibraryEngine) -> None:
        self.inner = inner
        self.name, self.most_blocks = inner.name, inner.most_blocks

    @property
    def feeds(self) -> Mapping[str, str]:
        return self.inner.feeds

    @property
    def has_ended(self) -> bool:
        return self.inner.has_ended
