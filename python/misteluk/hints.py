"""What a store says where it is asked for what its sessions have."""
from __future__ import annotations

from typing import TYPE_CHECKING, Any

from .session import Session


class Opened:
    """What has no answers itself, but sessions that do: it says so where it is asked for what they have."""

    if not TYPE_CHECKING:
        def __getattr__(self, name: str) -> Any:
            if name in ("version", "vertex_count") or not name.startswith("_") and hasattr(Session, name):
                raise AttributeError(f"a store has no {name!r}, but a session does: `with store.open() as session:`, and then "
                                     f"`session.{name}`")
            return super().__getattribute__(name)
