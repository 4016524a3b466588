"""Python's collector of cycles, while much is made that has none."""
from __future__ import annotations

import gc
from contextlib import contextmanager
from typing import Iterator


@contextmanager
def no_collection() -> Iterator[None]:
    """Python's collector of cycles rests meanwhile. Rows and graphs make none, and it would look through them again and again: a
    third of the time that counting takes, and half of a graph's."""
    was_on = gc.isenabled()
    gc.disable()
    try:
        yield
    finally:
        if was_on:
            gc.enable()
