"""Columns that others take as an Arrow stream, by the Arrow PyCapsule interface."""
from __future__ import annotations

from array import array
from typing import List, NamedTuple, Optional, Sequence

from ..errors import needed

# The name in a column's metadata of how many parts of a weight make 1, where that isn't 1.
SCALE = "misteluk.weight_scale"


class StreamedColumn(NamedTuple):
    """A column in one of Arrow's formats: numbers, which are places in a dictionary where there are texts too; or texts alone.
    Of weights `scale` parts make 1."""

    name: str
    format: str
    numbers: "Optional[array[int]]"
    texts: Optional[Sequence[str]] = None
    scale: int = 1


class Streamed:
    """What pyarrow, polars, duckdb and other readers of Arrow take as it is: they share its numbers, without a copy."""

    def _streamed(self) -> List[StreamedColumn]:
        """The columns of a stream."""
        raise NotImplementedError

    def __arrow_c_stream__(self, requested_schema: object = None) -> object:
        """Returns the columns as an Arrow stream, a capsule, of one batch. A schema that is requested has no effect.

        The receiver shares the numbers: they are there until it lets them go, also when the session and the store are closed.
        `NoMemory` if there is none for the structs, `LibraryNotFound` if the library isn't there."""
        return needed("misteluk.engine.lending", "an Arrow stream").stream_of(self._streamed())

    def __arrow_c_schema__(self) -> object:
        """Returns the schema of `__arrow_c_stream__`, a capsule."""
        return needed("misteluk.engine.lending", "an Arrow schema").schema_of(self._streamed())
