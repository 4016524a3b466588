"""The C interface of the store, for ctypes. `tools/interface` writes this from include/misteluk.h, which says what each
call does, and what a caller owes: nothing here tests it."""
import enum
from ctypes import CDLL, POINTER, Array, Structure, c_char_p, c_int64, c_size_t, c_uint32, c_uint64, c_void_p
from typing import Any, Callable, Dict, List, Tuple, Union

# Where an array or a text begins: its address, bytes that are only read, or an array of ctypes.
Memory = Union[int, bytes, "Array[Any]"]

INTERFACE = 4
VERSION = 100
ANY_KIND = 0xFFFF_FFFF
NOT_REACHED = 0xFFFF_FFFF
ALONG = 0
AGAINST = 1
EITHER = 2
ANY_STEPS = 0xFFFF_FFFF
INSERT = 0
ADD = 1
REMOVE = 2
EXPIRE = 3
GONE = 0
NEW = 1
CHANGED = 2
MOST_OPERATIONS = 1048576
OPERATIONS = 4096
TEXT_BYTES = 80


class Code(enum.IntEnum):
    """What a call returns."""

    OK = 0
    MEMORY = 1
    NO_HANDLE = 2
    HELD_ALREADY = 3
    BAD_LENGTH = 4
    BAD_NAME = 5
    BAD_WEIGHT = 6
    BAD_TIME = 7
    BAD_NUMBER = 8
    BAD_BLOCKS = 9
    BATCH_FULL = 10
    BATCHES_FULL = 11
    NAMES_FULL = 12
    KINDS_FULL = 13
    BLOCKS_FULL = 14
    NO_SEAT = 15
    NO_VERTEX = 16
    NO_KIND = 17
    NO_EDGE = 18
    BAD_LIMITS = 19
    NOT_EMPTY = 20
    BAD_SIZE = 21


class Desk(Structure):
    _fields_ = [("at", c_void_p)]


class Batch(Structure):
    _fields_ = [("at", c_void_p)]


class Version(Structure):
    _fields_ = [("at", c_void_p)]


class Diff(Structure):
    _fields_ = [("at", c_void_p)]


class Limits(Structure):
    _fields_ = [("size", c_size_t), ("names", c_uint32), ("kinds", c_uint32), ("batches", c_uint32), ("weight", c_uint64)]


class Columns(Structure):
    _fields_ = [("size", c_size_t), ("kind_text", c_char_p), ("kind_text_length", c_size_t), ("kind_ends", c_void_p),
        ("kind_ends_length", c_size_t), ("text", c_char_p), ("text_length", c_size_t), ("ends", c_void_p),
        ("ends_length", c_size_t), ("operations", c_void_p), ("operations_length", c_size_t), ("kinds", c_void_p),
        ("kinds_length", c_size_t), ("sources", c_void_p), ("sources_length", c_size_t), ("targets", c_void_p),
        ("targets_length", c_size_t), ("weights", c_void_p), ("weights_length", c_size_t), ("times", c_void_p),
        ("times_length", c_size_t)]


class EdgeColumns(Structure):
    _fields_ = [("size", c_size_t), ("kinds", c_void_p), ("kinds_length", c_size_t), ("sources", c_void_p),
        ("sources_length", c_size_t), ("targets", c_void_p), ("targets_length", c_size_t), ("weights", c_void_p),
        ("weights_length", c_size_t), ("firsts", c_void_p), ("firsts_length", c_size_t), ("recents", c_void_p),
        ("recents_length", c_size_t)]


class DiffColumns(Structure):
    _fields_ = [("size", c_size_t), ("states", c_void_p), ("states_length", c_size_t), ("kinds", c_void_p),
        ("kinds_length", c_size_t), ("sources", c_void_p), ("sources_length", c_size_t), ("targets", c_void_p),
        ("targets_length", c_size_t), ("weights_before", c_void_p), ("weights_before_length", c_size_t),
        ("firsts_before", c_void_p), ("firsts_before_length", c_size_t), ("recents_before", c_void_p),
        ("recents_before_length", c_size_t), ("weights_after", c_void_p), ("weights_after_length", c_size_t),
        ("firsts_after", c_void_p), ("firsts_after_length", c_size_t), ("recents_after", c_void_p),
        ("recents_after_length", c_size_t)]


class Counts(Structure):
    _fields_ = [("version", c_uint64), ("inserted", c_uint64), ("updated", c_uint64), ("removed", c_uint64),
        ("absent", c_uint64), ("overflowed", c_uint64), ("expired", c_uint64)]
    version: int
    inserted: int
    updated: int
    removed: int
    absent: int
    overflowed: int
    expired: int


class Stat(Structure):
    _fields_ = [("version", c_uint64), ("vertices", c_uint64), ("kinds", c_uint64), ("edges", c_uint64),
        ("blocks_free", c_uint64), ("blocks_retired", c_uint64), ("blocks_used", c_uint64)]
    version: int
    vertices: int
    kinds: int
    edges: int
    blocks_free: int
    blocks_retired: int
    blocks_used: int


class Size(Structure):
    _fields_ = [("version", c_uint64), ("vertices", c_uint64), ("kinds", c_uint64), ("edges", c_uint64),
        ("name_bytes", c_uint64), ("kind_bytes", c_uint64)]
    version: int
    vertices: int
    kinds: int
    edges: int
    name_bytes: int
    kind_bytes: int


class Hold(Structure):
    _fields_ = [("desk", c_uint64), ("opening", c_uint64), ("number", c_uint64)]
    desk: int
    opening: int
    number: int


class Edge(Structure):
    _fields_ = [("weight", c_int64), ("first", c_uint64), ("recent", c_uint64)]
    weight: int
    first: int
    recent: int


class View(Structure):
    _fields_ = [("from_", c_uint64), ("to", c_uint64), ("kind", c_uint32)]
    from_: int
    to: int
    kind: int


FUNCTIONS: Dict[str, Tuple[Any, List[Any]]] = {
    "interface": (c_uint32, []),
    "library_version": (c_uint32, []),
    "code_text": (c_uint32, [c_uint32, c_void_p, c_size_t]),
    "batch_new": (c_uint32, [POINTER(Batch)]),
    "batch_free": (None, [POINTER(Batch)]),
    "batch_length": (c_uint32, [POINTER(Batch), POINTER(c_uint64)]),
    "batch_records": (c_uint32, [POINTER(Batch), c_void_p, c_size_t, POINTER(c_uint64)]),
    "batch_insert": (c_uint32, [POINTER(Batch), c_void_p, c_size_t, c_void_p, c_size_t, c_void_p, c_size_t, c_int64, c_uint64]),
    "batch_add": (c_uint32, [POINTER(Batch), c_void_p, c_size_t, c_void_p, c_size_t, c_void_p, c_size_t, c_int64, c_uint64]),
    "batch_remove": (c_uint32, [POINTER(Batch), c_void_p, c_size_t, c_void_p, c_size_t, c_void_p, c_size_t]),
    "batch_expire": (c_uint32, [POINTER(Batch), c_uint64]),
    "batch_columns": (c_uint32, [POINTER(Batch), POINTER(Columns), c_uint32, POINTER(c_uint64)]),
    "desk_new": (c_uint32, [c_uint64, c_uint32, POINTER(Desk)]),
    "desk_new_within": (c_uint32, [c_uint64, POINTER(Limits), c_uint32, POINTER(Desk)]),
    "desk_limits": (c_uint32, [POINTER(Desk), POINTER(Limits)]),
    "desk_free": (None, [POINTER(Desk)]),
    "desk_apply": (c_uint32, [POINTER(Desk), POINTER(Batch), POINTER(Counts)]),
    "desk_begin": (c_uint32, [POINTER(Desk), POINTER(Batch)]),
    "desk_finish": (c_uint32, [POINTER(Desk), POINTER(Counts)]),
    "desk_cancel": (c_uint32, [POINTER(Desk)]),
    "desk_insert_columns": (c_uint32, [POINTER(Desk), c_void_p, c_size_t, c_void_p, c_size_t, c_void_p, c_size_t, c_void_p,
        c_size_t, c_void_p, c_size_t, c_void_p, c_size_t, c_void_p, c_size_t, POINTER(Counts), POINTER(c_uint64)]),
    "desk_open_columns": (c_uint32, [POINTER(Desk), POINTER(Columns), POINTER(c_uint64)]),
    "desk_collect": (c_uint32, [POINTER(Desk), POINTER(c_uint64)]),
    "desk_stat": (c_uint32, [POINTER(Desk), POINTER(Stat)]),
    "desk_hold": (c_uint32, [POINTER(Desk), POINTER(Version), POINTER(Hold)]),
    "desk_release": (c_uint32, [POINTER(Desk), POINTER(Hold)]),
    "desk_rebase": (c_uint32, [POINTER(Desk)]),
    "version_clone": (c_uint32, [POINTER(Version), POINTER(Version)]),
    "version_free": (None, [POINTER(Version)]),
    "version_size": (c_uint32, [POINTER(Version), POINTER(Size)]),
    "version_vertex": (c_uint32, [POINTER(Version), c_void_p, c_size_t, POINTER(c_uint32)]),
    "version_kind": (c_uint32, [POINTER(Version), c_void_p, c_size_t, POINTER(c_uint32)]),
    "version_names": (c_uint32, [POINTER(Version), c_uint32, c_void_p, c_size_t, c_void_p, c_size_t]),
    "version_kind_names": (c_uint32, [POINTER(Version), c_uint32, c_void_p, c_size_t, c_void_p, c_size_t]),
    "version_names_like": (c_uint32, [POINTER(Version), c_void_p, c_size_t, POINTER(c_uint32), c_void_p, c_size_t,
        POINTER(c_uint64)]),
    "version_edge": (c_uint32, [POINTER(Version), c_uint32, c_uint32, c_uint32, POINTER(Edge)]),
    "version_degrees": (c_uint32, [POINTER(Version), POINTER(View), c_void_p, c_size_t, c_void_p, c_size_t, c_void_p, c_size_t]),
    "version_weights_in": (c_uint32, [POINTER(Version), POINTER(View), c_void_p, c_size_t]),
    "version_levels": (c_uint32, [POINTER(Version), POINTER(View), c_uint32, c_void_p, c_size_t]),
    "version_index": (c_uint32, [POINTER(Version)]),
    "version_within": (c_uint32, [POINTER(Version), POINTER(View), c_uint32, c_void_p, c_size_t, c_uint32, c_void_p, c_size_t,
        c_void_p, c_size_t, POINTER(c_uint64)]),
    "version_path": (c_uint32, [POINTER(Version), POINTER(View), c_uint32, c_uint32, c_void_p, c_size_t, POINTER(c_uint64)]),
    "version_labels": (c_uint32, [POINTER(Version), POINTER(View), c_void_p, c_size_t]),
    "version_cores": (c_uint32, [POINTER(Version), POINTER(View), c_void_p, c_size_t]),
    "version_row": (c_uint32, [POINTER(Version), POINTER(View), c_uint32, POINTER(EdgeColumns), POINTER(c_uint64)]),
    "version_in_edges": (c_uint32, [POINTER(Version), POINTER(View), c_uint32, POINTER(EdgeColumns), POINTER(c_uint64)]),
    "version_edges": (c_uint32, [POINTER(Version), POINTER(View), POINTER(c_uint32), POINTER(EdgeColumns), POINTER(c_uint64)]),
    "desk_diff": (c_uint32, [POINTER(Desk), POINTER(Hold), POINTER(Hold), POINTER(Diff)]),
    "diff_free": (None, [POINTER(Diff)]),
    "diff_edges": (c_uint32, [POINTER(Diff), POINTER(View), POINTER(c_uint32), POINTER(DiffColumns), POINTER(c_uint64)]),
}


class Library:
    """A library that is open: its functions, each by its name in the header behind `misteluk_`. A struct is given as it is,
    where the header has a pointer to one, and an array by its address and how many items it has."""

    interface: Callable[[], int]
    library_version: Callable[[], int]
    code_text: Callable[[int, Memory, int], int]
    batch_new: Callable[[Batch], int]
    batch_free: Callable[[Batch], None]
    batch_length: Callable[[Batch, c_uint64], int]
    batch_records: Callable[[Batch, Memory, int, c_uint64], int]
    batch_insert: Callable[[Batch, Memory, int, Memory, int, Memory, int, int, int], int]
    batch_add: Callable[[Batch, Memory, int, Memory, int, Memory, int, int, int], int]
    batch_remove: Callable[[Batch, Memory, int, Memory, int, Memory, int], int]
    batch_expire: Callable[[Batch, int], int]
    batch_columns: Callable[[Batch, Columns, int, c_uint64], int]
    desk_new: Callable[[int, int, Desk], int]
    desk_new_within: Callable[[int, Limits, int, Desk], int]
    desk_limits: Callable[[Desk, Limits], int]
    desk_free: Callable[[Desk], None]
    desk_apply: Callable[[Desk, Batch, Counts], int]
    desk_begin: Callable[[Desk, Batch], int]
    desk_finish: Callable[[Desk, Counts], int]
    desk_cancel: Callable[[Desk], int]
    desk_insert_columns: Callable[[Desk, Memory, int, Memory, int, Memory, int, Memory, int, Memory, int, Memory, int,
        Memory, int, Counts, c_uint64], int]
    desk_open_columns: Callable[[Desk, Columns, c_uint64], int]
    desk_collect: Callable[[Desk, c_uint64], int]
    desk_stat: Callable[[Desk, Stat], int]
    desk_hold: Callable[[Desk, Version, Hold], int]
    desk_release: Callable[[Desk, Hold], int]
    desk_rebase: Callable[[Desk], int]
    version_clone: Callable[[Version, Version], int]
    version_free: Callable[[Version], None]
    version_size: Callable[[Version, Size], int]
    version_vertex: Callable[[Version, Memory, int, c_uint32], int]
    version_kind: Callable[[Version, Memory, int, c_uint32], int]
    version_names: Callable[[Version, int, Memory, int, Memory, int], int]
    version_kind_names: Callable[[Version, int, Memory, int, Memory, int], int]
    version_names_like: Callable[[Version, Memory, int, c_uint32, Memory, int, c_uint64], int]
    version_edge: Callable[[Version, int, int, int, Edge], int]
    version_degrees: Callable[[Version, View, Memory, int, Memory, int, Memory, int], int]
    version_weights_in: Callable[[Version, View, Memory, int], int]
    version_levels: Callable[[Version, View, int, Memory, int], int]
    version_index: Callable[[Version], int]
    version_within: Callable[[Version, View, int, Memory, int, int, Memory, int, Memory, int, c_uint64], int]
    version_path: Callable[[Version, View, int, int, Memory, int, c_uint64], int]
    version_labels: Callable[[Version, View, Memory, int], int]
    version_cores: Callable[[Version, View, Memory, int], int]
    version_row: Callable[[Version, View, int, EdgeColumns, c_uint64], int]
    version_in_edges: Callable[[Version, View, int, EdgeColumns, c_uint64], int]
    version_edges: Callable[[Version, View, c_uint32, EdgeColumns, c_uint64], int]
    desk_diff: Callable[[Desk, Hold, Hold, Diff], int]
    diff_free: Callable[[Diff], None]
    diff_edges: Callable[[Diff, View, c_uint32, DiffColumns, c_uint64], int]

    def __init__(self, path: str) -> None:
        """Opens the library at a path. OSError where there is none, where it lacks a function, or has another interface."""
        opened = CDLL(path)
        for name, (result, arguments) in FUNCTIONS.items():
            function = getattr(opened, f"misteluk_{name}", None)
            if function is None:
                raise OSError(f"{path} has no function misteluk_{name}")
            function.restype, function.argtypes = result, arguments
            setattr(self, name, function)
        if self.interface() != INTERFACE:
            raise OSError(f"{path} has interface {self.interface()}, and this needs {INTERFACE}")
