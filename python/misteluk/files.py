"""Files that are written whole or not at all, and packed as the ends of their names say."""
from __future__ import annotations

import contextlib
import errno
import io
import os
import select
from typing import IO, Any, BinaryIO, Iterator, NoReturn, TextIO, Tuple, Type, cast

from .errors import SaveFault, needed
from .values.texts import Path

# How packed files begin, by the end of their names.
_BEGINNINGS = {".gz": b"\x1f\x8b", ".xz": b"\xfd7zXZ\0", ".bz2": b"BZh", ".zst": b"\x28\xb5\x2f\xfd"}
# Ends of names that say another packing, or an archive.
_OTHERS = (".zip", ".7z", ".rar", ".tar", ".tgz", ".tbz2", ".txz", ".lz", ".lz4", ".lzma", ".zstd", ".br", ".z")
_MODULES = {".gz": "gzip", ".xz": "lzma", ".bz2": "bz2", ".zst": "zstandard"}


def _module(ending: str) -> Any:
    """What packs files with this ending. (Python may have been built without some of it.)"""
    return needed(_MODULES[ending], f"a file that ends in {ending}")


def ending_of(path: Path) -> str:
    """How the file is packed: ".gz", ".xz", ".bz2", ".zst", or "" where its name ends otherwise. Raises `Missing` where nothing
    here packs such a file, and `ValueError` where the name says a packing that nothing here writes, as .zip."""
    name = os.fspath(path).lower()
    other = next((it for it in _OTHERS if name.endswith(it)), None)
    if other:
        raise ValueError(f"{os.fspath(path)} ends in {other}, and nothing here packs so: names that end in .gz, .xz, .bz2 and "
                         ".zst are packed, and others are plain text")
    ending = next((it for it in _BEGINNINGS if name.endswith(it)), "")
    if ending in _MODULES:
        _module(ending)
    return ending


def packer(file: BinaryIO, ending: str) -> "contextlib.AbstractContextManager[IO[bytes]]":
    """A file that packs what is written to it into this one, and leaves this one open."""
    if not ending:
        return contextlib.nullcontext(file)
    made: Any
    if ending == ".gz":
        made = _module(ending).GzipFile("", "wb", 6, file, mtime=0)
    elif ending == ".zst":
        made = _module(ending).ZstdCompressor().stream_writer(file, closefd=False)
    else:
        made = _module(ending).open(file, "wb")
    return cast("contextlib.AbstractContextManager[IO[bytes]]", made)


def unpacked(data: bytes, name: str, most: int = -1) -> bytes:
    """What a packed file has, by how it begins; its first bytes, where at most so many are wanted. Raises `SaveFault` where it is
    damaged."""
    ending = next((it for it, begin in _BEGINNINGS.items() if data.startswith(begin)), "")
    if not ending:
        return data if most < 0 else data[:most]
    import zlib
    module = _module(ending)
    faults = {".xz": "LZMAError", ".zst": "ZstdError"}
    known: Tuple[Type[Exception], ...] = (OSError, EOFError, ValueError, zlib.error,
                                          getattr(module, faults.get(ending, ""), EOFError))
    try:
        packed = io.BytesIO(data)
        with module.ZstdDecompressor().stream_reader(packed) if ending == ".zst" else module.open(packed) as file:
            return cast(bytes, file.read(most))
    except known as fault:
        raise SaveFault(f"{name} can't be unpacked: it is damaged or cut ({fault}). Nothing is restored") from fault


def place_of(path: Path) -> str:
    """The file that this path leads to, also by links, whether it is there or not. Raises `OSError` where it can't be one that
    is written: what is there is no file, or its folder isn't there."""
    place = os.path.realpath(path)
    if os.path.isdir(place):
        _refuse(errno.EISDIR, path)
    if os.path.exists(place) and not os.path.isfile(place):
        raise OSError(errno.EINVAL, "This is no file that can be replaced", os.fspath(path))
    folder = os.path.dirname(place)
    if not os.path.isdir(folder):
        _refuse(errno.ENOENT, folder)
    if not os.access(folder, os.W_OK | os.X_OK):
        _refuse(errno.EACCES, folder)
    return place


def _refuse(number: int, path: Path) -> NoReturn:
    raise OSError(number, os.strerror(number), os.fspath(path))


@contextlib.contextmanager
def whole(path: Path) -> "Iterator[BinaryIO]":
    """A file that takes the place of the one of this path when it is whole and on the disk, or never. It has the rights of the
    one that was there."""
    place = place_of(path)
    beside = f"{place}.{os.urandom(4).hex()}.part"
    try:
        with open(beside, "xb") as file:
            with contextlib.suppress(FileNotFoundError):
                os.fchmod(file.fileno(), os.stat(place).st_mode & 0o7777)
            yield file
            file.flush()
            os.fsync(file.fileno())
        os.replace(beside, place)
        keep_folder(os.path.dirname(place))
    except BaseException as fault:
        with contextlib.suppress(OSError):
            os.remove(beside)
        if isinstance(fault, OSError) and fault.errno and fault.filename in (None, beside):
            fault.filename = os.fspath(path)  # (a write names no file, and the other one is gone)
        raise


@contextlib.contextmanager
def whole_text(path: Path) -> "Iterator[TextIO]":
    """The same for a file of text, in UTF-8, packed as its name says; ends of lines are written as they are."""
    ending = ending_of(path)
    with whole(path) as raw, packer(raw, ending) as packed:
        file = io.TextIOWrapper(cast(BinaryIO, packed), encoding="utf-8", newline="")
        yield file
        file.detach()


def keep_folder(folder: str) -> None:
    """Puts on the disk which files a folder has: else the old one may be there again behind a crash."""
    # (Functions in C give the descriptor to an object that closes it, wherever an interrupt comes; an `int` closes none.)
    (opened,) = map(select.epoll.fromfd, map(os.open, (folder,), (os.O_RDONLY | os.O_DIRECTORY,)))
    with opened:
        os.fsync(opened.fileno())
