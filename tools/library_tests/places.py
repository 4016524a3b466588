"""Where the library, the program and the tools are that these tests take: tools/test_library says so."""
import functools
import os
import pathlib
import shutil
import subprocess
from typing import List

from calls import Library


@functools.lru_cache(maxsize=None)
def library() -> Library:
    return Library(os.environ["MISTELUK_LIBRARY"])


def static_library() -> pathlib.Path:
    return pathlib.Path(os.environ["MISTELUK_LIBRARY"]).with_suffix(".a")


def program() -> str:
    return os.environ["MISTELUK_PROGRAM"]


@functools.lru_cache(maxsize=None)
def tools() -> pathlib.Path:
    """The folder of the toolchain's own compiler and linker."""
    told = subprocess.run(["rt", "doc"], stdout=subprocess.PIPE, text=True, check=True).stdout
    return pathlib.Path(told).parent / "toolchain/bin"


def compiler() -> List[str]:
    """What compiles C here."""
    return [shutil.which("cc") or str(tools() / "clang")]


def linker() -> List[str]:
    return [str(tools() / "ld.lld")]
