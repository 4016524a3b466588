"""Which library is loaded, and which program is run."""
from __future__ import annotations

import os
from typing import Optional, Tuple

from ..errors import LibraryNotFound, ProgramNotFound
from ..values.texts import Path

VARIABLE, OF_LIBRARY = "MISTELUK_PROGRAM", "MISTELUK_LIBRARY"
LIBRARY = "libmisteluk.so"


def next_step() -> str:
    """What to do where there is no library, or the wrong one."""
    if os.environ.get(OF_LIBRARY):
        return (f"Have {OF_LIBRARY} name another one, or unset it: then the package's own is loaded, or the one that ./stinger "
                "library makes in the repository")
    return (f"Make it by ./stinger library in the repository, or install the wheel of a release, or have {OF_LIBRARY} name a "
            f"{LIBRARY}")


def _around() -> Tuple[str, str]:
    """The package, and the repository or archive that it stands in."""
    here = os.path.dirname(os.path.dirname(os.path.realpath(__file__)))
    return here, os.path.dirname(os.path.dirname(here))


def find_program(program: Optional[Path] = None) -> str:
    """The program that is run: the one that is named, else that of the variable MISTELUK_PROGRAM, else the one that was installed
    with this package, else `./stinger` of the repository or `bin/stinger` of the archive that it stands in, else `stinger` on the
    path."""
    import shutil
    named = program or os.environ.get(VARIABLE)
    if named:
        found = shutil.which(os.fspath(named)) or shutil.which(os.path.abspath(named))
        if not found:
            whose = "" if program else f" (named by {VARIABLE})"
            raise ProgramNotFound(f"{os.fspath(named)}{whose} is no program that can be run")
        return found
    here, top = _around()
    for it in (f"{here}/bin/stinger", f"{top}/stinger", f"{top}/bin/stinger"):
        if os.path.isfile(it) and os.access(it, os.X_OK):
            return it
    found = shutil.which("stinger")
    if not found:
        raise ProgramNotFound(f"no program stinger is here or on the PATH: name it by program= or by the variable {VARIABLE}")
    return found


def find_library(library: Optional[Path] = None) -> str:
    """The library that is loaded: the one that is named, else that of the variable MISTELUK_LIBRARY, else the one that was
    installed with this package, else the repository's, proved or compiled, which is the later one, or that of the archive that it
    stands in. Raises `LibraryNotFound` where there is none, also where the one that is named isn't there."""
    named = library or os.environ.get(OF_LIBRARY)
    if named:
        if not os.path.isfile(named):
            whose = "" if library else f" (named by {OF_LIBRARY})"
            raise LibraryNotFound(f"no file {os.fspath(named)}{whose} is there. {next_step()}")
        return os.path.abspath(named)
    here, top = _around()
    made = [it for it in (f"{top}/crates/misteluk_c/out/{LIBRARY}", f"{top}/out/compiled/{LIBRARY}") if os.path.isfile(it)]
    made.sort(key=os.path.getmtime, reverse=True)  # (the later one is of the sources as they are, if any is)
    for it in (f"{here}/lib/{LIBRARY}", *made, f"{top}/lib/{LIBRARY}"):
        if os.path.isfile(it):
            return it
    raise LibraryNotFound(f"no {LIBRARY} is here. {next_step()}")
