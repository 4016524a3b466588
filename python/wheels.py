"""Makes the wheel of this package by Python's standard library alone, for `pip install ./python` (PEP 517). Nothing is written
beside the package, so that a clone stays clean.

A wheel that pip asks for has the library and the program of where it stands: the archive's, or the clone's proved ones, and else
its compiled library; where there is none, no wheel is made. Beside what is proved it has a note that says so. Where no program is
proved yet, it has a script that runs the clone's `./stinger`: such a wheel is of use on this machine alone, as long as the clone
stands there, so its tags say the machine, and its version the clone.
"""
from __future__ import annotations

import base64
import hashlib
import io
import os
import pathlib
import re
import shlex
import subprocess
import sys
import tarfile
import time
import zipfile
from typing import Any, Dict, List, NamedTuple, Optional, Tuple

HERE = pathlib.Path(__file__).resolve().parent
PROGRAM, LIBRARY = "misteluk/bin/stinger", "misteluk/lib/libmisteluk.so"
# How a script begins that stands for the program and runs a clone's.
SCRIPT = b"#!/bin/sh\n# This runs the program of the clone that the package was installed from.\n"
# A file of a wheel or archive: its bytes, and whether it can be run.
Files = Dict[str, Tuple[bytes, bool]]


class Project(NamedTuple):
    """What pyproject.toml says of the package."""

    name: str
    version: str
    description: str
    python: str
    licence: str
    optional: Dict[str, List[str]]
    scripts: List[str]


def project() -> Project:
    """Reads pyproject.toml; Python has a reader for it from 3.11 on alone, and this file has a line for each value."""
    text = (HERE / "pyproject.toml").read_text(encoding="utf-8")

    def value(name: str) -> str:
        found = re.search(rf'(?m)^{name} = (?:\{{ text = )?"(.*?)"', text)
        if not found:
            raise ValueError(f"pyproject.toml has no line {name} = \"..\"")
        return found[1]

    extras = re.search(r"(?m)^\[project\.optional-dependencies\]\n((?:\w.*\n)+)", text)
    optional = {line.partition(" ")[0]: re.findall(r'"(.*?)"', line) for line in (extras[1] if extras else "").splitlines()}
    scripts = re.search(r"(?m)^\[project\.scripts\]\n((?:\w.*\n)+)", text)
    return Project(value("name"), value("version"), value("description"), value("requires-python"), value("license"),
                   optional, (scripts[1] if scripts else "").splitlines())


def licences() -> Files:
    """The licences, beside the package or above it, by their names."""
    folders = [it for it in (around(), HERE) if it]
    found = sorted({it.name: it for folder in folders for it in folder.glob("LICENSE-*")}.items())
    return {name: (path.read_bytes(), False) for name, path in found}


def metadata(version: str) -> bytes:
    """What an installer and an index know of the package."""
    it = project()
    lines = ["Metadata-Version: 2.1", f"Name: {it.name}", f"Version: {version}", f"Summary: {it.description}",
             f"Requires-Python: {it.python}", f"License: {it.licence}", *(f"License-File: {name}" for name in licences()),
             "Classifier: License :: OSI Approved :: MIT License",
             "Classifier: License :: OSI Approved :: Apache Software License",
             "Classifier: Operating System :: POSIX :: Linux", "Classifier: Typing :: Typed",
             *(f"Provides-Extra: {extra}" for extra in it.optional),
             *(f'Requires-Dist: {name} ; extra == "{extra}"' for extra, names in it.optional.items() for name in names),
             "Description-Content-Type: text/markdown", ""]
    return "\n".join([*lines, (HERE / "README.md").read_text(encoding="utf-8")]).encode()


def package() -> Files:
    """The package's own files."""
    found = sorted(it for it in (HERE / "misteluk").rglob("*") if it.suffix in (".py", ".typed", ".css", ".html", ".js"))
    return {it.relative_to(HERE).as_posix(): (it.read_bytes(), False) for it in found}


def clone_of(program: bytes) -> str:
    """What marks the version of a wheel whose program is a script that runs a clone's: a word made of the clone's place."""
    return "" if not program.startswith(SCRIPT) else f"+clone.{hashlib.sha256(program).hexdigest()[:8]}"


def write_wheel(folder: "str | os.PathLike[str]", files: Files, version: Optional[str] = None,
                seconds: Optional[int] = None) -> pathlib.Path:
    """Writes a wheel of these files and of what tells of them: with a program for its kind of machine, else for any."""
    it = project()
    program = files.get(PROGRAM, (b"", False))[0]
    version = version or it.version + clone_of(program)
    is_of_here = program.startswith((b"\x7fELF", SCRIPT)) or LIBRARY in files
    tag = f"py3-none-linux_{os.uname().machine}" if is_of_here else "py3-none-any"
    about = f"{it.name}-{version}.dist-info"
    pure = "false" if is_of_here else "true"
    told: Files = {
        f"{about}/METADATA": (metadata(version), False),
        f"{about}/WHEEL": (f"Wheel-Version: 1.0\nGenerator: misteluk\nRoot-Is-Purelib: {pure}\nTag: {tag}\n".encode(), False),
        f"{about}/entry_points.txt": (_entry_points(it).encode(), False),
        **{f"{about}/{name}": file for name, file in licences().items()}}
    everything = {**files, **told}
    everything[f"{about}/RECORD"] = (_record(everything, f"{about}/RECORD").encode(), False)
    made = pathlib.Path(folder) / f"{it.name}-{version}-{tag}.whl"
    made.parent.mkdir(parents=True, exist_ok=True)
    day = time.gmtime(_moment() if seconds is None else seconds)[:6]
    with zipfile.ZipFile(made, "w", zipfile.ZIP_DEFLATED) as packed:
        for name, (data, can_run) in everything.items():
            entry = zipfile.ZipInfo(name, day)
            entry.external_attr = (0o100755 if can_run else 0o100644) << 16
            entry.compress_type = zipfile.ZIP_DEFLATED
            packed.writestr(entry, data)
    return made


def _moment() -> int:
    """The time of the files within, in seconds since 1970: 1980's first day unless one is told, so that wheels are the same."""
    return int(os.environ.get("SOURCE_DATE_EPOCH", "315532800"))


def _entry_points(it: Project) -> str:
    lines = [line.replace('"', "") for line in it.scripts]
    return "\n".join(["[console_scripts]", *lines, ""])


def _record(files: Files, itself: str) -> str:
    """A line for each file: its name, its SHA-256 and its size."""
    lines = []
    for name, (data, _) in files.items():
        digest = base64.urlsafe_b64encode(hashlib.sha256(data).digest()).rstrip(b"=").decode()
        lines.append(f"{name},sha256={digest},{len(data)}")
    return "\n".join([*lines, f"{itself},,", ""])


def around() -> Optional[pathlib.Path]:
    """The archive or clone that the package stands in. An unpacked source archive, which has its `PKG-INFO`, stands in none: pip
    unpacks it among strangers' files, which must neither run nor go into a wheel."""
    return None if (HERE / "PKG-INFO").is_file() else HERE.parent


def library_here() -> Files:
    """The library of the archive or clone that the package stands in, as it was made of the sources as they are, or nothing."""
    top = around()
    if not top:
        return {}
    path = top / "lib/libmisteluk.so"
    if (top / "stinger").is_file():
        where = subprocess.run([top / "stinger", "library", "--where"], stdout=subprocess.PIPE, stderr=subprocess.DEVNULL,
                               text=True)
        path = pathlib.Path(where.stdout.strip() or path)
    return with_note(LIBRARY, path, proved_by(path)) if path.is_file() else {}


def proved_by(path: pathlib.Path) -> str:
    """By what the library or program here was proved: the archive's page says whether it was, and the clone's proved ones stand
    in their crates' `out`."""
    page = HERE.parent / "PROVED.md"
    if page.is_file():
        return "" if "**UNPROVED.**" in page.read_text(encoding="utf-8") else "its archive's PROVED.md says by what"
    return "by ./prove in the clone that it was installed from" if path.parent.name == "out" else ""


def with_note(name: str, path: pathlib.Path, proved: str) -> Files:
    """The library or program of this path under a wheel's name, and a note beside it where it was proved, which `misteluk doctor`
    tells."""
    note = {f"{os.path.dirname(name)}/PROVED": (f"{proved}\n".encode(), False)} if proved else {}
    return {name: (path.read_bytes(), name == PROGRAM), **note}


def program_here() -> Files:
    """The program of the archive or clone that the package stands in, or a script that runs the clone's, or nothing."""
    top = around()
    if not top:
        return {}
    if (top / "prove").is_file():
        where = subprocess.run([top / "prove", "--where"], stdout=subprocess.PIPE, stderr=subprocess.DEVNULL, text=True)
        if where.returncode == 0:
            path = pathlib.Path(where.stdout.strip())
            return with_note(PROGRAM, path, proved_by(path))
    if (top / "bin/stinger").is_file():
        return with_note(PROGRAM, top / "bin/stinger", proved_by(top / "bin/stinger"))
    if (top / "stinger").is_file():
        print(f"misteluk: this wheel has no program, but runs {top / 'stinger'}: it is for this machine, as long as that stands "
              "there. ./prove makes the program that a wheel for others has", file=sys.stderr)
        return {PROGRAM: (SCRIPT + f'exec {shlex.quote(str(top / "stinger"))} "$@"\n'.encode(), True)}
    return {}


# What pip calls.

def build_wheel(wheel_directory: str, config_settings: Any = None, metadata_directory: Optional[str] = None) -> str:
    library = library_here()
    if not library and around():
        raise SystemExit(f"misteluk: no library of the sources as they are is in {around()}, and the package needs it: run "
                         "./stinger library there, which makes it, and then pip install ./python; without rt, install the wheel "
                         "of a release (docs/PROGRAM.md)")
    if not library:
        print("misteluk: a source archive has no library: have MISTELUK_LIBRARY name one, or install the wheel of a release",
              file=sys.stderr)
    return write_wheel(wheel_directory, {**package(), **library, **program_here()}).name


def build_editable(wheel_directory: str, config_settings: Any = None, metadata_directory: Optional[str] = None) -> str:
    return write_wheel(wheel_directory, {"misteluk.pth": (f"{HERE}\n".encode(), False)}).name


def build_sdist(sdist_directory: str, config_settings: Any = None) -> str:
    it = project()
    folder = f"{it.name}-{it.version}"
    own = {name: ((HERE / name).read_bytes(), False) for name in ("pyproject.toml", "README.md", "wheels.py")}
    made = pathlib.Path(sdist_directory) / f"{folder}.tar.gz"
    with tarfile.open(made, "w:gz", format=tarfile.PAX_FORMAT) as packed:
        for name, (data, _) in {"PKG-INFO": (metadata(it.version), False), **own, **package(), **licences()}.items():
            told = tarfile.TarInfo(f"{folder}/{name}")
            told.size, told.mtime = len(data), _moment()
            packed.addfile(told, io.BytesIO(data))
    return made.name
