"""A copy of the crates in which the tests of tests/parts are a crate, as a compiler wants them."""
import pathlib
import shutil

TOP = pathlib.Path(__file__).resolve().parent.parent
PARTS = TOP / "tests/parts"
NAME = "tests_parts"


def copied(room):
    """Makes the copy in a folder, and returns where its crates are. tests/parts/calls.txt names those that the tests call."""
    room = pathlib.Path(room)
    shutil.copytree(TOP / "crates", room / "crates", ignore=shutil.ignore_patterns("out"))
    shutil.copy(TOP / "HANDLES", room)
    rows = (TOP / "crates.txt").read_text(encoding="utf-8")
    (room / "crates.txt").write_text(f"{rows}\n{NAME}: {(PARTS / 'calls.txt').read_text(encoding='utf-8')}", encoding="utf-8")
    for text in (PARTS / "src").rglob("*.txt"):
        source = room / "crates" / NAME / text.relative_to(PARTS).with_suffix(".rt")
        source.parent.mkdir(parents=True, exist_ok=True)
        shutil.copy(text, source)
    return room / "crates"
