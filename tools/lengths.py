"""Lengths of what no prover reads: files, bodies of functions in Python and Rust, and in Python how deep their blocks nest.

Examples of docstrings in Python aren't counted: they are tests, which stand where their readers look."""
from __future__ import annotations

import ast
import pathlib
import re
from typing import Iterable, Iterator, List, Sequence, Tuple, Union

FILE, BODY, DEPTH = 400, 40, 3
# Languages that no prover reads (texts are programs in Rattle and their tests), and scripts; what is no work of ours, or made.
WRITTEN = {".py", ".rs", ".txt", ".js", ".css", ".c", ".h", ""}
APART = ("LICENSE", "share/")
RUST = re.compile(r"(?ms)^( *)(?:pub(?:\(\w+\))? )?fn (\w+)[^\n]*?(?:\n\1[ )][^\n]*)*?\{\n(.*?)^\1\}$")
Function = Union[ast.FunctionDef, ast.AsyncFunctionDef]
BLOCKS = (ast.If, ast.For, ast.AsyncFor, ast.While, ast.Try, ast.Match)
APART_IN_IT = (ast.FunctionDef, ast.AsyncFunctionDef, ast.ClassDef)
DOCUMENTED = (ast.Module, *APART_IN_IT)


def is_python(path: pathlib.Path, text: str) -> bool:
    return path.suffix == ".py" or not path.suffix and text.startswith("#!") and "python" in text.partition("\n")[0]


def statements(node: ast.AST) -> Iterator[ast.AST]:
    """Yields what has statements, and each statement below it: no function stands in an expression."""
    yield node
    for it in ast.iter_child_nodes(node):
        if not isinstance(it, ast.expr):
            yield from statements(it)


def docstrings(text: str, file: Sequence[ast.AST]) -> Iterator[List[str]]:
    """Yields the lines of each docstring of a file, whose statements are given."""
    lines = text.splitlines()
    for it in file:
        if isinstance(it, DOCUMENTED) and ast.get_docstring(it) is not None:
            yield lines[it.body[0].lineno - 1:it.body[0].end_lineno]


def of_examples(docstring: List[str]) -> int:
    """Returns how many lines examples have, each from the blank line before it to the next one, or to the end."""
    count, is_within = 0, False
    for before, line in zip([""] + docstring, docstring):
        if line.lstrip().startswith(">>> ") and not is_within:
            is_within = True
            count += not before.strip()
        is_within = is_within and bool(line.strip())
        count += is_within
    return count


def body_length(function: Function) -> int:
    """Returns how many lines a function's body has after its docstring."""
    first = function.body[0]
    before = first.lineno - 1 if ast.get_docstring(function) is None else first.end_lineno
    return (function.end_lineno or 0) - (before or 0)


def depth(node: ast.AST) -> int:
    """Returns how deep blocks nest below a node. An `elif` nests no deeper than its `if`, and a function within counts apart."""
    most = 0
    for it in ast.iter_child_nodes(node):
        if not isinstance(it, (*APART_IN_IT, ast.expr)):
            is_elif = isinstance(node, ast.If) and isinstance(it, ast.If) and it.col_offset == node.col_offset
            most = max(most, depth(it) + (isinstance(it, BLOCKS) and not is_elif))
    return most


def in_python(file: Sequence[ast.AST]) -> Iterator[Tuple[int, str]]:
    """Yields what departs in a file of Python, whose statements are given, with its line."""
    for it in file:
        if isinstance(it, (ast.FunctionDef, ast.AsyncFunctionDef)):
            if (count := body_length(it)) > BODY:
                yield it.lineno, f"the body of {it.name} has {count} lines, of at most {BODY}"
            if (count := depth(it)) > DEPTH:
                yield it.lineno, f"{it.name} nests {count} deep, and at most {DEPTH} are allowed"


def in_rust(text: str) -> Iterator[Tuple[int, str]]:
    for found in RUST.finditer(text):
        if (count := found[3].count("\n")) > BODY:
            yield text.count("\n", 0, found.start(2)) + 1, f"the body of {found[2]} has {count} lines, of at most {BODY}"


def too_long(top: pathlib.Path, names: Iterable[str]) -> Iterator[str]:
    """Yields each file that is too long, and each function whose body is, or that nests too deep."""
    for name in names:
        path = top / name
        if path.suffix not in WRITTEN or name.startswith(APART) or path.is_symlink() or not path.is_file():
            continue
        text = path.read_text(encoding="utf-8")
        file = list(statements(ast.parse(text))) if is_python(path, text) else []
        if (count := len(text.splitlines()) - sum(map(of_examples, docstrings(text, file)))) > FILE:
            yield f"{name} has {count} lines, of at most {FILE}: part it by what it does"
        found = in_rust(text) if path.suffix in (".rs", ".txt") else in_python(file)
        yield from (f"{name}:{line}: {what}" for line, what in found)
