"""Public docstrings of the client: what `help` shows of its exports, and of its errors, options and files."""
from __future__ import annotations

import ast
import pathlib
import re
from typing import Dict, Iterator, List, NamedTuple, Optional, Tuple, Union

PACKAGE = "python/misteluk"
# Modules whose classes users meet, besides those that are exported.
WHOLE = ("errors", "options", "journal.file")
# Words that a reader of `help` would have to decode, besides those of the pages; and names that no parameter has.
COINED = {r"(?:un)?said": "given", r"(?:un)?told": "reported", r"amid": "in the middle of", r"receipts?": "counts, Commit",
          r"nobody's": "free", r"passed over": "skipped", r"fl(?:y|ies|ight)": "send", r"land(?:s|ed)?": "apply"}
PARAMETERS = {"it", "told", "untold", "said", "fly", "land"}
# What ends a sentence: a stop before a space or the end.
END = re.compile(r"[.:?](?=\s|$)")
Function = Union[ast.FunctionDef, ast.AsyncFunctionDef]


class Public(NamedTuple):
    """A public class or call, where it is, and its docstring."""

    path: str
    line: int
    name: str
    docstring: Optional[str]
    parameters: List[str]

    @property
    def place(self) -> str:
        return f"{self.path}:{self.line}: {self.name}"


def is_overload(node: ast.AST) -> bool:
    return any(isinstance(it, ast.Name) and it.id == "overload" for it in getattr(node, "decorator_list", ()))


def exported(top: pathlib.Path) -> Dict[str, str]:
    """Returns the module of each name that the package exports, by what its `__init__.py` imports."""
    tree = ast.parse((top / PACKAGE / "__init__.py").read_text(encoding="utf-8"))
    lists = [it.value for it in tree.body if isinstance(it, ast.Assign) and getattr(it.targets[0], "id", "") == "__all__"]
    names = ast.literal_eval(lists[0])
    modules = {name.name: str(it.module) for it in ast.walk(tree) if isinstance(it, ast.ImportFrom) and it.level
               for name in it.names}
    return {it: modules[it] for it in names}


def of_call(path: str, name: str, node: Function) -> Public:
    given = node.args
    parameters = [it.arg for it in [*given.posonlyargs, *given.args, *given.kwonlyargs, given.vararg, given.kwarg] if it]
    return Public(path, node.lineno, name, ast.get_docstring(node), parameters)


def of_class(path: str, node: ast.ClassDef) -> Iterator[Public]:
    """Yields a class, and its public methods and properties."""
    calls = [it for it in node.body if isinstance(it, (ast.FunctionDef, ast.AsyncFunctionDef)) and not is_overload(it)]
    parameters = [name for it in calls if it.name == "__init__" for name in of_call(path, node.name, it).parameters]
    yield Public(path, node.lineno, node.name, ast.get_docstring(node), parameters)
    yield from (of_call(path, f"{node.name}.{it.name}", it) for it in calls if not it.name.startswith("_"))


def public(top: pathlib.Path) -> Iterator[Public]:
    """Yields what is public."""
    names = exported(top)
    for module in dict.fromkeys([*names.values(), *WHOLE]):
        path = f"{PACKAGE}/{module.replace('.', '/')}.py"
        tree = ast.parse((top / path).read_text(encoding="utf-8"))
        # (what type checkers have in other words stands in an `if`, whose last branch is what runs)
        branches = [branch for it in tree.body if isinstance(it, ast.If) for branch in it.body + it.orelse]
        found = {it.name: it for it in [*tree.body, *branches]
                 if isinstance(it, (ast.ClassDef, ast.FunctionDef)) and not is_overload(it)}
        for name, node in found.items():
            if names.get(name) == module or module in WHOLE and isinstance(node, ast.ClassDef):
                yield from of_class(path, node) if isinstance(node, ast.ClassDef) else [of_call(path, name, node)]


def prose(docstring: str) -> str:
    """Returns a docstring without its examples, and with a word for each span of code or quotation."""
    kept, is_example = [], False
    for line in docstring.splitlines():
        is_example = line.lstrip().startswith(">>> ") or is_example and bool(line.strip())
        kept.append("" if is_example else line)
    return re.sub(r"`[^`]*`|\"[^\"]*\"", "CODE", "\n".join(kept))


def faults_of(it: Public, words: Dict[str, str], openers: Tuple[str, ...]) -> Iterator[str]:
    """Yields what departs in a docstring: from the form, and by coined words or openers."""
    yield from (f"{it.place} has a parameter {name}" for name in it.parameters if name in PARAMETERS)
    if it.docstring is None:
        yield f"{it.place} has no docstring"
        return
    first = it.docstring.splitlines()[0]
    if not first[:1].isupper():
        yield f"{it.place} doesn't begin with a capital"
    if not END.search(first):
        yield f"{it.place}: its first sentence doesn't end on its first line"
    text = prose(it.docstring)
    for word, better in {**words, **COINED}.items():
        yield from (f"{it.place}: {found[0]!r}: say {better}" for found in re.finditer(rf"\b(?:{word})\b", text, re.I))
    for sentence in re.split(r"[.:?]\s+|\n\s*\n|\n- ", text):
        opener = re.match(r"\W*(\w+)", sentence)
        if opener and opener[1] in openers:
            yield f"{it.place}: a sentence begins with {opener[1]}: {' '.join(sentence.split()[:8])} .."


def astray(top: pathlib.Path, words: Dict[str, str], openers: Tuple[str, ...]) -> Iterator[str]:
    """Yields what departs in public docstrings."""
    found = list(public(top))
    if len(found) < 100:
        yield f"{PACKAGE} has {len(found)} public docstrings, so most aren't found"
    for it in found:
        yield from faults_of(it, words, openers)
