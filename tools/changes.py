"""Changes of the client's modules, each of which makes a wrong body: `tools/wrong-python` tries them. Those that all tests pass
have a reason in python/survivors.txt, in a line each."""
import ast
import collections
import pathlib
import re
import typing

TOP = pathlib.Path(__file__).resolve().parent.parent
PACKAGE, SURVIVORS = TOP / "python/misteluk", TOP / "python/survivors.txt"
SWAPS = {ast.Lt: ast.LtE, ast.LtE: ast.Lt, ast.Gt: ast.GtE, ast.GtE: ast.Gt, ast.Eq: ast.NotEq, ast.NotEq: ast.Eq,
         ast.In: ast.NotIn, ast.NotIn: ast.In, ast.Is: ast.IsNot, ast.IsNot: ast.Is, ast.And: ast.Or, ast.Or: ast.And,
         ast.Add: ast.Sub, ast.Sub: ast.Add, ast.Mult: ast.FloorDiv, ast.FloorDiv: ast.Mult, ast.Div: ast.Mult, ast.Mod: ast.Add}


class Change(typing.NamedTuple):
    """A change of a module: the function that it is in, the text before and after, where that text begins and ends, and which of
    the function's changes that read the same it is."""

    function: str
    old: str
    new: str
    begin: int
    end: int
    number: int = 1

    def told(self, module):
        old, new = (re.sub(r"\s+", " ", it) for it in (self.old, self.new))
        return f"{module} {self.function}: `{old}` -> `{new}`" + f" ({self.number})" * (self.number > 1)


def mutated(node):
    """The wrong forms of a node, as source texts."""
    if isinstance(node, ast.Compare) and type(node.ops[0]) in SWAPS:
        yield ast.unparse(ast.Compare(node.left, [SWAPS[type(node.ops[0])](), *node.ops[1:]], node.comparators))
    elif isinstance(node, ast.BoolOp):
        yield f"({ast.unparse(ast.BoolOp(SWAPS[type(node.op)](), node.values))})"
    elif isinstance(node, ast.BinOp) and type(node.op) in SWAPS and not isinstance(node.left, (ast.Constant, ast.JoinedStr)):
        yield f"({ast.unparse(ast.BinOp(node.left, SWAPS[type(node.op)](), node.right))})"
    elif isinstance(node, ast.Constant) and isinstance(node.value, (bool, int)):
        yield str(not node.value if isinstance(node.value, bool) else node.value + 1)
    elif isinstance(node, ast.UnaryOp) and isinstance(node.op, ast.Not):
        yield f"bool({ast.unparse(node.operand)})"
    elif isinstance(node, ast.IfExp):
        yield f"({ast.unparse(ast.IfExp(node.test, node.orelse, node.body))})"
    elif isinstance(node, ast.Return) and node.value is not None and not isinstance(node.value, ast.Constant):
        yield "return None"
    elif isinstance(node, ast.Expr) and isinstance(node.value, ast.Call):
        yield "pass"


def changes_of(text):
    """All changes of a module's functions. (What stands outside of them is mostly types and messages.)"""
    lines, found = [0], []
    for line in text.encode().splitlines(keepends=True):
        lines.append(lines[-1] + len(line))

    def walk(node, names):
        if isinstance(node, (ast.FunctionDef, ast.AsyncFunctionDef, ast.ClassDef)):
            names = [*names, node.name]
            parts = node.body
        elif isinstance(node, ast.AnnAssign):
            parts = [node.value] if node.value else []
        else:
            parts = list(ast.iter_child_nodes(node))
        if names and hasattr(node, "end_lineno") and not isinstance(node, (ast.FunctionDef, ast.ClassDef)):
            begin, end = lines[node.lineno - 1] + node.col_offset, lines[node.end_lineno - 1] + node.end_col_offset
            old = text.encode()[begin:end].decode()
            found.extend(Change(".".join(names), old, new, begin, end) for new in mutated(node))
        for part in parts:
            walk(part, names)
    walk(ast.parse(text), [])
    counts = collections.Counter()
    for at, it in enumerate(found):
        counts[it[:3]] += 1
        found[at] = it._replace(number=counts[it[:3]])
    return found


def reasons():
    """Returns the reasons of those that survive, by what is told of each; none where a line has none."""
    lines = SURVIVORS.read_text(encoding="utf-8").splitlines() if SURVIVORS.exists() else []
    return {told: why.strip() for told, _, why in (it.partition(" # ") for it in lines)}


def lost():
    """A line of the survivors whose change there isn't any more, or that has no reason."""
    made = {}
    for told, why in reasons().items():
        module = told.partition(" ")[0]
        path = PACKAGE / module
        if module not in made:
            made[module] = {it.told(module) for it in changes_of(path.read_text(encoding="utf-8"))} if path.is_file() else set()
        if told not in made[module]:
            yield f"{SURVIVORS.name} has a change that there isn't any more: {told}"
        elif not why:
            yield f"{SURVIVORS.name} has no reason for {told}"
