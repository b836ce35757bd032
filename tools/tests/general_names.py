"""Names of one general word, which do not say what they name: `before` of what, `passed` by whom, `values` of what."""
import ast
from collections.abc import Iterable, Iterator
from pathlib import Path
from typing import NamedTuple

GENERAL_WORDS = frozenset("""
    allowed asked be been begun being bring brought came come comes counted did do does done ended found given go goes
    gone got had has hear heard held hold holds is kept known left made meant named needed noted passed put said saw say
    says see seen sees send sent shown stay stays stopped taken tell tells told wanted was were
    it them they both each many more most much few least any some one ones other others own same such who whole
    after ahead at away back before behind by here in now next of off on out over then there to to_come under up
    what where which new old rest words
    data info item items obj res result results ret stuff temp thing things tmp value values
""".split())
LONGEST_LIFE = 5  # lines between the first and the last one of a name that only its function sees
Function = ast.FunctionDef | ast.AsyncFunctionDef
Definition = Function | ast.ClassDef
Holder = ast.Module | Definition
Comprehension = ast.ListComp | ast.SetComp | ast.DictComp | ast.GeneratorExp


class GeneralName(NamedTuple):
    """A name of one general word: where it first stands, and its classes and functions, outermost first."""

    line: int
    scope: str
    name: str

    def place(self) -> str:
        """The name behind those of its classes and functions."""
        return ".".join(filter(None, (self.scope, self.name)))


def is_general(name: str) -> bool:
    """Whether a name is one general word, whatever its case, and however private."""
    return name.strip("_").lower() in GENERAL_WORDS


def general_names(path: Path) -> list[GeneralName]:
    """Those of a file, line by line: all of a module, a class or an instance; of a function those that live long."""
    return sorted(names_in(ast.parse(path.read_text(encoding="utf-8")), ""))


def names_in(holder: Holder, scope: str) -> Iterator[GeneralName]:
    """Those of a module, a class or a function, and of all that it holds."""
    lines = lives_in(holder) if isinstance(holder, Function) else bound_in(holder, False)
    yield from (GeneralName(line, scope, name) for name, line in lines.items() if is_general(name))
    for definition in (node for node in nodes_in(holder, True) if isinstance(node, Definition)):
        inner = f"{scope}.{definition.name}".lstrip(".")
        if is_general(definition.name):
            yield GeneralName(definition.lineno, scope, definition.name)
        if isinstance(holder, ast.ClassDef) and isinstance(definition, Function):
            attributes = attributes_in(definition).items()
            yield from (GeneralName(line, inner, name) for name, line in attributes if is_general(name))
        yield from names_in(definition, inner)


def nodes_in(holder: ast.AST, comprehensions: bool) -> Iterator[ast.AST]:
    """What stands in a module, a class or a function itself: not in its definitions, which are given, and in its
    comprehensions where these are wanted."""
    for node in ast.iter_child_nodes(holder):
        yield node
        if not isinstance(node, Definition) and (comprehensions or not isinstance(node, Comprehension)):
            yield from nodes_in(node, comprehensions)


def bound_in(holder: Holder, comprehensions: bool) -> dict[str, int]:
    """The first lines of the names that a module, a class or a function binds, but for those of its definitions."""
    nodes = nodes_in(holder, comprehensions)
    return first_lines((node.id, node.lineno) for node in nodes if isinstance(node, ast.Name) and is_bound(node))


def lives_in(function: Function) -> dict[str, int]:
    """The first lines of a function's names that live long: a parameter from the function's first line on. Those of its
    comprehensions count as its own, as one reads them."""
    arguments = function.args
    parameters = [
        *arguments.posonlyargs, *arguments.args, *arguments.kwonlyargs,
        *filter(None, (arguments.vararg, arguments.kwarg)),
    ]
    births = bound_in(function, True) | {parameter.arg: function.lineno for parameter in parameters}
    last_lines: dict[str, int] = {}
    for node in ast.walk(function):
        if isinstance(node, ast.Name):
            last_lines[node.id] = max(node.lineno, last_lines.get(node.id, 0))
    return {name: line for name, line in births.items() if last_lines.get(name, line) - line > LONGEST_LIFE}


def attributes_in(method: Function) -> dict[str, int]:
    """The first lines of the attributes that a method sets on self."""
    attributes = (node for node in ast.walk(method) if isinstance(node, ast.Attribute) and is_bound(node))
    of_self = (node for node in attributes if isinstance(node.value, ast.Name) and node.value.id == "self")
    return first_lines((attribute.attr, attribute.lineno) for attribute in of_self)


def is_bound(node: ast.Name | ast.Attribute) -> bool:
    return isinstance(node.ctx, ast.Store)


def first_lines(pairs: Iterable[tuple[str, int]]) -> dict[str, int]:
    """The least line of each name."""
    lines: dict[str, int] = {}
    for name, line in pairs:
        lines[name] = min(line, lines.get(name, line))
    return lines
