"""What the modules of this folder share: places, words of commands, commands that are run, seeds, lines, rows of
tables, and what a table rests on.

It puts the tools of this repository, and what their tests share, on the path, so that a module that imports it can
import both behind it.
"""

import argparse
import ast
import copy
import csv
import hashlib
import inspect
import json
import os
import re
import resource
import shutil
import subprocess
import sys
import xml.etree.ElementTree as ElementTree
from collections.abc import Callable, Iterable, Iterator, Sequence
from dataclasses import dataclass
from functools import cache
from pathlib import Path
from typing import NoReturn

TOP = Path(__file__).resolve().parents[1]
TOOLS = TOP / "tools"
sys.path[1:1] = [str(TOOLS), str(TOOLS / "tests")]

SAMPLES, CORRIDOR = TOOLS / "tests/data", TOOLS / "examples/corridor"
SUMO_HOME = os.environ.get("SUMO_HOME", "/usr/share/sumo")
SHIPPED = Path(SUMO_HOME) / "tools/sumolib/scenario/scenarios/RealWorld"  # networks and demands of sumo-tools
RANDOM_TRIPS = f"{SUMO_HOME}/tools/randomTrips.py"

# ---- the measurements, and their words

FOLDERS = {  # by what is asked
    "program": "The program: speed and memory",
    "beside_sumo": "How close to SUMO",
    "planners": "What planners do",
    "repository": "The repository",
    "networks": "Networks for all of these",
}
# The functions main_NAME of modules in these folders are the measurements; each has a text.
MAIN = re.compile(r'^def main_(\w+)\(argv: [^\n]*\n    """(.*?)"""$', re.MULTILINE | re.DOTALL)


@dataclass(frozen=True)
class Command:
    """A measurement: the module that has it, what it answers, and what it takes."""

    name: str
    module: str
    question: str
    takes: str

    @property
    def function(self) -> str:
        return f"main_{self.name.replace('-', '_')}"


def commands_of(folder: str, top: Path = TOP) -> Iterator[Command]:
    """The measurements of a folder; its modules are read, not loaded."""
    for path in sorted((top / "bench" / folder).glob("*.py")):
        for name, text in MAIN.findall(path.read_text(encoding="utf-8")):
            question, takes, *_ = (" ".join(part.split()).rstrip(".") for part in f"{text}\n\n".split("\n\n"))
            yield Command(name.replace("_", "-"), f"{folder}.{path.stem}", question, takes.removeprefix("Takes "))


def all_commands(top: Path = TOP) -> dict[str, Command]:
    """All measurements by name."""
    return {command.name: command for folder in FOLDERS for command in commands_of(folder, top)}


class Parser(argparse.ArgumentParser):
    """A parser that says in one line what it refuses."""

    def error(self, message: str) -> NoReturn:
        self.exit(2, f"{self.prog}: {message}; --help has all words\n")


def parser_of(command: Callable, program: bool = True, work: bool = False) -> argparse.ArgumentParser:
    """A parser whose help is the text of a measurement's function. program: the first word; work: whether it needs a
    folder."""
    name, path = command.__name__.removeprefix("main_").replace("_", "-"), Path(inspect.getfile(command)).resolve()
    parser = Parser(
        prog=f"bench/run {name}",
        description=inspect.getdoc(command),
        epilog=f"It is in {path.relative_to(TOP)}.",
        formatter_class=argparse.RawTextHelpFormatter,
    )
    if program:
        parser.add_argument("program", metavar="PROGRAM", type=found_program, help="the built program")
    if work:
        parser.add_argument("--work", required=True, type=whole_path, help="a folder for what is made")
    return parser


def add_some(parser: argparse.ArgumentParser, word: str, known: Iterable[str], usual: Iterable[str] = ()) -> None:
    """A word for some names of those that are known. usual: where it is not given; all where nothing is told."""
    names = [*known]

    def read(text: str) -> list[str]:
        if unknown := [name for name in text.split(",") if name not in names]:
            raise argparse.ArgumentTypeError(f"{unknown[0]!r} is none of {', '.join(names)}")
        return text.split(",")

    told = f"some, with commas between, of {', '.join(names)}"
    parser.add_argument(word, type=read, default=[*(usual or names)], metavar="NAME,..", help=told)


def found_program(text: str) -> str:
    """The whole path of a program."""
    if not (found := shutil.which(text)):
        raise argparse.ArgumentTypeError(f"no program is at {text}")
    return str(whole_path(found))


def whole_path(text: str) -> Path:
    return Path(text).resolve()


def work_of(args: argparse.Namespace) -> Path:
    """The folder of --work, made where it is not there."""
    args.work.mkdir(parents=True, exist_ok=True)
    return args.work


def numbers(seeds: str) -> range:
    """The seeds of FIRST-LAST, or of one number."""
    first, _, last = seeds.partition("-")
    return range(int(first), int(last or first) + 1)


# ---- commands that are run


def run(words: Iterable[object], folder: Path) -> str:
    """Runs a command in a folder; gives what it said."""
    words = [str(word) for word in words]
    done = subprocess.run(words, cwd=folder, env=with_sumo(), capture_output=True, text=True, check=False)
    if done.returncode:
        raise SystemExit(f"{' '.join(words)}\n{done.stderr}")
    return done.stdout + done.stderr


def with_sumo() -> dict[str, str]:
    """This environment, and where SUMO is."""
    return {**os.environ, "SUMO_HOME": SUMO_HOME}


def children_seconds() -> float:
    """The processor seconds of all processes that this one has waited for, and that these have."""
    used = resource.getrusage(resource.RUSAGE_CHILDREN)
    return used.ru_utime + used.ru_stime


# ---- rows of tables


def print_heads(heads: str) -> None:
    """The head of a table, with bars between."""
    print(f"| {heads} |\n|{'---|' * (heads.count('|') + 1)}", flush=True)


def spread(values: Sequence[float]) -> str:
    """A mean and half the width of its 95 % interval, in whole numbers."""
    from streetsim.base.seeds import mean_and_half_width

    mean, half = mean_and_half_width(values)
    return f"{mean:,.0f}" + (f" ± {half:,.0f}" if half is not None else "")


def teleports_of(statistic: Path) -> int:
    """The teleports of a statistic output of SUMO's."""
    return int(ElementTree.parse(statistic).getroot().find("teleports").get("total"))


def trips_from_wish(tripinfo: Path) -> dict[str, float]:
    """Seconds of each trip of SUMO's from its wished departure, by name."""
    found = ElementTree.parse(tripinfo).getroot().iter("tripinfo")
    return {one.get("id"): float(one.get("duration")) + float(one.get("departDelay")) for one in found}


def durations_here(out: Path) -> dict[str, int]:
    """Seconds of each trip that ended, by name, of the folder of a run."""
    with open(out / "trips.csv", encoding="utf-8") as file:
        return {row["id"]: int(row["duration"]) for row in csv.DictReader(file) if row["duration"]}


# ---- lines of the program


def text_of(command: dict) -> str:
    """A command, or a reply, as the program has it on a line."""
    return json.dumps(command, separators=(",", ":"))


def load(nodes, links, turns, zone: int = 0, dawdle: int = 0, change: int = 0, seed: int = 0) -> dict:
    """The command that loads a network."""
    values = {"zone": zone, "dawdle": dawdle, "change": change, "seed": seed}
    return {"cmd": "load", "nodes": nodes, "links": links, "turns": turns, **values}


def ring_of(links: int, cells: int = 20, lanes: int = 1, first: int = 0, **values: int) -> dict:
    """The command that loads a ring. first: the number of its first link."""
    roads = [[first + at, at, (at + 1) % links, lanes, cells, 5] for at in range(links)]
    turns = [[first + at, lane, first + (at + 1) % links, lane] for at in range(links) for lane in range(lanes)]
    return load([[at, 1, 2] for at in range(links)], roads, turns, **values)


# ---- what a table rests on: what its measurement comes to of bench/, wherever it stands there and whatever it is
# called, the modules of the tools that this and its commands load, and the machine's definitions, all without comments,
# docs and blanks

PARTS = ("script", "tools", "machine")
DEFINING = ("street_base", "street_text")  # the crates that define what is answered
COMMAND = re.compile(r"(?:.*/)?streetsim-([a-z]+)")


def digests_of(command: Command, top: Path) -> dict[str, str]:
    """A digest of each of PARTS for a table that a measurement prints. top: the repository."""
    parts = parts_for(command, top)
    bare = {ast.dump(node) for name in parts for node in bound_in(tree_of(modules(top)[name])).get("", ())}
    return {
        "script": digest([*sorted(bare), Definitions(top).digest(command.module, command.function)]),
        "tools": digest_of_tools(loaded_from(parts.items(), top)),
        "machine": digest(machine(top)),
    }


def is_tool(name: str) -> bool:
    return name.partition(".")[0] == "streetsim"


def digest_of_tools(loaded: dict[str, ast.Module]) -> str:
    return digest(f"{name} {dumped(loaded[name])}" for name in sorted(loaded) if is_tool(name))


def digest(texts: Iterable[str]) -> str:
    found = hashlib.sha256()
    for text in texts:
        found.update(f"{text}\n".encode())
    return found.hexdigest()[:16]


@cache
def tree_of(path: Path) -> ast.Module:
    """A module without the docs of its classes, its functions and itself."""
    tree = ast.parse(path.read_text(encoding="utf-8"))
    for node in ast.walk(tree):
        if isinstance(node, (ast.Module, ast.ClassDef, ast.FunctionDef, ast.AsyncFunctionDef)):
            if ast.get_docstring(node, clean=False) is not None:
                node.body = node.body[1:]
    return tree


@cache
def dumped(tree: ast.Module) -> str:
    """What a module does: its code without docs, comments and layout."""
    return ast.dump(tree)


def parts_for(command: Command, top: Path) -> dict[str, ast.Module]:
    """What a measurement comes to of the modules of bench/ and of the tests' helpers: functions, classes, values, and
    each import from elsewhere. What moves from one of these modules to another stays what it is."""
    paths = {name: path for name, path in modules(top).items() if not is_tool(name)}
    statements: dict[str, dict[str, ast.stmt]] = {}
    to_visit, seen = [(command.module, command.function)], set()
    while to_visit:
        module, used = place = to_visit.pop()
        if place not in seen:
            seen.add(place)
            bound, have = bound_in(tree_of(paths[module])), statements.setdefault(module, {})
            for node in (*bound.get(used.partition(".")[0], ()), *bound.get("", ())):
                part, led = led_to(node, used, paths)
                if led:
                    to_visit.append(led)
                else:
                    have[ast.dump(part)] = part
                    to_visit += [(module, name) for name in names_used(part)]
    return {module: ast.Module([*have.values()], []) for module, have in statements.items()}


@cache
def bound_in(tree: ast.Module) -> dict[str, list[ast.stmt]]:
    """The statements of a module by the names that they bind; by no name those that bind none."""
    found: dict[str, list[ast.stmt]] = {}
    for node in tree.body:
        for name in {*names_bound(node)} or {""}:
            found.setdefault(name, []).append(node)
    return found


def led_to(node: ast.stmt, used: str, known_modules: Iterable[str]) -> tuple[ast.stmt, tuple[str, str] | None]:
    """A statement, of an import what gives a name alone; and the module and name that it leads to, if it is
    one of known_modules."""
    if not isinstance(node, (ast.Import, ast.ImportFrom)):
        return node, None
    name, _, attribute = used.partition(".")
    alias = next(alias for alias in node.names if name in (alias.asname, alias.name.partition(".")[0]))
    if isinstance(node, ast.Import):
        return ast.Import([alias]), (alias.name, attribute) if alias.name in known_modules else None
    if f"{node.module}.{alias.name}" in known_modules:
        return node, (f"{node.module}.{alias.name}", attribute)
    led = (node.module, alias.name) if node.module in known_modules else None
    return ast.ImportFrom(node.module, [alias], node.level), led


class Definitions(ast.NodeTransformer):
    """Digests of what is defined in our modules. In the place of each name of a definition stands the digest of what it
    names, so that neither names nor places of functions and modules count."""

    def __init__(self, top: Path) -> None:
        self.paths = {name: path for name, path in modules(top).items() if not is_tool(name)}
        self.digests: dict[tuple[str, str], str] = {}
        self.within: list[tuple[str, set[str]]] = []  # module of a definition that is looked at, names that it uses

    def digest(self, module: str, used: str) -> str:
        """The digest of what a name means in a module, NAME or of another module MODULE.NAME."""
        name = used.partition(".")[0]
        if (module, used) not in self.digests:
            self.digests[module, used], texts = "itself", []
            for node in bound_in(tree_of(self.paths[module])).get(name, ()):
                part, led = led_to(node, used, self.paths)
                texts.append(self.digest(*led) if led else digest([self.text(module, name, part)]))
            self.digests[module, used] = texts[0] if len(texts) == 1 else digest(texts)
        return self.digests[module, used]

    def text(self, module: str, name: str, node: ast.stmt) -> str:
        """A definition with digests for names. Of a statement that binds several names the place of one counts."""
        position = [*names_bound(node)].index(name) if not isinstance(node, (ast.Import, ast.ImportFrom)) else 0
        self.within.append((module, names_used(node)))
        made = self.visit(copy.deepcopy(node))
        self.within.pop()
        if isinstance(made, (ast.FunctionDef, ast.ClassDef)):
            made.name = ""
        return f"{position} {ast.dump(made)}"

    def visit_inner(self, node: ast.expr) -> ast.expr:
        """A comprehension, or a lambda: its own names mean nothing of the module."""
        targets = [node.args] if isinstance(node, ast.Lambda) else [one.target for one in node.generators]
        walked = [one for target in targets for one in ast.walk(target) if isinstance(one, (ast.arg, ast.Name))]
        own = {one.arg if isinstance(one, ast.arg) else one.id for one in walked}
        module, used = self.within[-1]
        self.within.append((module, {name for name in used if name.partition(".")[0] not in own}))
        made = self.generic_visit(node)
        self.within.pop()
        return made

    visit_ListComp = visit_SetComp = visit_DictComp = visit_GeneratorExp = visit_Lambda = visit_inner

    def visit_Name(self, node: ast.Name) -> ast.Name:
        module, used = self.within[-1]
        bound = bound_in(tree_of(self.paths[module]))
        if isinstance(node.ctx, ast.Store):
            return ast.Name("", node.ctx) if node.id in bound and node.id in used else node
        return ast.Name(self.digest(module, node.id)) if node.id in bound and node.id in used else node

    def visit_Attribute(self, node: ast.Attribute) -> ast.expr:
        module, used = self.within[-1]
        taken = f"{node.value.id}.{node.attr}" if isinstance(node.value, ast.Name) else ""
        bound = bound_in(tree_of(self.paths[module])).get(taken.partition(".")[0], ()) if taken in used else ()
        if any((led_to(one, taken, self.paths)[1] or ("", ""))[1] == node.attr for one in bound):
            return ast.Name(self.digest(module, taken))
        return self.generic_visit(node)


def names_used(node: ast.stmt) -> set[str]:
    """The names of the module that a statement may use, and what it takes of them (NAME.ATTRIBUTE): in a function not
    those that it gives to values of its own, but for those of comprehensions, behind which a name means what it meant
    before."""
    every = [child for child in ast.walk(node) if isinstance(child, ast.Name)]
    inner = [child for part in ast.walk(node) if isinstance(part, ast.comprehension) for child in ast.walk(part.target)]
    own = {child.id for child in {*every} - {*inner} if isinstance(child.ctx, ast.Store)}
    if hasattr(node, "args"):
        own |= {child.arg for child in ast.walk(node.args) if isinstance(child, ast.arg)}
    attributes = [child for child in ast.walk(node) if isinstance(child, ast.Attribute)]
    taken = [child for child in attributes if isinstance(child.value, ast.Name)]
    names = {child.id for child in every} - (own if isinstance(node, ast.FunctionDef) else set())
    return names | {f"{child.value.id}.{child.attr}" for child in taken if child.value.id in names}


def names_bound(node: ast.stmt) -> Iterator[str]:
    """The names that a statement gives to something."""
    if isinstance(node, (ast.FunctionDef, ast.ClassDef)):
        yield node.name
    elif isinstance(node, (ast.Import, ast.ImportFrom)):
        yield from (one.asname or one.name.partition(".")[0] for one in node.names)
    elif isinstance(node, (ast.Assign, ast.AnnAssign)):
        named = (one for target in getattr(node, "targets", None) or [node.target] for one in ast.walk(target))
        yield from (one.id for one in named if isinstance(one, ast.Name) and isinstance(one.ctx, ast.Store))


@cache
def modules(top: Path) -> dict[str, Path]:
    """All modules by the names that measurements import them by: of bench/, of the tests' helpers, of the tools."""
    found = {}
    for folder in (top / "tools/tests", top / "tools", top / "bench"):
        for path in (*folder.glob("*.py"), *folder.glob("[a-z]*/**/*.py")):
            parts = path.relative_to(folder).with_suffix("").parts
            found[".".join(parts[:-1] if parts[-1] == "__init__" else parts)] = path
    return found


def loaded_by(command: Command, top: Path) -> dict[str, ast.Module]:
    """By name what a measurement comes to of our modules, and all modules of the tools that it and its commands
    load."""
    parts = parts_for(command, top)
    return {**parts, **loaded_from(parts.items(), top)}


def loaded_from(begin: Iterable[tuple[str, ast.Module]], top: Path) -> dict[str, ast.Module]:
    """The modules that some modules and their commands load, and these, by name."""
    paths, to_visit = modules(top), [*begin]
    have, loaded = {name for name, _ in to_visit}, {}
    while to_visit:
        name, tree = to_visit.pop()
        package = name if name in paths and paths[name].name == "__init__.py" else name.rpartition(".")[0]
        wanted = needed_by(tree, package, not is_tool(name))
        new = {other: tree_of(paths[other]) for other in wanted if other in paths and other not in have}
        have.update(new)
        loaded.update(new)
        to_visit += new.items()
    return loaded


@cache
def needed_by(tree: ast.Module, package: str, running: bool) -> list[str]:
    """The names that may be modules that a module imports, or whose commands it runs."""
    return sorted({*imported(tree, package), *(commands_in(tree) if running else ())})


def imported(tree: ast.Module, package: str) -> Iterator[str]:
    """The names that may be modules of what is imported, at the top or in functions, with the packages above each."""
    for node in ast.walk(tree):
        if isinstance(node, ast.Import):
            for alias in node.names:
                yield from above(alias.name)
        elif isinstance(node, ast.ImportFrom):
            parents = package.split(".")[: len(package.split(".")) + 1 - node.level] if node.level else []
            begin = ".".join([*parents, *filter(None, [node.module])])
            yield from above(begin)
            yield from (f"{begin}.{alias.name}" for alias in node.names)


def above(name: str) -> Iterator[str]:
    """A name and those of the packages that it lies in."""
    parts = name.split(".")
    return (".".join(parts[:count]) for count in range(1, len(parts) + 1))


def commands_in(tree: ast.Module) -> Iterator[str]:
    """The modules of the commands that a module names in its texts, with those above."""
    for node in ast.walk(tree):
        if isinstance(node, ast.Constant) and isinstance(node.value, str) and (found := COMMAND.fullmatch(node.value)):
            yield from modules_of(found[1])


def modules_of(name: str) -> list[str]:
    """The modules that a command of the tools may be, with those above."""
    return [*above(f"streetsim.cli.{name}"), f"streetsim.cli.{name}_"]


def digest_of_commands(names: Iterable[str], top: Path) -> str:
    """A digest of the modules of the tools that some of their commands load."""
    known = modules(top)
    begin = {one: tree_of(known[one]) for name in names for one in modules_of(name) if one in known}
    return digest_of_tools({**begin, **loaded_from(begin.items(), top)})


@cache
def machine(top: Path) -> tuple[str, ...]:
    """The definitions of the machine and of its lines, without comments and layout. The program is proved to answer as
    they say, so neither its code nor a proof moves a table."""
    paths = (path for crate in DEFINING for path in sorted((top / "crates" / crate / "specs").rglob("*.antt")))
    return tuple(" ".join(re.sub("--.*", "", path.read_text(encoding="utf-8")).split()) for path in paths)
