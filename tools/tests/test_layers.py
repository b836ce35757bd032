"""The packages of the tools lie in layers: what a module imports lies in its own package or below it, and nothing
imports in a circle. Imports inside functions and for hints alone count as all others do. What goes from one layer to
another has a name: no words of a command below the commands, few arguments."""
import ast
import subprocess
import sys
import unittest
from collections import defaultdict

from support import TOOLS, Case

# From the ground up. What reads results lies below what runs them, so that reading loads no simulation; pictures lie
# below the searches and studies that draw them. The commands have one file each; scenarios and TraCI's calls are for
# users' own programs, and begin a run by the words of the command streetsim-import.
LAYERS = (
    *("base", "model", "report", "sumo", "kernel", "control", "observe"),
    *("search", "demand", "sheet", "live", "cli", "simulation", "scenario", "traci", "env"),
    *("client", "engine", "files"),  # base's, by the names that users' programs have for them
)
MOST_PACKAGES = 14
MOST_ARGUMENTS = 7
FIRST_OF_RUNS = LAYERS.index("sumo")


def modules_in(folder):
    """The sources of a package by the names of its modules."""
    found = {}
    for path in sorted(folder.rglob("*.py")):
        parts = path.relative_to(folder.parent).with_suffix("").parts
        found[".".join(parts[:-1] if parts[-1] == "__init__" else parts)] = path
    return found


def tree_of(path):
    return ast.parse(path.read_text(encoding="utf-8"))


def many_arguments(tree):
    """The functions that take more than seven, with self."""
    for node in ast.walk(tree):
        if isinstance(node, ast.FunctionDef):
            taken = [*node.args.posonlyargs, *node.args.args, *node.args.kwonlyargs]
            if len(taken) > MOST_ARGUMENTS:
                yield node.name


def imports_of(name, path, names):
    """The modules, of some names, that a module imports anywhere: at its top, in functions, for hints."""
    package = name if path.name == "__init__.py" else name.rpartition(".")[0]
    for node in ast.walk(tree_of(path)):
        if isinstance(node, ast.Import):
            yield from (one.name for one in node.names if one.name in names)
        elif isinstance(node, ast.ImportFrom):
            parents = package.split(".")[: len(package.split(".")) + 1 - node.level] if node.level else []
            begin = ".".join([*parents, *([node.module] if node.module else [])])
            inside = (f"{begin}.{one.name}" for one in node.names)
            yield from (one if one in names else begin for one in inside if one in names or begin in names)


def graph_of(folder):
    """What each module of a package imports of it, but for the package itself."""
    modules = modules_in(folder)
    return {name: {*imports_of(name, path, modules)} - {name, folder.name} for name, path in modules.items()}


def names_twice(modules):
    """Names of classes that stand more than once, by name the modules where they do."""
    found = defaultdict(list)
    for module, path in modules.items():
        for node in ast.walk(tree_of(path)):
            if isinstance(node, ast.ClassDef):
                found[node.name].append(module)
    return {name: places for name, places in found.items() if len(places) > 1}


def layer(name):
    """The place of a module's layer, counted from the ground."""
    return LAYERS.index(name.split(".")[1])


def upward(graph):
    """Imports of what lies above."""
    pairs = ((name, other) for name in graph if "." in name for other in sorted(graph[name]))
    return [f"{name} imports {other}" for name, other in pairs if layer(other) > layer(name)]


def circles(graph):
    """What imports in a circle, or lies between two circles: what is left when all that imports nothing more, and all
    that nothing more imports, is taken away again and again."""
    left = {name: set(others) for name, others in graph.items()}
    while free := {name for name in left if not left[name] or not any(name in others for others in left.values())}:
        left = {name: others - free for name, others in left.items() if name not in free}
    return sorted(left)


def of_packages(graph):
    """The same graph of packages."""
    found = defaultdict(set)
    for name, others in graph.items():
        own = ".".join(name.split(".")[:2])
        found[own].update({".".join(other.split(".")[:2]) for other in others} - {own})
        for other in found[own]:
            found.setdefault(other, set())
    return found


class Layers(Case):
    def test_each_package_has_its_layer(self):
        parts = {name.split(".")[1] for name in modules_in(TOOLS / "streetsim") if "." in name}
        self.assertEqual(parts - {*LAYERS}, set())

    def test_packages_are_few(self):
        packages = [path.parent.name for path in (TOOLS / "streetsim").rglob("*/__init__.py")]
        self.assertLessEqual(len(packages), MOST_PACKAGES, packages)

    def test_no_class_has_the_name_of_another(self):
        """Also of one in another module: who reads a name knows the class."""
        self.assertEqual(names_twice(modules_in(TOOLS / "streetsim")), {})

    def test_no_import_goes_up(self):
        self.assertEqual(upward(graph_of(TOOLS / "streetsim")), [])

    def test_no_modules_import_in_a_circle(self):
        self.assertEqual(circles(graph_of(TOOLS / "streetsim")), [])

    def test_no_packages_import_in_a_circle(self):
        self.assertEqual(circles(of_packages(graph_of(TOOLS / "streetsim"))), [])

    def test_reading_results_loads_nothing_that_runs_them(self):
        readers = [name for name in modules_in(TOOLS / "streetsim") if "." in name and layer(name) < FIRST_OF_RUNS]
        text = f"import sys\nfrom importlib import import_module\nfor name in {readers!r}:\n    import_module(name)\n"
        text += "print(*(name for name in sys.modules if name.startswith('streetsim.')))"
        done = subprocess.run([sys.executable, "-c", text], cwd=TOOLS, capture_output=True, text=True, check=True)
        self.assertEqual([name for name in done.stdout.split() if layer(name) >= FIRST_OF_RUNS], [])

    def test_functions_take_few_arguments(self):
        """But for the one of the command that has as many."""
        trees = ((name, tree_of(path)) for name, path in modules_in(TOOLS / "streetsim").items())
        found = [(name, one) for name, tree in trees for one in many_arguments(tree)]
        self.assertEqual(found, [("streetsim.base.client", "load")])

    def test_words_of_a_command_stay_in_it(self):
        for name, path in modules_in(TOOLS / "streetsim").items():
            if name.split(".")[1:2] != ["cli"]:
                attributes = {node.attr for node in ast.walk(tree_of(path)) if isinstance(node, ast.Attribute)}
                self.assertNotIn("Namespace", attributes, name)

    def test_what_goes_up_in_circles_or_by_one_name_is_found(self):
        package = self.folder / "streetsim"
        for name, text in (
            ("__init__", ""),
            ("base/low", "def late():\n    from ..kernel import high\n"),
            ("model/one", "from streetsim.base import low\nfrom . import two\n"),
            ("model/two", "import streetsim.model.three\n"),
            ("model/three", "if TYPE_CHECKING:\n    from .one import Name\n"),
            ("kernel/high", "from streetsim.base.low import late\n"),
        ):
            path = package / f"{name}.py"
            path.parent.mkdir(parents=True, exist_ok=True)
            path.write_text(text)
        graph = graph_of(package)
        self.assertEqual(upward(graph), ["streetsim.base.low imports streetsim.kernel.high"])
        self.assertEqual(circles(graph), [
            *(f"streetsim.{name}" for name in ("base.low", "kernel.high", "model.one", "model.three", "model.two")),
        ])
        self.assertEqual(circles(of_packages(graph)), ["streetsim.base", "streetsim.kernel"])
        for name in ("low", "lower"):
            self.write(f"{name}.py", "class One:\n    class Two:\n        pass\n")
        modules = {name: self.folder / f"{name}.py" for name in ("low", "lower")}
        self.assertEqual(names_twice(modules), {"One": ["low", "lower"], "Two": ["low", "lower"]})


if __name__ == "__main__":
    unittest.main()
