"""The names that programs of users may import are those that PYTHON lists."""
import re
import unittest
from importlib import import_module

from support import TOOLS, Case

ROW = re.compile(r"^\| `([a-z.]+)` \| (.*`\w+`) \|$", re.MULTILINE)
BEGIN = "**Names for programs.**"
MADE_OF = {"client": "streetsim.base.client", "env": "streetsim.env"}  # where the classes of a module are made
PLAIN = {"PlainBox", "PlainDiscrete", "Discrete", "MultiDiscrete", "LightAgent", "Commands"}  # parts of others


def listed():
    """By module the names that the table has."""
    table = (TOOLS / "PYTHON.md").read_text(encoding="utf-8").split(BEGIN)[1].split("\n\n")[1]
    return {module: set(re.findall(r"`(\w+)`", names)) for module, names in ROW.findall(table + "\n")}


def imported(text):
    """(module, names) of each import from streetsim in a text."""
    for module, names in re.findall(r"^\s*from streetsim\.([\w.]+) import ([\w, ]+)", text, re.MULTILINE):
        yield module, [name.split(" as ")[0].strip() for name in names.split(",")]


class PublicNames(Case):
    def test_each_listed_name_is_there(self):
        found = listed()
        self.assertGreater(len(found), 10)
        for module, names in found.items():
            given = import_module(f"streetsim.{module}")
            self.assertEqual([name for name in sorted(names) if not hasattr(given, name)], [], module)

    def test_what_modules_give_is_listed(self):
        """Their __all__, or where they have none the classes that are made there."""
        found = listed()
        for module in ("scenario", "traci"):
            self.assertEqual(found[module], {*import_module(f"streetsim.{module}").__all__}, module)
        for module, made in MADE_OF.items():
            given = vars(import_module(f"streetsim.{module}")).items()
            classes = {name for name, one in given if isinstance(one, type) and one.__module__ == made}
            self.assertEqual({name for name in classes - PLAIN if not name.startswith("_")} - found[module], set())

    def test_pages_import_what_is_listed(self):
        found = listed()
        for path in TOOLS.glob("*.md"):
            for module, names in imported(path.read_text(encoding="utf-8")):
                self.assertLessEqual({*names}, found[module], (path.name, module))

    def test_a_name_that_went_warns(self):
        from streetsim import files

        with self.assertWarnsRegex(DeprecationWarning, "streetsim.files.tell_fault is print_fault now"):
            self.assertIs(files.tell_fault, files.print_fault)
        with self.assertRaises(AttributeError):
            files.no_name


if __name__ == "__main__":
    unittest.main()
