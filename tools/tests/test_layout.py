"""Lines of Python are short enough to stand beside each other on a screen, and hints say what values are."""
import re
import unittest

from support import TOOLS, Case

TOP = TOOLS.parent
WIDTH = 120
MOST_ANY = 100  # lines
SCRIPTS = ("build", "package", "streetsim", "test")


def is_python(path):
    """Whether a file is of Python: by its name, or where that has no ending by its first line."""
    if path.suffix or not path.is_file():
        return path.suffix == ".py"
    with path.open("rb") as file:
        return b"python" in file.readline(80)


def long_lines(paths):
    """The places of lines that are too long."""
    for path in filter(is_python, paths):
        for number, line in enumerate(path.read_text(encoding="utf-8").splitlines(), 1):
            if len(line) > WIDTH:
                yield f"{path}:{number}: {len(line)} characters, {WIDTH} at most"


class Layout(Case):
    def test_lines(self):
        paths = [path for folder in ("tools", "check", "bench", "dev") for path in sorted((TOP / folder).rglob("*"))]
        self.assertEqual(list(long_lines([*paths, *(TOP / name for name in SCRIPTS)])), [])

    def test_any_is_rare(self):
        """What a value is stands in its hint: `Any` is for libraries without hints, and for JSON as it comes."""
        modules = (path.read_text(encoding="utf-8") for path in (TOOLS / "streetsim").rglob("*.py"))
        lines = [line.split("#")[0] for text in modules for line in text.splitlines()]
        found = [line for line in lines if re.search(r"\bAny\b", line) and not re.match(r" *(from|import) ", line)]
        self.assertLessEqual(len(found), MOST_ANY)

    def test_modules_of_tests_have_names_of_their_own(self):
        """./test loads those of tools/ and of check/ into one process."""
        ours, theirs = ({path.name for path in (TOP / name / "tests").glob("test_*.py")} for name in ("tools", "check"))
        self.assertEqual(ours & theirs, set())

    def test_what_is_too_long_is_found(self):
        line = f"# {'é' * 119}\n"
        for name, text in (("a.py", line), ("b", f"#!/usr/bin/python3\n{line}"), ("c", line), ("d.txt", line)):
            self.write(name, text)
        found = list(long_lines(sorted(self.folder.iterdir())))
        places = (self.folder / "a.py", 1), (self.folder / "b", 2)
        self.assertEqual(found, [f"{path}:{number}: 121 characters, 120 at most" for path, number in places])


if __name__ == "__main__":
    unittest.main()
