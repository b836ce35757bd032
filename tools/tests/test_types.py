"""The hints of the tools hold, as Debian's mypy reads them."""
import shutil
import subprocess
import tempfile
import unittest

from support import TOOLS, Case, needs_package

MYPY = shutil.which("mypy")
# Without a hint, and with an argument of another kind than the hint of the package says.
WRONG = """from streetsim.files import seconds

def twice(text):
    return 2 * seconds(text)

print(seconds(3.5))
"""


@needs_package("mypy", MYPY)
class Types(Case):
    @classmethod
    def setUpClass(cls):
        """One cache for all, as reading the hints of Python's library takes longest."""
        made = tempfile.TemporaryDirectory()
        cls.addClassCleanup(made.cleanup)
        cls.cache = made.name

    def checked(self, *words, status=0):
        """What mypy says by the settings of the package; nothing is left beside the sources."""
        command = [MYPY, "--config-file", TOOLS / "pyproject.toml", "--cache-dir", self.cache, *words]
        done = subprocess.run(command, cwd=TOOLS, capture_output=True, text=True, check=False)
        self.assertEqual((done.returncode, done.stderr), (status, ""), done.stdout)
        return done.stdout

    def test_all_modules(self):
        """But tests and examples."""
        paths = [path.relative_to(top) for top in (TOOLS, TOOLS.parent / "dev") for path in top.rglob("*.py")]
        modules = [path for path in paths if path.parts[0] not in ("tests", "examples")]
        self.assertEqual(self.checked(), f"Success: no issues found in {len(modules)} source files\n")

    def test_what_lacks_hints_and_what_breaks_them_is_found(self):
        told = self.checked(self.write("wrong.py", WRONG), status=1)
        self.assertRegex(told, r"wrong.py:3: error: Function is missing a type annotation  \[no-untyped-def\]\n")
        self.assertRegex(
            told, r'wrong.py:6: error: Argument 1 to "seconds" has incompatible type "float"; expected "str"'
        )
        self.assertTrue(told.endswith("Found 2 errors in 1 file (checked 1 source file)\n"), told)


if __name__ == "__main__":
    unittest.main()
