"""Each column, table, controller, option, input and doubt of the tools stands in each place that ARCHITECTURE lists for
who adds one."""
import re
import sys
import unittest
from pathlib import Path

CHECK = Path(__file__).resolve().parents[1]
sys.path.insert(0, str(CHECK))

from places import TOP, read_text  # noqa: E402
from tool_places import KINDS, TOOLS, lacking  # noqa: E402

# A member of each kind, and the files in which it is lost, one by one.
MEMBERS = {
    "column": "blocked_percent", "table": "segments", "controller": "Rescue", "option": "works-limit",
    "input": "visits", "doubt": "gap_doubts",
}  # fmt: skip


def without(name, files):
    """A reader of sources in which this name is gone from some files."""
    paths = {path for pattern in files for path in TOP.glob(pattern)}
    gone = re.compile(rf"(?<!def )\b{name}\b")
    return lambda path: gone.sub("gone", read_text(path)) if path in paths else read_text(path)


class Places(unittest.TestCase):
    def test_each_place_has_each_member(self):
        self.assertEqual(lacking(read_text), [])

    def test_there_are_members(self):
        for name, kind in KINDS.items():
            self.assertGreater(len(kind.made.members(read_text)), 8, name)

    def test_the_place_that_lacks_a_member_is_told(self):
        for name, kind in KINDS.items():
            for place, at in kind.places.items():
                if at.files != kind.made.files:
                    with self.subTest(place):
                        told = kind.lacking(without(MEMBERS[name], at.files))
                        self.assertEqual(told, [f"{place}, in {' or '.join(at.files)}: no {MEMBERS[name]}"])

    def test_the_page_lists_the_places(self):
        """By their paths in tools/streetsim, as the page writes them."""
        page = read_text(TOP / "docs/ARCHITECTURE.md").partition("\n### In the tools\n")[2].partition("\n## ")[0]
        files = {name for kind in KINDS.values() for at in (kind.made, *kind.places.values()) for name in at.files}
        short = {re.sub(rf"^{TOOLS}/", "", name) for name in files if not name.endswith(".md")}
        self.assertEqual([name for name in sorted(short) if f"`{name.replace('/*.py', '')}" not in page], [])


if __name__ == "__main__":
    unittest.main()
