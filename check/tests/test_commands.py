"""Each command of the program stands in each place that ARCHITECTURE lists for who adds one."""
import re
import sys
import unittest
from pathlib import Path

CHECK = Path(__file__).resolve().parents[1]
sys.path.insert(0, str(CHECK))

from commands import PLACES, TOP, WORDS, lacking, read_text, replies_of_changes, without_memory  # noqa: E402


def without(names):
    """A reader of sources from which these words are gone."""
    gone = re.compile(rf"\b(?:{'|'.join(names)})\b")
    return lambda path: gone.sub("gone", read_text(path))


class Places(unittest.TestCase):
    def test_each_place_has_each_command(self):
        self.assertEqual(lacking(read_text), [])

    def test_all_commands_are_known_here(self):
        self.assertEqual(PLACES["the command itself"].commands(read_text), set(WORDS))

    def test_changes_are_told_by_the_same_replies(self):
        """Those of the commands that do something, in the code of a kept session and in its definition."""
        documented, code, defined = replies_of_changes(read_text)
        self.assertEqual(len(documented), 7)
        self.assertEqual(code, documented)
        self.assertEqual(defined, documented)

    def test_want_of_memory_is_said_apart_of_the_same_commands(self):
        defined, code = without_memory(read_text)
        self.assertEqual(len(defined), 4)
        self.assertEqual(code, defined)

    def test_the_place_that_lacks_a_command_is_told(self):
        """Also where other places name the command by its word alone, or by the name of a definition."""
        for name in ("TakeOut", "CloseLane", "Vehicle"):
            told = lacking(without({name, WORDS[name], f"Ask{name}"}))
            wanted = [place for place, at in PLACES.items() if not at.some or name in at.some]
            self.assertEqual([line.partition(",")[0] for line in told if f"no {name}" in line], wanted, name)

    def test_the_page_lists_the_places(self):
        """By the last parts of their files' paths, as the page writes them."""
        page = read_text(TOP / "docs/ARCHITECTURE.md").partition("\n### A command\n")[2].partition("\n### ")[0]
        short = {re.sub(r"^crates/street_(\w+)/(?:src/)?", r"\1/", name) for at in PLACES.values() for name in at.files}
        self.assertEqual([name for name in sorted(short) if f"`{name}`" not in page], [])


if __name__ == "__main__":
    unittest.main()
