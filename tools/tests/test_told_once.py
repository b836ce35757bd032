"""No fact stands twice: no two sentences of the pages share eight words in a row. And the decisions keep their form."""
import re
import unittest
from collections import defaultdict
from collections.abc import Iterator, Mapping
from itertools import combinations

from support import TOOLS, Case

TOP = TOOLS.parent
PLACES = ("docs/*.md", "tools/*.md", "bench/*.md", "*.md")
HISTORY = {"CHANGELOG.md"}  # tells again what pages say, as it is of a version
ROW = 8  # words
CODE = re.compile(r"`[^`\n]*`")
LINK = re.compile(r"\]\([^)]*\)")
# What is no prose: walks and other code, by fences and by indentation, and tables.
FENCE = re.compile(r"^ *```.*?^ *```$", re.MULTILINE | re.DOTALL)
INDENTED = re.compile(r"\n\n(?: {4}.*\n)+")
TABLE = re.compile(r"^ *\|.*$", re.MULTILINE)
# Where a thought ends: at a point, an entry of a list, a heading, an empty line.
END = re.compile(r"[.:;!?](?=\s)|\n(?= *(?:[-*#]|\d+\.) )|\n\s*\n")
# Rows of words that stand twice with reason, and the reason.
SHARED: dict[str, str] = {}
# Pages that have not been gone through: what these share with each other is not looked at.
NOT_YET: set[str] = set()

DECISIONS = "docs/DECISIONS.md"
ENTRY = ("- **", "  *Chosen:* ", "  *Why:* ", "  *Change:* ")
MOST_ENTRIES, MOST_WORDS = 60, 6_000
Place = tuple[str, int]  # a page, and the number of a sentence on it


def pages() -> dict[str, str]:
    """The texts of the pages by their paths."""
    found = {str(path.relative_to(TOP)): path for place in PLACES for path in sorted(TOP.glob(place))}
    return {name: path.read_text(encoding="utf-8") for name, path in found.items() if name not in HISTORY}


def thoughts(text: str) -> list[str]:
    """The sentences of a page without tables, walks and code, in lower case."""
    prose = TABLE.sub("\n", INDENTED.sub("\n\n", FENCE.sub("\n\n", text)))
    return END.split(LINK.sub("]", CODE.sub(" . ", prose)).lower())


def rows_of(thought: str) -> Iterator[str]:
    """Each eight words in a row of a sentence."""
    words = re.findall(r"[\w'%²]+", thought)
    return (" ".join(words[at : at + ROW]) for at in range(len(words) - ROW + 1))


def told_twice(texts: Mapping[str, str], not_yet: set[str]) -> list[tuple[str, str, str]]:
    """Two pages, or twice one, and the first eight words that a sentence of the one shares with one of the other; pairs
    of pages that are both in not_yet are left out."""
    places: dict[str, list[Place]] = defaultdict(list)
    for name, text in texts.items():
        for number, thought in enumerate(thoughts(text)):
            for row in {*rows_of(thought)}:
                places[row].append((name, number))
    pairs: dict[tuple[Place, Place], str] = {}
    for row, found in places.items():
        for one, other in combinations(found, 2):
            if not not_yet.issuperset((one[0], other[0])):
                pairs.setdefault((one, other), row)
    return sorted((one, other, row) for ((one, _), (other, _)), row in pairs.items())


class ToldOnce(Case):
    def test_no_sentence_says_what_another_says(self):
        self.assertEqual([found for found in told_twice(pages(), NOT_YET) if found[2] not in SHARED], [])

    def test_exceptions_are_needed(self):
        texts = pages()
        self.assertEqual(set(SHARED).difference(row for _, _, row in told_twice(texts, set())), set())
        self.assertEqual(NOT_YET.difference(texts), set())

    def test_what_is_told_twice_is_found(self):
        row = "a bus waits half a minute for the right lane"
        texts = {
            "a": f"# Page\n\n- So {row}.\n", "b": f"Then\n{row} and stops.\n\n| {row} of all |\n",
            "c": f"```\n{row}\n```\n\n    {row}\n\n| {row} |\n\nA bus waits. Half a minute for `the` right lane.\n",
            "d": "Each day the gate serves what the page has. We know: each day the gate serves what the page is.",
        }  # fmt: skip
        found = [(one, other) for one, other, _ in told_twice(texts, {"c"})]
        self.assertEqual(found, [("a", "b"), ("d", "d")])
        self.assertEqual(told_twice(texts, {*texts}), [])


class Decisions(Case):
    @staticmethod
    def forms(text: str) -> str:
        """The only chapter with a table: its heading, a sentence and a row for each call or type."""
        found = re.search(r"^## Forms of calls\n.*?(?=^## )", text, re.MULTILINE | re.DOTALL)
        return found[0] if found else ""

    def test_entries_have_four_lines(self):
        text = (TOP / DECISIONS).read_text(encoding="utf-8")
        entries = text.partition("\n## ")[2].replace(self.forms(text), "")
        lines = [line for line in entries.splitlines()[1:] if line and not line.startswith("## ")]
        self.assertEqual([line for at, line in enumerate(lines) if not line.startswith(ENTRY[at % len(ENTRY)])], [])
        self.assertLessEqual(len(lines), MOST_ENTRIES * len(ENTRY))
        self.assertEqual(len(lines) % len(ENTRY), 0)
        self.assertLessEqual(len(text.split()), MOST_WORDS)

    def test_forms_are_those_of_the_code(self):
        chapter = self.forms((TOP / DECISIONS).read_text(encoding="utf-8"))
        rows = [line.split(" | ") for line in chapter.splitlines() if line.startswith("| `")]
        self.assertEqual([row for row in rows if len(row) != 4], [])
        code = "\n".join(path.read_text(encoding="utf-8") for path in sorted(TOP.glob("crates/*/src/**/*.rt")))
        named = [re.findall(r"`([\w:]+)`", row[0]) for row in rows]
        self.assertEqual([row for row, names in zip(rows, named, strict=True) if not names], [])
        words = [word.rpartition("::")[2] for names in named for word in names]
        self.assertGreater(len(words), 30)
        self.assertEqual([word for word in words if not re.search(rf"\b(fn|enum|struct|trait) {word}\b", code)], [])


if __name__ == "__main__":
    unittest.main()
