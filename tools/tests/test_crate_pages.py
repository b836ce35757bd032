"""The page of each crate that a caller would use: the callers on it stand in files that are proved and run."""
import re
import unittest
from pathlib import Path

from support import TOOLS, Case

CRATES = TOOLS.parent / "crates"
NAMES = ("desk", "engine", "gap", "rule", "stream", "team", "yard")
# A file by its link, and the code behind that line.
CALLER = re.compile(r"\]\(([^)\s]+\.rt)\)[^\n]*\n\n```rust\n(.*?)^```$", re.MULTILINE | re.DOTALL)


def lines_of(text: str) -> list[str]:
    return [line.strip() for line in text.strip().splitlines()]


def stands_in(code: str, text: str) -> bool:
    """Whether the lines of the code are lines of the text, one after another, but for how far they are indented."""
    wanted, there = lines_of(code), lines_of(text)
    return any(there[at : at + len(wanted)] == wanted for at in range(len(there)))


def lost_callers(page: Path) -> list[str]:
    """What is wrong with the callers of a page."""
    text = page.read_text(encoding="utf-8")
    callers = CALLER.findall(text)
    lost = [] if text.count("```rust") == len(callers) > 0 else ["code without its file"]
    for name, code in callers:
        file = page.parent / name
        if not stands_in(code, file.read_text(encoding="utf-8")):
            lost.append(f"{name} has not: {code}")
        if f"#[cfg(test)]\nmod {file.stem};" not in (file.parent / "lib.rt").read_text(encoding="utf-8"):
            lost.append(f"{name} is no module of tests")
    return lost


class CratePages(Case):
    def test_callers(self):
        for name in NAMES:
            with self.subTest(name):
                self.assertEqual(lost_callers(CRATES / f"street_{name}" / "README.md"), [])

    def test_pages_begin_with_a_caller(self):
        for name in NAMES:
            with self.subTest(name):
                lines = (CRATES / f"street_{name}" / "README.md").read_text(encoding="utf-8").splitlines()
                self.assertLess(lines.index("```rust"), 8)
                self.assertLessEqual(len(lines), 64)

    def test_what_is_lost_is_found(self):
        self.write("lib.rt", "#[cfg(test)]\nmod uses;\n")
        self.write("uses.rt", "fn f() {\n    g();\n    h();\n}\n")
        page = "As [uses.rt](uses.rt) has it:\n\n```rust\n{}\n```\n"
        self.assertEqual(lost_callers(Path(self.write("a.md", page.format("g();\nh();")))), [])
        self.assertEqual(len(lost_callers(Path(self.write("b.md", page.format("g();\n}"))))), 1)
        self.assertEqual(lost_callers(Path(self.write("c.md", "```rust\ng();\n```\n"))), ["code without its file"])


if __name__ == "__main__":
    unittest.main()
