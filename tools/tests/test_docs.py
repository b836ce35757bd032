"""What the pages name is there: links with their headings, and in backquotes files, functions and types."""
import re
import subprocess
import unittest
from functools import cache
from pathlib import Path

from support import TOOLS, Case

TOP = TOOLS.parent
LINK = re.compile(r"\]\(([^)\s]+)\)")
CODE = re.compile(r"`([^`\n]+)`")
FENCE = re.compile(r"^ *```.*?^ *```$", re.MULTILINE | re.DOTALL)
# A file of the repository, as a page writes it: of a kind that no tool writes for a user.
FILE = re.compile(r"(?:[\w.-]+/)*[\w-]+\.(?:rt|antt|edit|py|md|js)")
NAME = re.compile(r"[A-Za-z_]\w*(?:(?:::|\.)[A-Za-z_]\w*)*(?:\(\))?")
MEASURED = re.compile(r"bench/run ([a-z][a-z-]*|NAME)")
# Names of other programs, and the end of a crate's name.
FOREIGN = {"MSCFModel", "passingTime", "lefthand", "distributed", "comm", "tls", "listhc", "_tests"}
# Files without names.
PICTURES = (".png", ".gz")
# First pages stay short: words, lines, and bytes, at most.
MOST_WORDS = {"README.md": 1_600}
MOST_LINES = {"tools/README.md": 320}
MOST_BYTES = {"docs/PROOFS.md": 26_000}


@cache
def listed(top):
    """The repository's files by their paths, as git has them, new ones too."""
    words = ["git", "ls-files", "--cached", "--others", "--exclude-standard"]
    told = subprocess.run(words, cwd=top, capture_output=True, text=True, check=True).stdout.split()
    return frozenset(path for path in told if (top / path).exists())


@cache
def words(top):
    """All words of the repository's files, and of their names, but for what the pages alone have."""
    found = set(FOREIGN)
    for path in listed(top):
        if not path.endswith((".md", *PICTURES)):
            found.update(re.findall(r"\w+", f"{path} {(top / path).read_text(encoding='utf-8', errors='replace')}"))
    return found


def pages(top):
    return [top / path for path in sorted(listed(top)) if path.endswith(".md")]


def anchors(text):
    """The words by which a link names a heading."""
    heads = re.findall(r"^#+ +(.*)$", FENCE.sub("", text), re.MULTILINE)
    return {re.sub(r"[^\w\- ]", "", head.lower()).replace(" ", "-") for head in heads}


def lost_links(page):
    """The links of a page that lead nowhere."""
    for link in LINK.findall(CODE.sub("", FENCE.sub("", page.read_text(encoding="utf-8")))):
        name, _, heading = link.partition("#")
        if re.match(r"[a-z]+:", link):
            continue
        goal = page.parent / name if name else page
        if not goal.exists():
            yield f"{page.name}: no {link}"
        elif heading and goal.suffix == ".md" and heading not in anchors(goal.read_text(encoding="utf-8")):
            yield f"{page.name}: no heading {link}"


def short(path):
    """A file of a crate as the pages write it: without the project's name and without the folder of all sources."""
    return re.sub(r"^crates/street_(\w+)/(?:src/)?", r"\1/", path)


def lost_files(page, known):
    """The files that a page has in backquotes and that are not there, by any part of a path."""
    ends = {f"/{name}" for path in known for name in (path, short(path))}
    for code in CODE.findall(FENCE.sub("", page.read_text(encoding="utf-8"))):
        if FILE.fullmatch(code) and not any(end.endswith(f"/{code}") for end in ends):
            yield f"{page.name}: no {code}"


def lost_names(page, known):
    """The names of functions, types and the like that a page has in backquotes and no file has."""
    for code in CODE.findall(FENCE.sub("", page.read_text(encoding="utf-8"))):
        if NAME.fullmatch(code) and not known.issuperset(re.findall(r"\w+", code)):
            yield f"{page.name}: no {code}"


def flush_left(text):
    """A text without the spaces at the begin and the end of its lines."""
    return "\n".join(line.strip() for line in text.splitlines())


class Pages(Case):
    def test_links(self):
        self.assertEqual([lost for page in pages(TOP) for lost in lost_links(page)], [])

    def test_files(self):
        self.assertEqual([lost for page in pages(TOP) for lost in lost_files(page, listed(TOP))], [])

    def test_names(self):
        self.assertEqual([lost for page in pages(TOP) for lost in lost_names(page, words(TOP))], [])

    def test_first_pages_are_short(self):
        for name, most in MOST_WORDS.items():
            self.assertLessEqual(len((TOP / name).read_text(encoding="utf-8").split()), most, name)
        for name, most in MOST_LINES.items():
            self.assertLessEqual(len((TOP / name).read_text(encoding="utf-8").splitlines()), most, name)
        for name, most in MOST_BYTES.items():
            self.assertLessEqual((TOP / name).stat().st_size, most, name)

    def test_edits(self):
        """Each edit that the page of wrong bodies has in its tables is one of the gate's."""
        edits = {path.stem for path in TOP.glob("crates/*/must-fail/*.edit")}
        text = (TOP / "docs/WRONG_BODIES.md").read_text(encoding="utf-8")
        section = text.partition("## The edits of the gate\n")[2].partition("\n## ")[0]
        named = {code for line in section.splitlines() if line.startswith("| ") for code in CODE.findall(line)}
        self.assertGreater(len(named), 20)
        self.assertEqual(sorted(named - edits - {"once"}), [])

    def test_statements(self):
        """The statements that the page of proofs shows stand in the sources line by line, there perhaps further in."""
        text = (TOP / "docs/PROOFS.md").read_text(encoding="utf-8")
        shown = [flush_left(block) for block in re.findall(r"(?ms)^```\n(.*?)^```$", text)]
        files = [*TOP.glob("crates/*/src/*.rt"), *TOP.glob("crates/*/specs/*.antt")]
        sources = [flush_left(path.read_text(encoding="utf-8")) for path in files]
        self.assertEqual(len(shown), 4)
        self.assertEqual([block for block in shown if not any(block in source for source in sources)], [])

    def test_each_measurement_that_a_page_names_is_there(self):
        done = subprocess.run([TOP / "bench/run", "--list"], capture_output=True, text=True, check=True)
        known = dict(re.findall(r"^  ([a-z-]+) +(\S.* \[\S.*\])$", done.stdout, re.MULTILINE))
        lines = [line for line in done.stdout.splitlines() if line.startswith(" ")]
        self.assertEqual(len(known), len(lines))  # each with its question and what it takes
        named = {name for page in pages(TOP) for name in MEASURED.findall(page.read_text(encoding="utf-8"))}
        self.assertEqual(sorted(named - {*known, "NAME"}), [])
        self.assertGreater(len(named), 30)

    def test_what_is_lost_is_found(self):
        links = "[a](#one-head) [b](#two) [c](page.md#one-head) [d](x.md)"
        text = f"# One head\n{links} `y/z.py` `z.py` `Yard::lost` `Yard::at()`\n"
        page = Path(self.write("page.md", text))
        self.assertEqual(list(lost_links(page)), ["page.md: no heading #two", "page.md: no x.md"])
        self.assertEqual(list(lost_files(page, {"page.md", "z.py"})), ["page.md: no y/z.py"])
        self.assertEqual(list(lost_names(page, {"Yard", "at", "z", "py"})), ["page.md: no Yard::lost"])


if __name__ == "__main__":
    unittest.main()
