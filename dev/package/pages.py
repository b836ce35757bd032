"""The repository's pages as HTML: links among them hold, and those to files that are not packed are plain text."""
from __future__ import annotations

import html
import os
import re
import shutil
from pathlib import Path

from markdown_it import MarkdownIt
from markdown_it.token import Token

LEFT_OUT = ("crates", "tests", "debian")  # folders whose pages are for who builds
PICTURES = (".png", ".svg")
PAGE = """<!DOCTYPE html>
<html lang="en">
<head>
<meta charset="utf-8">
<meta name="viewport" content="width=device-width, initial-scale=1">
<title>{title}</title>
<style>
body {{ font: 16px/1.5 sans-serif; max-width: 60em; margin: auto; padding: 1em; color: #222; background: #fff }}
table {{ border-collapse: collapse; display: block; overflow-x: auto }}
th, td {{ border: 1px solid #bbb; padding: .2em .5em; text-align: left; vertical-align: top }}
pre {{ background: #f3f3f3; padding: .6em; overflow-x: auto }} code {{ background: #f3f3f3 }} img {{ max-width: 100% }}
</style>
</head>
<body>
<p><a href="{home}">streetsim</a></p>
{body}</body>
</html>
"""


def pages(top: Path) -> list[Path]:
    """The pages of a tree, from its top."""
    found = (path.relative_to(top) for path in top.rglob("*.md"))
    return sorted(path for path in found if not {*path.parts}.intersection(LEFT_OUT))


def anchor(heading: str) -> str:
    """The word by which a link names a heading."""
    return re.sub(r"[^\w\- ]", "", heading.lower()).replace(" ", "-")


class Pages:
    """The pages of a tree, and where they go."""

    def __init__(self, top: Path, target: Path) -> None:
        self.top, self.target = top.resolve(), target
        self.paths = pages(self.top)
        self.parser = MarkdownIt("commonmark").enable("table")

    def goal(self, page: Path, link: str) -> str | None:
        """A link as the HTML has it; none where what it names is not packed."""
        name, sign, heading = link.partition("#")
        if re.match(r"[a-z]+:", link) or not name:
            return link
        path = Path(os.path.normpath(page.parent / name))
        if path in self.paths:
            return f"{name.removesuffix('.md')}.html{sign}{heading}"
        if path.suffix in PICTURES and (self.top / path).is_file():
            (self.target / path).parent.mkdir(parents=True, exist_ok=True)
            shutil.copyfile(self.top / path, self.target / path)
            return link
        return None

    def change(self, page: Path, tokens: list[Token]) -> None:
        """Changes the links in a line of text, and drops those that lead to nothing."""
        dropped = 0
        for token in list(tokens):
            kind = {"link_open": "href", "image": "src"}.get(token.type)
            if kind:
                goal = self.goal(page, str(token.attrs[kind]))
                token.attrs[kind] = goal or ""
            if token.type == "link_open" and not token.attrs["href"] or token.type == "link_close" and dropped:
                dropped += 1 if token.type == "link_open" else -1
                tokens.remove(token)

    def page_html(self, page: Path) -> str:
        """The HTML of a page."""
        tokens = self.parser.parse((self.top / page).read_text(encoding="utf-8"))
        title = page.stem
        for before, token in zip([None, *tokens], tokens):
            if token.type != "inline":
                continue
            if before is not None and before.type == "heading_open":
                before.attrs["id"] = anchor(token.content)
                title = token.content if before.tag == "h1" else title
            self.change(page, token.children or [])
        body = self.parser.renderer.render(tokens, self.parser.options, {})
        home = os.path.relpath("README.html", page.parent)
        return PAGE.format(title=html.escape(title.replace("`", "")), home=home, body=body)

    def write(self) -> None:
        """Writes all pages. index.html is that of the repository's first one."""
        for page in self.paths:
            path = (self.target / page).with_suffix(".html")
            path.parent.mkdir(parents=True, exist_ok=True)
            path.write_text(self.page_html(page), encoding="utf-8")
        shutil.copyfile(self.target / "README.html", self.target / "index.html")
