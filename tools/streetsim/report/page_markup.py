"""HTML of a page: tables, lists, numbers with intervals, images, the whole page."""
import re
from collections.abc import Iterable, Sequence
from dataclasses import dataclass
from html import escape
from itertools import chain, repeat
from pathlib import Path

from streetsim.base.seeds import mean_and_half_width
from streetsim.model.service import COLOURS, WHITE_LETTERS
from streetsim.report.plan_differences import PlanDifference

CHECK = '<p class="small"><a href="#check">How to check the numbers of this page</a>: at its end.</p>'


@dataclass(slots=True, frozen=True)
class Section:
    """A part of a page: title as plain text, content as HTML."""

    name: str  # by which links find it
    title: str
    content: str


def table(head: Sequence[str], rows: Iterable[Sequence[str]], names: int = 1) -> str:
    """A table as HTML; the first `names` columns are names, the others numbers. Cells and head are HTML already."""

    def line(tag: str, cells: Sequence[str]) -> str:
        """A row, as HTML, with cells of a tag, th or td."""
        kinds = chain(repeat(' class="name"', names), repeat(""))
        return f"<tr>{''.join(f'<{tag}{kind}>{cell}</{tag}>' for kind, cell in zip(kinds, cells))}</tr>"

    body = "\n".join(line("td", row) for row in rows)
    return f'<div class="wide"><table><thead>{line("th", head)}</thead><tbody>{body}</tbody></table></div>'


def facts(rows: Iterable[tuple[str, str]]) -> str:
    """A table of (what, text), as HTML; both are HTML already."""
    line = '<tr><th class="name" scope="row">{}</th><td class="name">{}</td></tr>'
    lines = "".join(line.format(*row) for row in rows)
    return f'<div class="wide"><table class="facts">{lines}</table></div>'


def bullets(texts: Iterable[str]) -> str:
    """A list of plain texts, as HTML."""
    return f"<ul>{''.join(f'<li>{escape(text)}</li>' for text in texts)}</ul>"


def mean_told(seed_values: Iterable[float]) -> str:
    """The mean of values of several seeds with one decimal, and the half of its 95 % interval where there are several;
    'none' for no value."""
    seed_values = list(seed_values)
    if not seed_values:
        return "none"
    mean, half = mean_and_half_width(seed_values)
    return f"{mean:.1f}" + (f" ± {half:.1f}" if half is not None else "")


def change_told(difference: PlanDifference) -> str:
    """A change as text, bold (HTML) where it stands out."""
    return f'<span class="bold">{difference.in_words()}</span>' if difference.stands_out() else difference.in_words()


def level_styles() -> str:
    """The styles of levels of service on their colours, as CSS."""
    return "\n".join(
        f".los-{letter} {{ background: {colour}; color: {'#fff' if letter in WHITE_LETTERS else '#000'} }}"
        for letter, colour in COLOURS.items()
    )


def section_html(section: Section) -> str:
    """A section with its heading, as HTML."""
    head = f'<h2 id="{section.name}">{escape(section.title)}</h2>'
    return f'<section aria-labelledby="{section.name}">{head}{section.content}</section>'


def page(
    title: str, lead: str, first_sections: Sequence[Section], appendix: Sequence[Section], check_html: str = ""
) -> str:
    """The whole page, as HTML, of page.html: title (plain text), lead (HTML) at its head, the sections of the first
    page, those of the appendix after their contents, and check_html at the end: how to check it, with a link."""
    text = (Path(__file__).parent / "page.html").read_text(encoding="utf-8")
    links = "".join(f'<li><a href="#{one.name}">{escape(one.title)}</a></li>' for one in appendix)
    contents = f'<nav aria-label="Appendix"><h2>Appendix</h2><ol>{links}</ol></nav>'
    after = "\n".join(map(section_html, appendix))
    filled = {
        "TITLE": escape(title), "LEAD": lead, "LEVELS": level_styles(), "LAST": check_html,
        "CONTENTS": contents if appendix else "",
        "FIRST": "\n".join(map(section_html, first_sections)) + (CHECK if check_html else ""),
        "APPENDIX": f'<div class="appendix">\n{after}\n</div>' if appendix else "",
    }
    return re.sub("@([A-Z]+)@", lambda mark: filled[mark[1]], text)
