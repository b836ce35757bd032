"""A page as a list of its tags and texts, and where each stands, so that two pages can be compared."""
import re
from collections.abc import Iterator, Sequence
from dataclasses import dataclass
from difflib import SequenceMatcher
from html import unescape

NUMBER = re.compile(r"\d+(?:[.,]\d+)*")
PAGE_PIECE = re.compile(r"<[^<>]*>|<|[^<]+")  # a tag, or the text between two; each letter is in one, whatever it is
TAG = re.compile(r"<(/?)([a-zA-Z][a-zA-Z0-9]*)")
LONG = 60  # letters of what is said of a difference
MOST_PARTS = 20_000  # pieces in which those are sought that were put in or taken out
HEADS = ("h1", "h2", "h3")


@dataclass(slots=True, frozen=True)
class Mismatch:
    """What a page says somewhere, and what was found there anew."""

    place_in_words: str
    stated_text: str
    remade_text: str

    def in_words(self) -> str:
        """The difference in words; long texts cut to what is around it."""
        said, found = around_difference(self.stated_text, self.remade_text)
        return f"{self.place_in_words}: said {said!r}, found {found!r}"


def around_difference(stated_text: str, remade_text: str) -> tuple[str, str]:
    """(stated_text, remade_text); where one is longer than 60 letters, of both the 60 or so around their first
    difference."""
    if len(stated_text) <= LONG and len(remade_text) <= LONG:
        return stated_text, remade_text
    at = first_difference(stated_text, remade_text)
    begin = max(0, at - LONG // 3)
    return stated_text[begin : begin + LONG], remade_text[begin : begin + LONG]


def first_difference(values: Sequence[object], other_values: Sequence[object]) -> int:
    """The first place at which two sequences differ; the length of the shorter one where that is the other's begin."""
    shorter = min(len(values), len(other_values))
    return next((at for at, (a, b) in enumerate(zip(values, other_values)) if a != b), shorter)


class PiecePlaces:
    """Where the pieces of a page are: goes over them, and knows the section, row and column."""

    def __init__(self) -> None:
        """Before the page's begin."""
        self.heads = {name: "" for name in HEADS}
        self.open = ""  # the heading or cell that is read
        self.columns: list[str] = []
        self.column, self.row = -1, ""

    def place_in_words(self) -> str:
        """Where that is, in words: headings, row and column; 'the page's head' before any of these."""
        heads = [self.heads["h2"] or self.heads["h1"], self.heads["h3"]]
        column = self.columns[self.column] if 0 <= self.column < len(self.columns) else ""
        return ", ".join(filter(None, [*heads, self.row, column])) or "the page's head"

    def pass_piece(self, page_piece: str) -> None:
        """Goes over a piece, a tag or a text."""
        if not (tag := TAG.match(page_piece)):
            self.note_text(unescape(page_piece))
        elif tag[1]:
            self.note_end(tag[2])
        else:
            self.note_begin("row" if tag[2] == "th" and 'scope="row"' in page_piece else tag[2])

    def note_begin(self, tag: str) -> None:
        """Notes by its tag that a heading, table, row, cell or other block begins; 'row': the cell that heads a row."""
        if tag in HEADS:
            self.open, self.column, self.row = tag, -1, ""
            for name in HEADS[HEADS.index(tag) :]:
                self.heads[name] = ""
        elif tag == "table":
            self.columns, self.row = [], ""
        elif tag == "tr":
            self.column, self.row = -1, ""
        elif tag == "row":
            self.column, self.open = 0, "td"
        elif tag in ("td", "th"):
            self.column, self.open = self.column + 1, tag
            if tag == "th":
                self.columns.append("")
        elif tag in ("p", "ul", "figure", "svg", "nav"):
            self.column, self.row = -1, ""

    def note_end(self, tag: str) -> None:
        """Notes that a heading, cell or table is over."""
        if tag in (*HEADS, "td", "th"):
            self.open = ""
        if tag == "table":
            self.columns, self.column, self.row = [], -1, ""

    def note_text(self, text: str) -> None:
        """Notes the text of a heading, or of the cell that heads a row or column."""
        if self.open in HEADS:
            self.heads[self.open] += text
        elif self.open == "th" and self.columns:
            self.columns[-1] += text
        elif self.open == "td" and self.column == 0:
            self.row += text


def places_of(page_pieces: Sequence[str]) -> list[str]:
    """Where each piece of a page is."""
    piece_places, found = PiecePlaces(), []
    for piece in page_pieces:
        piece_places.pass_piece(piece)
        found.append(piece_places.place_in_words())
    return found


def numbers_in(text: str) -> int:
    """How many numbers a page of the tools has, in texts and in attributes of tags, as those of SVG pictures; not in
    its styles and scripts, what is sealed among them, or in the names of tags, as h2."""
    hidden = r"<(style|script)\b.*?</\1>|</?[a-zA-Z][a-zA-Z0-9]*"
    return len(NUMBER.findall(re.sub(hidden, "", text, flags=re.DOTALL)))


def page_mismatches(stated_page: str, remade_page: str) -> list[Mismatch]:
    """The mismatches of two pages (HTML), the one that is checked (stated_page) and the one made anew (remade_page):
    one at least where they differ, none where they are equal to the byte."""
    if stated_page == remade_page:
        return []
    return list(mismatches(PAGE_PIECE.findall(stated_page), PAGE_PIECE.findall(remade_page)))


def mismatches(stated_pieces: Sequence[str], remade_pieces: Sequence[str]) -> Iterator[Mismatch]:
    """What differs of the pieces of two pages, as of page_mismatches: one by one where they have equally many, else the
    parts that were put in, taken out or changed, and as one where these are long."""
    piece_places = places_of(remade_pieces) or [""]
    if len(stated_pieces) == len(remade_pieces):
        for one, other, piece_place in zip(stated_pieces, remade_pieces, piece_places, strict=True):
            if one != other:
                yield Mismatch(piece_place, one.strip() or one, other.strip() or other)
        return
    begin = first_difference(stated_pieces, remade_pieces)
    rest = min(len(stated_pieces), len(remade_pieces)) - begin
    end = min(first_difference(stated_pieces[::-1], remade_pieces[::-1]), rest)
    changed_pieces = stated_pieces[begin : len(stated_pieces) - end], remade_pieces[begin : len(remade_pieces) - end]
    spans = [("replace", 0, len(changed_pieces[0]), 0, len(changed_pieces[1]))]
    if max(map(len, changed_pieces)) <= MOST_PARTS:
        spans = SequenceMatcher(None, *changed_pieces).get_opcodes()
    for kind, first, last, start, stop in spans:
        if kind != "equal":
            piece_place = piece_places[min(begin + start, len(piece_places) - 1)]
            yield Mismatch(piece_place, "".join(changed_pieces[0][first:last]), "".join(changed_pieces[1][start:stop]))
