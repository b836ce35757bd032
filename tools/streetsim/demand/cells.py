"""Reads CSV tables of planners, with commas, semicolons or tabs; each row knows its line. All readers of tables here
use it: counts, matrices, zones, travel times."""
import csv
from codecs import BOM_UTF8
from collections.abc import Callable, Collection, Iterator, Mapping, Sequence
from dataclasses import dataclass
from difflib import get_close_matches
from itertools import chain
from typing import IO, TypeVar

from streetsim.base.files import Fault, FilePath, at_least_zero, number, open_bytes, open_text, reading
from streetsim.base.unpacking import CHUNK, lines_of
from streetsim.model.tables import unguarded

Converted = TypeVar("Converted")
SEPARATORS = (";", "\t", ",")
MOST_SECONDS = 1_000_000_000


@dataclass(frozen=True, slots=True)
class TableRow:
    """A row of a table: texts by column; line: of the file, from 1."""

    path: FilePath
    line: int
    cells: Mapping[str, str]

    @property
    def location(self) -> str:
        """The file and its line, as faults name it."""
        return f"{self.path}: line {self.line}"

    def get(self, name: str, convert: Callable[[str], Converted]) -> Converted:
        """What a column has, without blanks around it, converted; Fault where `convert` raises ValueError, whose words
        it tells; KeyError where the table does not have the column."""
        text = self.cells[name].strip()
        try:
            return convert(text)
        except ValueError as fault:
            raise Fault(f"{self.location}: {name} {text!r} {fault}") from None

    def text(self, name: str) -> str:
        """What a column has, without blanks around it; empty where the table does not have the column."""
        return self.cells.get(name, "").strip()


def table_rows(path: FilePath, required: Sequence[str], optional: Collection[str] = ()) -> Iterator[TableRow]:
    """The rows of a table whose first row has the columns `required`, and maybe those of `optional` (given in small
    letters; the file may have capital ones). Blank rows, and those that begin with #, are left out. Fault where the
    file cannot be read or is no such table: a column is missing, stands there twice or is none of these, or
    a row has more or fewer values than the first."""
    with reading(path), open_text(path) as file:
        rows = values_in(path, file)
        line, head = next(rows, (0, []))
        if not head:
            raise Fault(f"{path}: nothing is in it; expected the columns {','.join(required)}")
        names = [name.strip().lower() for name in head]
        check_columns(f"{path}: line {line}", names, required, optional)
        for line, values in rows:
            if len(values) != len(names):
                raise Fault(f"{path}: line {line}: {len(values)} values, and the first line has {len(names)} columns")
            yield TableRow(path, line, dict(zip(names, map(unguarded, values), strict=True)))


def values_in(path: FilePath, file: IO[str]) -> Iterator[tuple[int, list[str]]]:
    """(the line on which it begins, its values) of each row that is not blank and does not begin with #; the first one
    tells what stands between values. Fault for a quote that is not closed, or a text right behind one."""
    lines, separator = enumerate(lines_of(file), 1), ""
    for line, text in lines:
        if not text.strip() or text.startswith("#"):
            continue
        separator = separator or next((mark for mark in SEPARATORS if mark in text), ",")
        row = chain([text], (further for _, further in lines))  # as many lines as its quotes span
        try:
            values = next(csv.reader(row, delimiter=separator, strict=True))
        except csv.Error as fault:
            raise Fault(f"{path}: line {line}: not CSV: {fault}") from None
        if any(value.strip() for value in values):
            yield line, values


def check_columns(location: str, names: Sequence[str], needed: Sequence[str], more: Collection[str]) -> None:
    """Fault for a table without a needed column, with one that is neither needed nor one of `more`, or with one twice.
    location: the file and the line of its columns; names: these."""
    if missing := [name for name in needed if name not in names]:
        raise Fault(f"{location}: no column {missing[0]!r}; it has {','.join(names)}")
    known = [*needed, *more]
    if unknown := [name for name in names if name not in known]:
        near = get_close_matches(unknown[0], known, 1)
        hint = f": {near[0]!r}?" if near else ""
        raise Fault(f"{location}: column {unknown[0]!r} is none of {','.join(known)}{hint}")
    if len(set(names)) < len(names):
        raise Fault(f"{location}: a column twice")


def clock_of(text: str) -> int:
    """Whole seconds, 0 to 1,000,000,000, of 3600, 01:00:00, 0:01:00:00 (with days), or 01:00 (HH:MM) as planners write
    it, with minutes and seconds below 60; maybe with .00 behind, as SUMO writes. ValueError otherwise."""
    parts = text.split(":")
    try:
        values = [float(part) for part in reversed(parts if len(parts) != 2 else [*parts, "0"])]
    except ValueError:
        values = []
    value = sum(part * scale for part, scale in zip(values, (1, 60, 3600, 86_400)))
    below = len(values) == 1 or all(0 <= part < 60 for part in values[:2])
    if not (1 <= len(values) <= 4 and below and 0 <= value <= MOST_SECONDS and value == int(value)):
        raise ValueError("is no time in whole seconds, HH:MM or HH:MM:SS")
    return int(value)


def vehicle_number(text: str) -> float:
    """A number of vehicles from 0 on, not always whole, as it may be a mean over days; ValueError otherwise."""
    try:
        return at_least_zero(number)(text)
    except ValueError:
        raise ValueError("is no number of vehicles") from None


def name_of(text: str) -> str:
    """The text itself, as a name; ValueError where it is empty."""
    if not text:
        raise ValueError("names nothing")
    return text


def period_of(begin: int, end: int, location: str) -> tuple[int, int]:
    """(begin, end) in seconds; Fault, with its location, if the end is not after the begin."""
    if end <= begin:
        raise Fault(f"{location}: the period ends at {end:,} s, and begins at {begin:,} s")
    return begin, end


def begins_with(path: FilePath, mark: str) -> bool:
    """Whether a file begins with a mark of ASCII, blanks, blank lines and a byte order mark apart; Fault where it
    cannot be read. It may be of any encoding that has ASCII in it, as files of XML tell theirs inside."""
    with reading(path), open_bytes(path) as file:
        begin = file.read(CHUNK).removeprefix(BOM_UTF8).lstrip()
        return begin.startswith(mark.encode())
