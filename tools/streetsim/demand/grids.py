"""Reads tables as offices have them into cells that know their place: CSV with any separator, in UTF-8 or in the code
of Windows, and workbooks (.xlsx)."""
import csv
import datetime
import os
import zipfile
from collections.abc import Iterator, Sequence
from dataclasses import dataclass
from string import ascii_uppercase
from typing import Any

from streetsim.base.files import Fault, FilePath, open_bytes, reading
from streetsim.base.unpacking import TooMuch, lifted, most_unpacked

WINDOWS = "cp1252"  # the code of texts that spreadsheets of western languages write where they write no UTF-8
SEPARATORS = (";", "\t", ",")
WORKBOOK = ".xlsx"
COMMENT = "#"
MOST_CELLS = 1_000_000
NEEDS = "a workbook needs Debian's python3-openpyxl (apt install python3-openpyxl), or save it as CSV"


@dataclass(frozen=True, slots=True)
class GridCell:
    """What stands in a cell, without blanks around it, and its place as spreadsheets call it: B7, or Arms!B7."""

    text: str
    place: str


@dataclass(frozen=True, slots=True)
class GridRow:
    """A row that is neither blank nor a comment. sheet: the worksheet of a workbook, empty for CSV; line: from 1."""

    sheet: str
    line: int
    cells: tuple[GridCell, ...]

    @property
    def texts(self) -> list[str]:
        """What stands in its cells."""
        return [cell.text for cell in self.cells]


def place_of(sheet: str, line: int, column: int) -> str:
    """The place of a cell; columns count from 0."""
    letters = ""
    column += 1
    while column:
        column, digit = divmod(column - 1, 26)
        letters = ascii_uppercase[digit] + letters
    return f"{sheet}!{letters}{line}" if sheet else f"{letters}{line}"


def read_grid(path: FilePath) -> list[GridRow]:
    """The rows of a table. Fault for a file that cannot be read, is none, or is empty."""
    rows = list(rows_of_workbook(path) if os.fspath(path).lower().endswith(WORKBOOK) else rows_of_text(path))
    if not rows:
        raise Fault(f"{path}: nothing is in it")
    return rows


def grid_row(sheet: str, line: int, texts: Sequence[str]) -> GridRow | None:
    """A row of cells, without blank ones at its end; None for one that is blank or a comment."""
    cells = [GridCell(text.strip(), place_of(sheet, line, column)) for column, text in enumerate(texts)]
    while cells and not cells[-1].text:
        cells.pop()
    first = next((cell.text for cell in cells if cell.text), COMMENT)
    return None if first.startswith(COMMENT) else GridRow(sheet, line, tuple(cells))


def rows_of_text(path: FilePath) -> Iterator[GridRow]:
    """The rows of a CSV file; values are parted by what parts the most lines of it."""
    with reading(path), open_bytes(path) as file:
        data = file.read()
        try:
            text = data.decode("utf-8-sig")
        except UnicodeDecodeError:
            text = data.decode(WINDOWS)
        lines = text.splitlines()
        separator = separator_of(lines)
        for line, texts in enumerate(csv.reader(lines, delimiter=separator), 1):
            if row := grid_row("", line, texts):
                yield row


def separator_of(lines: Sequence[str]) -> str:
    """What parts values: the mark that stands in the most lines that are no comments; of equal ones the first of
    SEPARATORS, as commas stand in numbers too."""
    told = [line for line in lines if not line.lstrip('" ').startswith(COMMENT)]
    return max(SEPARATORS, key=lambda mark: sum(mark in line for line in told))


def rows_of_workbook(path: FilePath) -> Iterator[GridRow]:
    """The rows of all worksheets of a workbook, one worksheet after another. Fault without openpyxl."""
    try:
        import openpyxl
    except ImportError:
        raise Fault(f"{path}: {NEEDS}") from None
    with reading(path):
        try:
            refuse_large(path)
            workbook = openpyxl.load_workbook(path, read_only=True, data_only=True)
        except zipfile.BadZipFile:
            raise Fault(f"{path}: is no workbook") from None
        cells_read = 0
        for worksheet in workbook.worksheets:
            for line, values in enumerate(worksheet.iter_rows(values_only=True), 1):
                cells_read += len(values)
                if cells_read > MOST_CELLS and not lifted():
                    raise TooMuch(f"has more than {MOST_CELLS:,} cells")
                if row := grid_row(worksheet.title, line, [text_of(value) for value in values]):
                    yield row


def refuse_large(path: FilePath) -> None:
    """TooMuch for a workbook that unpacks to more than its size allows."""
    with zipfile.ZipFile(path) as packed:
        unpacked, size = sum(entry.file_size for entry in packed.infolist()), os.path.getsize(path)
    if unpacked > most_unpacked(size) and not lifted():
        raise TooMuch(f"unpacks to {unpacked:,} bytes, and has {size:,}")


def text_of(cell_value: object) -> str:
    """What a cell of a workbook shows: 7:30 of a time, 24 of a whole number."""
    if cell_value is None:
        return ""
    if isinstance(cell_value, datetime.datetime | datetime.time):
        return cell_value.strftime("%H:%M:%S").removesuffix(":00")
    if isinstance(cell_value, datetime.timedelta):
        minutes = round(cell_value.total_seconds() / 60)
        return f"{minutes // 60:02d}:{minutes % 60:02d}"
    if isinstance(cell_value, float):
        return f"{cell_value:.10g}"
    return str(cell_value)
