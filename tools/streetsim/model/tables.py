"""The columns of a run's tables, and how tables are written and read, as CSV."""
import contextlib
import csv
import re
from collections.abc import Callable, Iterable, Iterator, Mapping, Sequence
from itertools import chain, islice
from math import isfinite
from types import MappingProxyType
from typing import Any

from streetsim.base.array_groups import texts_by_number
from streetsim.base.arrays import Array
from streetsim.base.files import Fault, FilePath, TextFile, open_text, reading, whole_file
from streetsim.base.unpacking import lines_of

Entry = tuple[Any, ...]  # a row of a table
Column = Array  # the cells of a column: an array of NumPy, or a sequence
Namer = Callable[[str], str]  # gives the name of an id, empty where it has none
SUFFIX = "_name"  # how the column of names beside one of ids is called
AT_ONCE = 10_000  # rows that are looked at together
ENDS_CELL = re.compile('[,"\n]')
# Texts that a spreadsheet may run: =, +, @, a tab or a line feed at the begin, or - before what is neither a number nor
# plain names, as -12345#0 of OpenStreetMap; and those that would be taken for guarded ones.
RUN = re.compile(r"'*(?:[=@\t\n]|\+(?![\d.]+$)|-(?![\w#.: -]*$))")
COUNTS = (
    *("begin", "end", "edge", "link", "lane"),
    *("vehicles", "vehicles_per_hour", "mean_speed_kmh", "occupancy_percent"),
)
TRIPS = ("id", "depart", "arrival", "duration", "free_flow", "loss", "edges", "rescues", "state")
EDGES = ("begin", "end", "edge", "entered", "left", "density_per_km", "mean_speed_kmh", "travel_time_s")
LOOPS = ("begin", "end", "id", "vehicles", "vehicles_per_hour", "mean_speed_kmh", "occupancy_percent")
AREAS = (
    *("begin", "end", "id", "mean_vehicles", "most_vehicles", "mean_speed_kmh", "occupancy_percent"),
    *("mean_jam_vehicles", "longest_jam_vehicles"),
)
STOP_LINE, BEFORE_WORKS = "stop line", "works"  # what a queue stands before
QUEUES = ("time", "edge", "lane", "vehicles", "metres", "before", "from_m")
PHASES_FILE = "phases.csv"
PHASES = ("begin", "light", "phase", "state", "seconds", "ended")
STOPS_FILE = "stops.csv"
STOPS = ("id", "line", "stop", "edge", "lane", "arrival", "departure", "dwell_s", "until", "late_s", "state")
WORKS_FILE = "works.csv"
WORKS = (
    *("begin", "end", "edge", "lane", "from_m", "to_m", "vehicles", "capacity_per_hour", "mean_delay_s"),
    *("greatest_delay_s", "queue_50_m", "queue_95_m", "queue_max_m", "longest_stand_s"),
)
SECONDS = ("vehicles", "mean_s", "sd_s", "p15_s", "p50_s", "p85_s", "p95_s")
SEGMENTS = ("begin", "end", "from", "to", *SECONDS)
ROUTES_FILE = "routes.csv"
ROUTES = ("begin", "end", "route", *SECONDS)
SUMMARY = ("time", "entered", "waiting", "on_cells", "in_buffers", "arrived", "taken_out")
SEEDS = ("seed", "vehicles", "arrived", "mean_trip_s", "rescues")
# All else is numbers.
TEXTS = {"id", "edge", "state", "junction", "control", "approach", "to", "movement", "los", "before", "light", "ended"}
TEXTS |= {"line", "stop", "from", "route", "doubt"}
LOST = ("vehicles", "vehicles_per_hour", "control_delay_s", "error_s", "stopped_delay_s", "stops_per_vehicle")
QUEUED = ("queue_50_m", "queue_95_m", "queue_max_m", "storage_m")
MOVEMENTS = (
    *("begin", "end", "junction", "control", "approach", "to", "movement", *LOST, *QUEUED),
    *("saturation_flow", "capacity_per_hour", "v_c", "los", "full_percent", "blocked_percent", "doubt"),
)
APPROACHES = ("begin", "end", "junction", "control", "approach", *LOST, *QUEUED, "v_c", "los", "doubt")
JUNCTIONS = ("begin", "end", "junction", "control", *LOST, "queue_max_m", "v_c", "los", "nearly_full", "doubt")


class TableWriter:
    """Writes the rows of a table to an open file, by their columns."""

    def __init__(self, file: TextFile, namers: Mapping[int, Namer]) -> None:
        """file: behind the header; namers: by place of a column what gives the name of each of its cells, which stands
        behind it in a column of names."""
        self.file, self.namers = file, namers

    def write_rows(self, rows: Iterable[Iterable[object]]) -> None:
        """Writes rows, which are taken one by one."""
        left = iter(rows)
        while part := list(islice(left, AT_ONCE)):
            self.write_columns(list(zip(*part, strict=True)))

    def write_columns(self, columns: Sequence[Column]) -> None:
        """Writes rows by their columns, of equal lengths: arrays of NumPy, or cells of any kind."""
        for begin in range(0, len(columns[0]), AT_ONCE):
            parts = (cells_of(column[begin : begin + AT_ONCE]) for column in columns)
            texts = chain.from_iterable(self.texts_with_names(at, part) for at, part in enumerate(parts))
            self.file.write("".join(f"{row}\n" for row in map(",".join, zip(*texts, strict=True))))

    def texts_with_names(self, at: int, column: Column) -> Iterator[Sequence[str]]:
        """The texts of a column, by its place, and behind them those of its column of names, if it has one."""
        yield texts_of(column)
        if at in self.namers:
            name_of = {cell: self.namers[at](str(cell)) for cell in set(column)}
            yield texts_of([name_of[cell] for cell in column])


def cells_of(column: Column) -> Column:
    """The cells of a column, as objects of Python; floating numbers of NumPy as texts, of equal ones made once."""
    if not hasattr(column, "tolist"):
        return column
    return texts_by_number(column, str) if column.dtype.kind == "f" else column.tolist()


def texts_of(column: Column) -> Sequence[str]:
    """The cells of a column as a CSV file has them: numbers as they are, and of texts each looked at once, as hardly
    any needs a guard or quotes."""
    kinds = set(map(type, column))
    if kinds <= {int, float, bool}:
        return list(map(str, column))
    texts = column if kinds == {str} else ["" if cell is None else str(cell) for cell in column]
    changed = {text: cell for text in set(texts) if (cell := quoted(guarded(text))) != text}
    return [changed.get(text, text) for text in texts] if changed else texts


def quoted(text: str) -> str:
    """A text as a cell of a CSV file, in quotes where it would end the cell."""
    return '"{}"'.format(text.replace('"', '""')) if ENDS_CELL.search(text) else text


@contextlib.contextmanager
def open_table(
    path: FilePath, header: Sequence[str], namers: Mapping[int, Namer] = MappingProxyType({})
) -> Iterator[TableWriter]:
    """What writes a table, as CSV, which is whole when the block ends. Fault, and the file as it was, where it cannot
    be written. namers: as of TableWriter."""
    names = ([name, name + SUFFIX] if at in namers else [name] for at, name in enumerate(header))
    with whole_file(path) as file:
        file.write(",".join(chain.from_iterable(names)) + "\n")
        yield TableWriter(file, namers)


def guarded(text: str) -> str:
    """A text that no spreadsheet runs: what it might (RUN) has an apostrophe before it. A carriage return, which would
    end the row for some readers, becomes a blank."""
    text = text.replace("\r", " ")
    return f"'{text}" if RUN.match(text) else text


def unguarded(text: str) -> str:
    """What a text of a table was before it was guarded."""
    return text[1:] if text[:1] == "'" and RUN.match(text[1:]) else text


def write_table(path: FilePath, header: Sequence[str], rows: Iterable[Iterable[object]]) -> None:
    """Writes a table as `open_table` does."""
    with open_table(path, header) as table:
        table.write_rows(rows)


def read_table(
    path: FilePath, header: Sequence[str], wanted_texts: Mapping[str, str] = MappingProxyType({})
) -> list[dict[str, str]]:
    """The rows of a CSV table, as texts by column. Last columns of `header` that the table does not have, as tables of
    earlier versions, are empty; further columns, as those of names, are given too. Fault where it cannot be read, where
    an earlier column is absent, more than half of them are, or one is there twice, and for a row that is shorter or
    longer, or has a text where a number belongs. wanted_texts: by column of those rows that are given, of all where it
    is empty."""
    entries: list[dict[str, str]] = []
    for names, absent, columns in table_parts(path, header):
        rows: Iterable[tuple[str, ...]] = zip(*columns, strict=True)
        if wanted_texts:
            places = [(names.index(name), text) for name, text in wanted_texts.items()]
            rows = (row for row in rows if all(row[place] == text for place, text in places))
        lacking = dict.fromkeys(absent, "")
        new = (dict(zip(names, row)) for row in rows)
        entries += (lacking | row for row in new) if lacking else new
    return entries


def read_columns(path: FilePath, header: Sequence[str], *wanted: str) -> list[list[str]]:
    """Some columns of a CSV table, as texts, empty ones where the table does not have them; Fault as of read_table."""
    found: list[list[str]] = [[] for _ in wanted]
    for names, _, columns in table_parts(path, header):
        for texts, name in zip(found, wanted, strict=True):
            texts += columns[names.index(name)] if name in names else [""] * len(columns[0])
    return found


def table_parts(
    path: FilePath, header: Sequence[str]
) -> Iterator[tuple[list[str], list[str], list[Sequence[str]]]]:
    """(names of the columns that are there, of header those that are not, columns as texts without guards) of some rows
    of a CSV table after the others; Fault as of read_table."""
    with reading(path), open_text(path) as file:
        rows = csv.reader(lines_of(file))
        names: list[str] = next(rows, [])
        absent = [name for name in header if name not in names]
        if absent != [*header[len(header) - len(absent) :]] or 2 * len(absent) > len(header) or has_twice(names):
            raise Fault(f"{path}: expected the columns {', '.join(header)}")
        numbers = [place for place, name in enumerate(names) if name in header and name not in TEXTS]
        numbered = ((rows.line_num, row) for row in rows if row)
        while part := list(islice(numbered, AT_ONCE)):
            columns = checked_columns(path, names, numbers, part)
            yield names, absent, [texts_without_guards(column) for column in columns]


def absent_columns(path: FilePath, header: Sequence[str]) -> list[str]:
    """The columns of `header` that a table does not have, as one of an earlier version; Fault where it cannot be
    read."""
    with reading(path), open_text(path) as file:
        names: list[str] = next(csv.reader(lines_of(file)), [])
    return [name for name in header if name not in names]


def has_twice(names: Sequence[str]) -> bool:
    """Whether a name is there more than once."""
    return len({*names}) < len(names)


def checked_columns(
    path: FilePath, names: Sequence[str], numbers: Sequence[int], part: Sequence[tuple[int, list[str]]]
) -> list[tuple[str, ...]]:
    """The columns of some rows of a table, each behind the number of the line at which it ends; Fault for the first row
    that is shorter or longer, or has a text where a number belongs. names: of the columns; numbers: places of those of
    numbers."""
    if all(len(row) == len(names) for _, row in part):
        columns = list(zip(*(row for _, row in part)))
        if all(map(is_number, set(chain.from_iterable(columns[place] for place in numbers)))):
            return columns
    line, row = next(
        (line, row)
        for line, row in part
        if len(row) != len(names) or not all(is_number(row[place]) for place in numbers)
    )
    if len(row) != len(names):
        raise Fault(f"{path}: line {line}: expected {len(names)} cells")
    wrong = next(place for place in numbers if not is_number(row[place]))
    raise Fault(f"{path}: line {line}: {names[wrong]} = {row[wrong]!r} is no number")


def texts_without_guards(column: Sequence[str]) -> Sequence[str]:
    """The texts of a column as they were before they were guarded."""
    changed = {text: unguarded(text) for text in set(column) if text[:1] == "'"}
    return [changed.get(text, text) for text in column] if changed else column


def is_number(text: str) -> bool:
    """Whether a text writes a finite number, or nothing."""
    try:
        return not text or isfinite(float(text))
    except ValueError:
        return False
