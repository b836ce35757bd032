"""A run, or those of seeds, as one workbook: what was run, what is doubted, its tables with units, and a timing sheet
of each light."""
import csv
import os
import re
from collections.abc import Iterable, Iterator, Sequence
from itertools import islice

from streetsim.base.files import Fault, open_text, reading, whole_path
from streetsim.model.names import Names
from streetsim.model.timing import MAIN, PERMISSIVE, YELLOW, Timing, intergreen, spans_of
from streetsim.report.light_timings import timings_of
from streetsim.report.run_tables import Runs

NEEDS = "a workbook needs Debian's python3-openpyxl: apt install python3-openpyxl"
MOST_ROWS = 1_048_576  # of a worksheet
TABLE_NAMES = (
    "junctions", "approaches", "movements", "edges", "counts", "queues", "segments", "routes", "works", "stops",
    "phases", "detectors", "areas", "summary", "trips", "warnings",
)  # fmt: skip
UNITS = (  # by the names of columns
    (r"begin|end|time|depart|arrival|duration|free_flow|loss|.*_s", "s"),
    (r".*_per_hour|saturation_flow", "veh/h"), (r".*_kmh", "km/h"), (r".*_percent", "%"), (r".*_per_km", "veh/km"),
    (r"metres|.*_m", "m"), (r"v_c|stops_per_vehicle", "1"),
    (r"vehicles|.*_vehicles|entered|left|waiting|on_cells|in_buffers|arrived|taken_out|rescues", "vehicles"),
)  # fmt: skip
Row = Sequence[object]


def unit_of(column: str) -> str:
    """The unit of a column of the tables; empty of one that has texts."""
    return next((unit for pattern, unit in UNITS if re.fullmatch(pattern, column)), "")


def write_workbook(path: str, runs: Runs) -> list[str]:
    """Writes the workbook of runs; gives the names of its worksheets. Fault without openpyxl, where a table cannot be
    read, and where the file cannot be written."""
    try:
        import openpyxl
    except ImportError:
        raise Fault(NEEDS) from None
    book = openpyxl.Workbook(write_only=True)
    names = Names(runs.first_folder.mapping)
    for title, rows in (("Run", run_rows(runs)), ("Doubts", doubt_rows(runs, names)), *tables_of(runs)):
        add_sheet(book, title, rows)
    for light, timing in timings_of(runs).items():
        add_sheet(book, f"Light {light}", timing_rows(timing, names))
    with whole_path(path) as half:
        book.save(half)
    return list(book.sheetnames)


def add_sheet(book: object, title: str, rows: Iterable[Row]) -> None:
    """Adds a worksheet to a workbook of openpyxl; a text that spreadsheets would run stays a text."""
    from openpyxl.cell import WriteOnlyCell

    called = re.sub(r"[\\/*?:\[\]]", "-", title)[:31]
    worksheet = book.create_sheet(called)  # type: ignore[attr-defined]
    for row in islice(rows, MOST_ROWS):
        cells = []
        for shown in row:
            cell = WriteOnlyCell(worksheet, shown)
            if isinstance(shown, str):
                cell.data_type = "s"
            cells.append(cell)
        worksheet.append(cells)


def run_rows(runs: Runs) -> Iterator[Row]:
    """What was run, and why it is not to be trusted."""
    folder = runs.first_folder
    yield "what", "value"
    yield "folder", os.path.basename(os.path.normpath(folder.path))
    for name, told in folder.setting.items():
        yield name, told if isinstance(told, int | float | str) else " ".join(map(str, told))
    yield "seeds", ", ".join(map(str, runs.folders))
    for note in folder.notes:
        yield "note", note
    for seed, own in runs.folders.items():
        for doubt in own.doubts:
            yield "not to be trusted", f"seed {seed}: {doubt}" if len(runs.folders) > 1 else doubt


def doubt_rows(runs: Runs, names: Names) -> Iterator[Row]:
    """The places that are doubted."""
    yield "seed", "place", "why", "touches", "begin", "end", "vehicles"
    yield "", "", "", "", "s", "s", "vehicles"
    for seed, folder in runs.folders.items():
        for doubt in folder.places:
            end = doubt.end or None
            place = doubt.place_told(names, ids=True)
            yield seed, place, doubt.why, doubt.touches, doubt.begin, end, doubt.vehicles or None


def tables_of(runs: Runs) -> Iterator[tuple[str, Iterator[Row]]]:
    """(name, rows) of each table that the first seed's run has."""
    for name in TABLE_NAMES:
        if os.path.exists(f"{runs.first_folder.path}/{name}.csv"):
            yield name, table_rows(runs, name)


def table_rows(runs: Runs, name: str) -> Iterator[Row]:
    """The rows of a table: columns, units, and numbers as such; those of all seeds, with the seed before, where there
    are several."""
    is_head_told = False
    for seed, folder in runs.folders.items():
        path = f"{folder.path}/{name}.csv"
        with reading(path), open_text(path) as file:
            head, *rows = csv.reader(file)
            units = [unit_of(column) for column in head]
            seed_cells: list[object] = [seed] if len(runs.folders) > 1 else []
            if not is_head_told:
                yield ["seed"] * len(seed_cells) + head
                yield [""] * len(seed_cells) + units
                is_head_told = True
            for row in rows:
                yield seed_cells + [in_unit(text, unit) for text, unit in zip(row, units, strict=True)]


def in_unit(text: str, unit: str) -> float | str | None:
    """What a cell of a table has: a number where the column has a unit."""
    if not text:
        return None
    try:
        return float(text) if unit else text
    except ValueError:
        return text


def timing_rows(timing: Timing, names: Names) -> Iterator[Row]:
    """The timing sheet of a light: its program, greens of movements, phases, and times between greens that conflict."""
    states = timing.states()
    yield "light", timing.light, names.junction(timing.junction)
    yield "cycle", len(states), "s"
    yield "offset", timing.offset, "s"
    yield "kind", timing.kind
    yield ()
    yield "movement", "from", "to", "signals", "green begins", "green ends", "green", "yellow"
    yield "", "", "", "", "s of the cycle", "s of the cycle", "s", "s"
    for number, movement in enumerate(timing.movements, 1):
        signs = timing.signs(movement)
        yellow = max((seconds for _, seconds in spans_of(signs, YELLOW)), default=None)
        indexes = " ".join(map(str, movement.indexes))
        streets = names.street(movement.edge) or movement.edge, names.street(movement.next_edge) or movement.next_edge
        spans = spans_of(signs, MAIN + PERMISSIVE)
        if not spans:
            yield number, *streets, indexes, None, None, 0, yellow
        for begin, seconds in spans:
            yield number, *streets, indexes, begin, (begin + seconds) % len(states), seconds, yellow
    yield ()
    yield "phase", "seconds", "state"
    for number, (duration, state) in enumerate(timing.phases, 1):
        yield number, duration, state
    yield ()
    yield "green of movement ends", "green of movement begins", "least seconds between"
    numbers = {movement: number for number, movement in enumerate(timing.movements, 1)}
    for pair in timing.pairs():
        for ending, beginning in (pair, pair[::-1]):
            between = intergreen(timing.signs(ending), timing.signs(beginning))
            if between is not None:
                yield numbers[ending], numbers[beginning], between
