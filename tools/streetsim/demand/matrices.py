"""Reads matrices between zones: CSV, SUMO's O and V formats, and its tazRelation files. All that reads raises Fault,
with file and line or element, where a value is absent or cannot be read."""
from collections.abc import Iterable, Iterator, Mapping
from dataclasses import replace

from streetsim.base.files import Fault, FilePath, open_text, reading
from streetsim.demand.cells import begins_with, clock_of, name_of, period_of, table_rows, vehicle_number
from streetsim.demand.reading import BY_TURN, vehicles_of_tag
from streetsim.demand.tags import read_tags
from streetsim.demand.values import MatrixCell, Zone, overlapping_pairs

COLUMNS = ("from", "to", "vehicles")
OPTIONAL_COLUMNS = ("begin", "end", "class")


def read_matrices(paths: Iterable[FilePath], period: tuple[int, int] | None) -> list[MatrixCell]:
    """The cells of files, by the format that each begins with. Fault where a file cannot be read, is of none of the
    formats or has no cell, or two cells of one pair and class have periods that overlap. period: (begin, end),
    seconds, of rows of tables that tell none; None: such rows are a Fault."""
    cells: list[MatrixCell] = []
    for path in paths:
        if begins_with(path, "<"):
            file_cells = list(cells_in_sumo(path))
        elif begins_with(path, "$"):
            file_cells = list(cells_in_o_or_v(path))
        else:
            file_cells = list(cells_in_table(path, period))
        if not file_cells:
            raise Fault(f"{path}: no pair of zones is in it")
        cells += file_cells
    refuse_twice(cells)
    return cells


def refuse_twice(cells: Iterable[MatrixCell]) -> None:
    """Fault for two cells of one pair and class whose periods overlap."""
    for first, second in overlapping_pairs(cells, lambda cell: (cell.source, cell.target, cell.kind)):
        same_period = (first.begin, first.end) == (second.begin, second.end)
        how = "a second time, as" if same_period else f"is given already until {first.end:,} s, by"
        raise Fault(f"{second.location}: {second.source} to {second.target} {how} {first.location}")


def cells_in_table(path: FilePath, period: tuple[int, int] | None) -> Iterator[MatrixCell]:
    """The cells of a CSV table: from,to,vehicles, and maybe begin,end,class; Fault for other columns or values, and
    where a row has no period and none is given."""
    for row in table_rows(path, COLUMNS, OPTIONAL_COLUMNS):
        if row.text("begin") or row.text("end"):
            begin, end = period_of(row.get("begin", clock_of), row.get("end", clock_of), row.location)
        elif period:
            begin, end = period
        else:
            raise Fault(f"{path}: no columns begin and end, and no counts whose periods would be those of the matrix")
        source, target = row.get("from", name_of), row.get("to", name_of)
        vehicles = row.get("vehicles", vehicle_number)
        yield MatrixCell(begin, end, source, target, vehicles, row.location, row.text("class"))


def cells_in_sumo(path: FilePath) -> Iterator[MatrixCell]:
    """The cells of a file of SUMO's tazRelations; Fault for any other element, and for a relation in no interval."""
    begin = end = 0
    for tag in read_tags(path, ("data", "meandata", "tazRelations")):
        if tag.name == "interval":
            begin, end = period_of(tag.get("begin", clock_of), tag.get("end", clock_of), tag.location)
        elif tag.name == "tazRelation" and "interval" not in tag.inside:
            raise Fault(f"{tag.location}: <tazRelation> stands in no <interval>")
        elif tag.name == "tazRelation":
            ends = tag.get("from", name_of), tag.get("to", name_of)
            yield MatrixCell(begin, end, *ends, vehicles_of_tag(tag, BY_TURN, None), tag.location)
        else:
            raise Fault(f"{tag.location}: <{tag.name}> is no <tazRelation> in an <interval>")


class MatrixLines:
    """The words of a matrix in O or V format, line by line; blank lines and comments (*) are left out."""

    def __init__(self, path: FilePath, lines: Iterable[str]) -> None:
        """path: of the file, for faults; lines: all of it."""
        self.path, self.lines, self.line = path, enumerate(lines, 1), 0

    @property
    def location(self) -> str:
        """The file and the line that was read last, as faults name it."""
        return f"{self.path}: line {self.line}"

    def next_line(self) -> list[str]:
        """The words of the next line; blank lines, and those that begin with *, are left out. Empty at the end of the
        file."""
        for self.line, text in self.lines:
            if text.strip() and not text.lstrip().startswith("*"):
                return text.split()
        return []

    def vehicles(self, text: str) -> float:
        """A word as a number of vehicles; Fault, with the line, where it is none."""
        try:
            return vehicle_number(text)
        except ValueError as fault:
            raise Fault(f"{self.location}: {text!r} {fault}") from None

    def next_first_word(self, expected: str) -> str:
        """The first word of the next line, others passed over; Fault at the end of the file. expected: what it is."""
        words = self.next_line()
        if not words:
            raise Fault(f"{self.path}: ends before {expected}")
        return words[0]


def cells_in_o_or_v(path: FilePath) -> Iterator[MatrixCell]:
    """The cells of a file in SUMO's formats $O.. (from, to, vehicles) or $V.. (a square matrix), with its factor; an M
    in the first word means that a line with the vehicle type follows, which is passed over. Fault for another file."""
    with reading(path), open_text(path) as file:
        lines = MatrixLines(path, file.read().splitlines())
    head = lines.next_first_word("its first line")
    kind = head[1:].split(";")[0].upper()
    if kind[:1] not in ("O", "V"):
        raise Fault(f"{lines.location}: {head!r} is neither SUMO's O format ($OR) nor its V format ($VMR)")
    if "M" in kind:
        lines.next_first_word("its vehicle type")
    times = lines.next_line()
    if len(times) != 2:
        raise Fault(f"{lines.location}: expected from-time and to-time, as 7.00 8.00")
    begin, end = period_of(seconds_of_time(lines, times[0]), seconds_of_time(lines, times[1]), lines.location)
    factor = lines.vehicles(lines.next_first_word("its factor"))
    for cell in cells_by_line(lines) if kind[0] == "O" else cells_by_row(lines):
        yield replace(cell, begin=begin, end=end, vehicles=cell.vehicles * factor)


def seconds_of_time(lines: MatrixLines, text: str) -> int:
    """The seconds of a time HH.MM, as 7.30 (7.5 is five minutes past seven); Fault otherwise."""
    hours, _, minutes = text.partition(".")
    if not (hours.isdecimal() and minutes.isdecimal() and int(minutes) < 60):
        raise Fault(f"{lines.location}: {text!r} is no time as HH.MM")
    return 3600 * int(hours) + 60 * int(minutes)


def cells_by_line(lines: MatrixLines) -> Iterator[MatrixCell]:
    """The cells of the O format's lines, still without period and factor; Fault for a line of another form."""
    while row := lines.next_line():
        if len(row) != 3:
            raise Fault(f"{lines.location}: expected from, to and vehicles")
        yield MatrixCell(0, 0, row[0], row[1], lines.vehicles(row[2]), lines.location)


def cells_by_row(lines: MatrixLines) -> Iterator[MatrixCell]:
    """The cells of the V format's matrix, still without period and factor; Fault where its rows do not fit to the
    number of its districts."""
    text = lines.next_first_word("the number of its districts")
    if not text.isdecimal() or not int(text):
        raise Fault(f"{lines.location}: {text!r} is no number of districts")
    count = int(text)
    names = next_words(lines, count, "names of districts")
    for source in names:
        for target, value in zip(names, next_words(lines, count, f"vehicles from {source}"), strict=True):
            yield MatrixCell(0, 0, source, target, lines.vehicles(value), lines.location)


def next_words(lines: MatrixLines, count: int, noun: str) -> list[str]:
    """The next `count` words, over as many lines as they need; Fault where there are fewer or more. noun: their name in
    faults."""
    row_words: list[str] = []
    while len(row_words) < count:
        row = lines.next_line()
        if not row:
            raise Fault(f"{lines.path}: ends after {len(row_words)} of {count} {noun}")
        row_words += row
    if len(row_words) > count:
        raise Fault(f"{lines.location}: {len(row_words)} {noun}, and there are {count} districts")
    return row_words


def check_zones(cells: Iterable[MatrixCell], zones: Mapping[str, Zone]) -> None:
    """Fault for cells of zones that are not known, and for vehicles from or to a zone where no trip may begin or
    end."""
    for cell in cells:
        for name, way, edges in ((cell.source, "begin", "sources"), (cell.target, "end", "sinks")):
            if name not in zones:
                raise Fault(f"{cell.location}: there is no zone {name!r}")
            if cell.vehicles and not getattr(zones[name], edges):
                raise Fault(f"{cell.location}: zone {name!r} has no edge on which trips {way}")
