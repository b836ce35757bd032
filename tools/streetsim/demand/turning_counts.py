"""Reads turning counts as offices have them: a row for each period and arm, a row for each movement, a column for each
movement, or a matrix of turns; what is not clear is told at its cell."""
import re
from collections.abc import Callable, Iterator, Sequence
from dataclasses import dataclass, field

from streetsim.demand.grids import GridCell, GridRow
from streetsim.demand.spellings import (
    FROM_BOUND, Ambiguous, column_meant, compass_meant, folded, turns_meant,
)  # fmt: skip
from streetsim.demand.turning_cells import NumberStyle, ends_of, numbers_of, period_meant

TellSlip = Callable[[GridCell, str, str], None]  # a cell, what is wrong there, what would be right
ArmNamed = Callable[[str], str | None]  # the arm that a text names, None where it names none
MATRIX = re.compile(
    r"(from|von|de|desde|origin|o)\s*[/\\→>|-]+\s*(to|nach|vers|a|à|hacia|destination|d)", re.IGNORECASE
)
CLOCKS = re.compile(r"\d\s*(?:[:h]|[-–]\s*\d)")  # what only times have, and no number of vehicles
PARTS = re.compile(r"[\s_>→:/-]+|\bto\b|\bnach\b|\bvers\b")
TO_ARM = ">"  # before the arm to which a movement leads, where no turn is arm_named
SUMS = ("sum", "vehicles")  # columns that may be those of totals beside turns
ASK_ARM = "write the arm's name"


@dataclass(frozen=True, slots=True)
class TurningCount:
    """Vehicles of a movement in a period, seconds of the day. turn: L, T, R, U, or > and an arm; heavy: their share."""

    begin: int
    end: int
    junction: str
    arm: str
    turn: str
    vehicles: float
    cell: GridCell
    heavy: float = 0.0


@dataclass(slots=True)
class TurningTable:
    """What was read. not_vehicles: pedestrians and cycles, by their names."""

    counts: list[TurningCount] = field(default_factory=list)
    not_vehicles: dict[str, float] = field(default_factory=dict)
    habit: str = ""  # what the table is like, as the user is told


@dataclass(slots=True)
class FoundCount:
    """A count before its period's end and its number are known."""

    period: tuple[int, int | None]
    junction: str
    arm: str
    turn: str
    cell: GridCell
    heavy: GridCell | None = None


@dataclass(slots=True)
class TurningReader:
    """Reads one table. arm_named: which arm a text names, where the arms are known."""

    tell_slip: TellSlip
    arm_named: ArmNamed | None = None
    found_counts: list[FoundCount] = field(default_factory=list)
    sums: list[tuple[GridCell, list[GridCell]]] = field(default_factory=list)
    not_vehicles: list[tuple[str, GridCell]] = field(default_factory=list)

    def read(self, rows: Sequence[GridRow]) -> TurningTable:
        """The counts of a table whose first row has its columns."""
        head, *below = rows
        if MATRIX.fullmatch(head.cells[0].text) or any(MATRIX.fullmatch(row.cells[0].text) for row in below[:2]):
            habit = "matrices of turns"
            self.read_matrices(rows)
        else:
            habit = self.read_columns(head, below)
        return self.finished(habit)

    # ---- tables with columns

    def read_columns(self, head: GridRow, rows: Sequence[GridRow]) -> str:
        """Reads a table by the heads of its columns; gives what it is like."""
        meant = {column: what for column, cell in enumerate(head.cells) if (what := column_meant(cell.text))}
        places = {what: column for column, what in reversed(meant.items())}
        free = [column for column, cell in enumerate(head.cells) if column not in meant and cell.text]
        if "begin" not in places:
            self.tell_slip(head.cells[0], "no column has times", "call one time, begin, Zeit, heure or hora")
            return ""
        rows = [row for row in rows if not is_sum(cell_at(row, places["begin"]))]
        if "turn" in places:
            self.read_long(places, rows)
            return "a row for each movement"
        if "arm" not in places:
            self.read_wide(head, places, free, rows)
            return "a column for each movement"
        turns = self.turns_of_heads([head.cells[column] for column in free])
        if not turns:
            self.tell_slip(head.cells[-1], "no column names a turn", "call them left, through, right, or add one, turn")
        texts = [cell_at(row, places["arm"]).text for row in rows]
        arms = self.arms_of(texts, [cell_at(row, places["arm"]) for row in rows])
        for row, arm in zip(rows, arms):
            if (period := self.period(row, places)) is None or arm is None:
                continue
            cells = [(turn, cell_at(row, column)) for turn, column in zip(turns, free) if turn]
            self.add_row(row, places, period, [(arm, turn, cell) for turn, cell in cells])
        return "a row for each period and arm"

    def turns_of_heads(self, cells: Sequence[GridCell]) -> list[str]:
        """The turns that heads name, empty for one that names none, which is told."""
        try:
            return turns_meant(cell.text for cell in cells)
        except Ambiguous as question:
            self.tell_slip(cells[0], f"turns: {question}", "write left, through, right in whole words")
        except KeyError as fault:
            cell = next(cell for cell in cells if folded(cell.text) == fault.args[0])
            self.tell_slip(cell, f"{cell.text!r} is no turn and no other column that is known",
                      "write left, through, right or U-turn")
        return []

    def read_long(self, places: dict[str, int], rows: Sequence[GridRow]) -> None:
        """Reads a row for each movement of a period."""
        for what in ("arm", "vehicles"):
            if what not in places:
                self.tell_slip(rows[0].cells[0], f"no column has the {what}", f"call one {what}")
                return
        arm_cells, turn_cells = ([cell_at(row, places[what]) for row in rows] for what in ("arm", "turn"))
        arms = self.arms_of([cell.text for cell in arm_cells], arm_cells)
        try:
            turns = turns_meant(cell.text for cell in turn_cells)
        except Ambiguous as question:
            self.tell_slip(turn_cells[0], f"turns: {question}", "write left, through, right in whole words")
            return
        except KeyError as fault:
            cell = next(cell for cell in turn_cells if folded(cell.text) == fault.args[0])
            self.tell_slip(cell, f"{cell.text!r} is no turn", "write left, through, right or U-turn")
            return
        for row, arm, turn in zip(rows, arms, turns):
            if (period := self.period(row, places)) is not None and arm is not None:
                self.add_row(row, places, period, [(arm, turn, cell_at(row, places["vehicles"]))])

    def read_wide(self, head: GridRow, places: dict[str, int], free: list[int], rows: Sequence[GridRow]) -> None:
        """Reads a column for each movement, as NBL, N left or Nord-Ost."""
        movements = self.movements_of([head.cells[column] for column in free])
        for row in rows:
            if (period := self.period(row, places)) is not None:
                cells = [(*movement, cell_at(row, column)) for movement, column in zip(movements, free) if movement]
                self.add_row(row, places, period, cells)

    def movements_of(self, cells: Sequence[GridCell]) -> list[tuple[str, str] | None]:
        """(arm, turn) of heads of columns; None for one that names none, which is told."""
        bound = [re.fullmatch(r"([nsew])b([ltru])", folded(cell.text)) for cell in cells]
        if cells and all(bound):
            arms = self.arms_of([FROM_BOUND[one[1]] for one in bound if one], cells)
            return [(arm, one[2].upper()) if arm else None for arm, one in zip(arms, bound) if one]
        parts_of_heads = [[part for part in PARTS.split(cell.text) if part] for cell in cells]
        for cell, parts in zip(cells, parts_of_heads):
            if len(parts) != 2:
                self.tell_slip(cell, f"{cell.text!r} is no movement and no other column that is known",
                          "write the arm and the turn, as N left, or NBL")
                return []
        arms = self.arms_of([parts[0] for parts in parts_of_heads], cells)
        seconds = [parts[1] for parts in parts_of_heads]
        try:
            turns = turns_meant(seconds)
        except (KeyError, Ambiguous):
            turns = [TO_ARM + to if to else "" for to in self.arms_of(seconds, cells)]
        return [(arm, turn) if arm and turn else None for arm, turn in zip(arms, turns)]

    # ---- matrices

    def read_matrices(self, rows: Sequence[GridRow]) -> None:
        """Reads matrices of turns, each with a row of arms at its head, and the period in a row above it."""
        labels = [cell for row in rows for cell in self.labels_of(row) if not is_sum(cell)]
        named_arms = self.arms_of([cell.text for cell in labels], labels)
        arm_of = {cell.place: arm for cell, arm in zip(labels, named_arms)}
        period: tuple[int, int | None] | None = None
        heads: list[str | None] = []
        for row in rows:
            first = row.cells[0]
            if MATRIX.fullmatch(first.text):
                heads = [arm_of.get(cell.place) for cell in row.cells[1:]]
            elif (read := self.period_in(row)) is not None:
                period = read
            elif period is None:
                self.tell_slip(first, "no period stands above this matrix", "write it above, as 07:00-08:00")
                return
            elif (arm := arm_of.get(first.place)) is not None:
                cells = [(to, cell) for to, cell in zip(heads, row.cells[1:]) if to and number_like(cell)]
                self.found_counts += [FoundCount(period, "", arm, TO_ARM + to, cell) for to, cell in cells]
                if heads[len(row.cells) - 2] is None:
                    self.sums.append((row.cells[-1], [cell for _, cell in cells]))

    def labels_of(self, row: GridRow) -> Sequence[GridCell]:
        """The cells of a row of a matrix that name arms: all but the first of its head, or the first one."""
        if MATRIX.fullmatch(row.cells[0].text):
            return row.cells[1:]
        return () if self.period_in(row) is not None else row.cells[:1]

    def period_in(self, row: GridRow) -> tuple[int, int | None] | None:
        """The period that stands alone in a row, or behind a word; None for other rows."""
        told = [cell for cell in row.cells if cell.text]
        return next((read for cell in told if CLOCKS.search(cell.text) and (read := period_meant(cell.text))), None)

    # ---- parts of rows

    def arms_of(self, texts: Sequence[str], cells: Sequence[GridCell]) -> list[str | None]:
        """The arms that texts name, by the known names, else by the compass; None for one that is none, which is
        told."""
        if self.arm_named and all(self.arm_named(text) for text in texts):
            return [self.arm_named(text) for text in texts]
        try:
            return [self.checked(arm, cell) for arm, cell in zip(compass_meant(texts), cells)]
        except Ambiguous as question:
            self.tell_slip(cells[0], f"arms: {question}", f"{ASK_ARM} in a whole word, as East or Ouest")
            return [None] * len(texts)
        except KeyError as fault:
            if self.arm_named is None:
                return list(texts)
            cell = next(cell for text, cell in zip(texts, cells) if folded(text) == fault.args[0])
            self.tell_slip(cell, f"no arm is called {cell.text!r}", ASK_ARM)
            return [None] * len(texts)

    def checked(self, arm: str, cell: GridCell) -> str | None:
        """The arm of a direction; None, which is told, where arms are known and none is there."""
        own = self.arm_named(arm) if self.arm_named else arm
        if own is None:
            self.tell_slip(cell, f"{cell.text!r} is none of the arms", ASK_ARM)
        return own

    def period(self, row: GridRow, places: dict[str, int]) -> tuple[int, int | None] | None:
        """The period of a row; None where it has none: a row of totals, or a slip."""
        cell = cell_at(row, places["begin"])
        read = period_meant(cell.text)
        if read is None:
            if not is_sum(cell):
                self.tell_slip(cell, f"{cell.text!r} is no time", "write 07:15, or 07:15-07:30")
            return None
        if "end" in places and read[1] is None:
            end_cell = cell_at(row, places["end"])
            end = period_meant(end_cell.text)
            if end is None:
                self.tell_slip(end_cell, f"{end_cell.text!r} is no time", "write 07:30")
                return None
            read = read[0], end[0]
        if read[1] is not None and read[1] <= read[0]:
            self.tell_slip(cell, "the period ends before it begins", "write the later time second")
            return None
        return read

    def add_row(
        self, row: GridRow, places: dict[str, int], period: tuple[int, int | None],
        cells: Sequence[tuple[str, str, GridCell]],
    ) -> None:
        """Notes the counts of a row, and what stands beside them."""
        junction = cell_at(row, places["junction"]).text if "junction" in places else ""
        heavy = cell_at(row, places["heavy"]) if "heavy" in places else None
        own = [(arm, turn, cell) for arm, turn, cell in cells if number_like(cell)]
        self.found_counts += [FoundCount(period, junction, arm, turn, cell, heavy) for arm, turn, cell in own]
        for what in SUMS:
            if what in places and "turn" not in places and number_like(total := cell_at(row, places[what])):
                self.sums.append((total, [cell for _, _, cell in own]))
        for what in ("cycles", "pedestrians"):
            if what in places and number_like(cell := cell_at(row, places[what])):
                self.not_vehicles.append((what, cell))

    # ---- numbers

    def finished(self, habit: str) -> TurningTable:
        """The table of what was found, with numbers and ends of periods."""
        table = TurningTable(habit=habit)
        cells = [one.cell for one in self.found_counts]
        try:
            numbers = numbers_of([*cells, *(cell for cell, _ in self.sums)])
            ends = ends_of([one.period[0] for one in self.found_counts], [one.period[1] for one in self.found_counts])
        except Ambiguous as question:
            if cells:
                self.tell_slip(cells[0], str(question), "write it out")
            return table
        for found, end in zip(self.found_counts, ends, strict=True):
            if (vehicles := self.number(found.cell, numbers)) is not None:
                heavy = self.share(found, vehicles, numbers)
                movement = found.junction, found.arm, found.turn
                table.counts.append(TurningCount(found.period[0], end, *movement, vehicles, found.cell, heavy))
        self.check_sums(numbers)
        for what, cell in self.not_vehicles:
            table.not_vehicles[what] = table.not_vehicles.get(what, 0.0) + (self.number(cell, numbers) or 0.0)
        return table

    def number(self, cell: GridCell, numbers: NumberStyle) -> float | None:
        """The number of a cell; None, which is told, for what is none, is below 0 or may be two."""
        try:
            vehicles = numbers.number_in(cell.text)
        except Ambiguous as question:
            self.tell_slip(cell, str(question), "write it without a mark")
            return None
        if vehicles is None or vehicles < 0:
            self.tell_slip(cell, f"{cell.text!r} is no number of vehicles", "write a number from 0 on")
            return None
        return vehicles

    def share(self, count: FoundCount, vehicles: float, numbers: NumberStyle) -> float:
        """The share of heavy vehicles of a count, from a cell of per cent."""
        if count.heavy is None or not count.heavy.text:
            return 0.0
        percent = self.number(GridCell(count.heavy.text.rstrip(" %"), count.heavy.place), numbers) or 0.0
        if percent > 100:
            self.tell_slip(count.heavy, f"{count.heavy.text!r} is more than 100 %", "write them in per cent")
            return 0.0
        return percent / 100

    def check_sums(self, numbers: NumberStyle) -> None:
        """Tells totals that are not the sum of their cells."""
        for total_cell, cells in self.sums:
            values = [numbers.number_in(cell.text) or 0.0 for cell in cells]
            total = numbers.number_in(total_cell.text)
            if total is not None and cells and abs(total - sum(values)) > 0.5 + 1e-6:
                self.tell_slip(total_cell, f"{total_cell.text!r} is not the sum of its row", f"write {sum(values):g}")


def cell_at(row: GridRow, column: int) -> GridCell:
    """The cell of a column, a blank one where the row is shorter."""
    return row.cells[column] if column < len(row.cells) else GridCell("", row.cells[-1].place)


def is_sum(cell: GridCell) -> bool:
    """Whether a cell says that a row or column has totals."""
    return folded(cell.text) in ("sum", "total", "summe", "gesamt", "somme", "ensemble", "suma", "totaux", "totales")


def number_like(cell: GridCell) -> bool:
    """Whether a count may stand in a cell: not where it is blank or has a dash."""
    return cell.text.strip("-–— .") != ""
