"""What is wrong in a sheet: each slip by its cell, with what would be right; and values of cells, with their units."""
import re
import sys
from dataclasses import dataclass, field

from streetsim.base.files import Fault
from streetsim.demand.grids import GridCell

MOST_TOLD = 20
NUMBER = re.compile(r"([-+]?\d+(?:[.,]\d+)?)\s*([^\d\s].*)?")
UNITS = {  # by the unit that a amount has, others with what one of them is
    "m": {"m": 1.0, "metres": 1.0, "km": 1000.0, "ft": 0.3048, "feet": 0.3048},
    "km/h": {"km/h": 1.0, "kmh": 1.0, "kph": 1.0, "mph": 1.609344, "m/s": 3.6},
    "s": {"s": 1.0, "sec": 1.0, "seconds": 1.0, "min": 60.0},
    "%": {"%": 1.0},
    "degrees": {"degrees": 1.0, "°": 1.0},
}


@dataclass(slots=True)
class Slips:
    """The slips of a sheet, each a line."""

    path: str
    lines: list[str] = field(default_factory=list)
    table: str = ""  # what stands before places of another file

    def add(self, place: str | GridCell, wrong: str, right: str) -> None:
        """Notes what is wrong at a place, and what would be right."""
        self.lines.append(f"{self.table}{place.place if isinstance(place, GridCell) else place}: {wrong}: {right}")

    def end(self) -> None:
        """Fault, behind the first twenty lines on standard error, where anything is wrong."""
        if not self.lines:
            return
        lines = list(dict.fromkeys(self.lines))
        shown = lines if len(lines) <= MOST_TOLD else lines[: MOST_TOLD - 1]
        print(*shown, sep="\n", file=sys.stderr)
        if more := len(lines) - len(shown):
            print(f"{more} more slips, which are named when these are mended", file=sys.stderr)
        raise Fault(f"{self.path}: {len(lines)} slip{'s' * (len(lines) > 1)}, named by cell above: nothing was written")

    def number(self, cell: GridCell, bounds: tuple[float, float], unit: str, usual: float | None = None) -> float:
        """The value of a cell within bounds, in a unit that may stand behind it (empty: a bare number). Where it is
        blank `usual`, which is also given, as the lower bound is where there is none, after a slip is told."""
        lower, upper = bounds
        if not cell.text:
            if usual is None:
                self.add(cell, "is blank", f"write a number, {lower:g} to {upper:g}{f' {unit}' * bool(unit)}")
            return lower if usual is None else usual
        matched = NUMBER.fullmatch(cell.text)
        amount = float(matched[1].replace(",", ".")) if matched else lower
        given = (matched[2] or "").strip().lower() if matched else ""
        if not matched or given and given not in UNITS.get(unit, {}):
            self.add(cell, f"{cell.text!r} is no number{f' of {unit}' * bool(unit)}", f"write {lower:g} to {upper:g}")
        elif given and (scale := UNITS[unit][given]) != 1:
            self.add(cell, f"{cell.text!r} is not in {unit}", f"write {amount * scale:.0f}")
        elif not lower <= amount <= upper:
            told = f"{lower:g} to {upper:g}{f' {unit}' * bool(unit)}"
            self.add(cell, f"{cell.text!r} is out of bounds", f"write {told}")
        else:
            return amount
        return lower if usual is None else usual

    def whole_number(self, cell: GridCell, bounds: tuple[int, int], unit: str, usual: int | None = None) -> int:
        """The same of whole numbers."""
        amount = self.number(cell, bounds, unit, usual)
        if amount != int(amount):
            self.add(cell, f"{cell.text!r} is not whole", f"write a whole number, {bounds[0]} to {bounds[1]}")
        return int(amount)
