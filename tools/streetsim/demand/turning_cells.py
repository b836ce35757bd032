"""Times and numbers in the cells of counts, as offices of several countries write them."""
import re
from collections.abc import Iterable, Sequence
from dataclasses import dataclass

from streetsim.demand.grids import GridCell
from streetsim.demand.spellings import Ambiguous

DAY, HOUR = 86_400, 3_600
CLOCK = re.compile(r"(\d{1,2})(?:\s*[:h.]\s*(\d{2})?(?::(\d{2}))?|(\d{2}))?\s*(am|pm|a\.m\.|p\.m\.)?", re.IGNORECASE)
TO_MARK = re.compile(r"\s*(?:-|–|—|\bto\b|\bbis\b|\bà\b|\ba\b|\bjusqu'à\b|\bhasta\b)\s*", re.IGNORECASE)
FILLING = re.compile(r"\b(uhr|hrs?|horas?|heures?|from|von|de|desde)\b", re.IGNORECASE)
FRACTION = re.compile(r"0[.,]\d{3,}")  # of a day, as a workbook keeps times
GROUPED = re.compile(r"\d{1,3}([.,])\d{3}")
DECIMAL = re.compile(r"(?:\d+|\d{1,3}(?:[.,' ]\d{3})+)([.,])(\d{1,2}|\d{4,})")


def clock_meant(text: str) -> int | None:
    """The second of the day of 7:15, 07:15:00, 7h15, 7.15, 0715, 7 Uhr, 7:15 pm, or a share of a day; None for what is
    no clock."""
    plain = FILLING.sub("", text).strip()
    if FRACTION.fullmatch(plain):
        return round(float(plain.replace(",", ".")) * DAY / 60) * 60
    matched = CLOCK.fullmatch(plain)
    if not matched:
        return None
    hours, minutes = int(matched[1]), int(matched[2] or matched[4] or 0)
    half = (matched[5] or "").lower()[:1]
    if half and not 1 <= hours <= 12 or hours > 24 or minutes > 59 or int(matched[3] or 0) > 59:
        return None
    hours = hours % 12 + 12 * (half == "p") if half else hours
    return hours * HOUR + minutes * 60 + int(matched[3] or 0)


def period_meant(text: str) -> tuple[int, int | None] | None:
    """(begin, end) of 7:00-7:15, in seconds of the day; end None for a begin alone; None for what is neither."""
    parts = TO_MARK.split(text.strip())
    clocks = [clock_meant(part) for part in parts]
    if len(parts) > 2 or clocks[0] is None or clocks[-1] is None:
        return None
    return clocks[0], clocks[1] if len(parts) == 2 else None


@dataclass(frozen=True, slots=True)
class NumberStyle:
    """How a table writes numbers. point: what stands before decimals, empty where nothing tells."""

    point: str

    def number_in(self, text: str) -> float | None:
        """The number that a text writes; None for what is none. Ambiguous for 1.234 where nothing tells what the mark
        is."""
        plain = re.sub(r"(?<=\d)[' \u00a0\u202f](?=\d{3})", "", text)
        if (grouped := GROUPED.fullmatch(plain)) and not self.point:
            raise Ambiguous(f"{text!r} may be {re.sub('[.,]', '', plain)} or {plain.replace(',', '.')}")
        other = {",": ".", ".": ","}.get(self.point, grouped[1] if grouped else "")
        plain = plain.replace(other, "") if other else plain
        try:
            return float(plain.replace(",", "."))
        except ValueError:
            return None


def numbers_of(cells: Iterable[GridCell]) -> NumberStyle:
    """How numbers are written, by the cells that tell it. Ambiguous where some have a comma before decimals, and others
    a point."""
    found = {matched[1]: cell for cell in cells if (matched := DECIMAL.fullmatch(cell.text))}
    if len(found) > 1:
        raise Ambiguous(f"{found[','].text!r} has a decimal comma, and {found['.'].text!r} a point")
    return NumberStyle(next(iter(found), ""))


def ends_of(begins: Sequence[int], ends: Sequence[int | None]) -> list[int]:
    """The ends of periods: those that are given, else a step behind the begin, by the least step between begins.
    Ambiguous where all begin at one time and no end is given."""
    if None not in ends:
        return [end for end in ends if end is not None]
    rising = sorted({*begins})
    steps = [later - sooner for sooner, later in zip(rising, rising[1:])]
    if not steps:
        raise Ambiguous("all rows begin at one time, and none says when it ends")
    return [begin + min(steps) if end is None else end for begin, end in zip(begins, ends, strict=True)]
