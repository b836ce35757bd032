"""Which junctions, approaches and movements a report tells first: those that change, or that are worse than D."""
from collections.abc import Iterable
from dataclasses import dataclass

from streetsim.report.plan_differences import PlanDifference, difference_of, values_by_seed
from streetsim.report.run_tables import ResultRow, Rows

BAD = "EF"  # worse than D
NOTICED_SECONDS = 5.0  # seconds of control delay, from which on a change is noticed


@dataclass(frozen=True, slots=True)
class RowChange:
    """A junction, approach or movement: its row with the last plan, and where there is another plan the row before it
    and the change of its control delay; key: as in KEYS of reading."""

    key: tuple[str, ...]
    row: ResultRow  # of the last plan
    row_before: ResultRow | None  # none: one plan, or nobody there with the first
    change: PlanDifference | None  # of control delay, seconds; none as above, or without a common seed

    @property
    def is_bad(self) -> bool:
        """Whether its level of service is worse than D."""
        return self.row.letter() in BAD

    @property
    def changes_noticeably(self) -> bool:
        """Whether its delay's change stands out, and is 5 s or more or comes with another level of service; false with
        one plan."""
        if self.change is None or self.row_before is None:
            return False
        other = self.row_before.letter() != self.row.letter()
        return self.change.stands_out() and (abs(self.change.change) >= NOTICED_SECONDS or other)

    @property
    def weight(self) -> float:
        """Seconds, from 0, that all its vehicles together lose or win by the change in an hour; without a change those
        of their whole delay."""
        seconds = abs(self.change.change) if self.change else self.row.delay
        return seconds * self.row.means["vehicles_per_hour"]


def changes_that_stand_out(rows: Iterable[RowChange]) -> dict[str, float]:
    """{junction: change of its delay, seconds} of the rows of junctions whose change stands out, however little: what
    the verdict counts, and what the map shows."""
    return {one.key[0]: one.change.change for one in rows if one.change and one.change.stands_out()}


def ranked_changes(rows_after: Rows, rows_before: Rows | None, drawn: bool) -> list[RowChange]:
    """What is told of each row of the last plan (rows_after), with the row of the same key of the plan before (None:
    there is none): first those that change noticeably or are worse than D; in each part the greatest weight first.
    drawn: whether departures were."""
    changes = []
    for key, row in rows_after.items():
        first = rows_before.get(key) if rows_before is not None else None
        delays = [values_by_seed(one, "control_delay_s") for one in (first, row) if one]
        change = difference_of(*delays, drawn=drawn) if first else None
        changes.append(RowChange(key, row, first, change))
    return sorted(changes, key=lambda one: (not (one.changes_noticeably or one.is_bad), -one.weight, one.key))
