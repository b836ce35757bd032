"""The table that streetsim-report writes for --csv: all junctions and movements."""
from collections.abc import Iterator, Sequence

from streetsim.model.tables import Entry
from streetsim.report.page_summary import Interval, ranked_rows
from streetsim.report.run_tables import Runs

CHANGES = (
    *("begin", "end", "kind", "junction", "junction_name", "approach", "to", "movement_name", "vehicles_per_hour"),
    *("before_s", "after_s", "change_s", "half_interval_s", "los_before", "los_after", "v_c"),
)


def change_rows(plans: Sequence[Runs], interval: Interval) -> Iterator[Entry]:
    """The rows of --csv, as CHANGES has the columns: each junction and movement of the last plan, beside the first
    where there are two, delays over the seeds of both, else over all; empty texts where a value is not known."""
    names = plans[-1].names
    for kind in ("junctions", "movements"):
        for ranked in ranked_rows(plans, interval, kind):
            edges = ranked.key[1:] or ("", "")
            called = names.movement(*edges) if edges[0] else ""
            change, row_before = ranked.change, ranked.row_before
            yield (
                *interval, kind.removesuffix("s"), ranked.key[0], names.junction(ranked.key[0]), *edges, called,
                f"{ranked.row.means['vehicles_per_hour']:.1f}",
                f"{change.mean_before:.2f}" if change else "",
                f"{change.mean_after if change else ranked.row.delay:.2f}",
                f"{change.change:.2f}" if change else "",
                f"{change.half:.2f}" if change and change.half is not None else "",
                row_before.letter() if row_before else "", ranked.row.letter(), f"{ranked.row.means['v_c']:.2f}",
            )
