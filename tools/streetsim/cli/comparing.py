"""Compares a run with SUMO's output, counts or travel times, for streetsim-compare."""
import sys

from streetsim.base.files import Fault, whole_folder
from streetsim.base.folders import COMPARED
from streetsim.base.progress import Slow
from streetsim.demand.compared_times import are_close, compared_times, lines_of_times, read_compared
from streetsim.demand.judging import judge_counts
from streetsim.demand.pictures import draw_fit
from streetsim.demand.reading import read_counts
from streetsim.demand.seen import passed_in
from streetsim.demand.writing import LAST_FILE, write_judged
from streetsim.model import trust
from streetsim.model.folder import Folder, read_folder
from streetsim.model.replications import is_drawn
from streetsim.report.beside_sumo import (
    compare_edges, compare_trips, edge_values_of, read_edges, read_tripinfo, trip_times_of,
)


def with_sumo(path: str, files: list[str]) -> int:
    """Compares the trips of a folder with SUMO's tripinfo, and edges where a second file, edgeData, is given; prints
    it. Status 1 where the trips, or the edges, have nothing in common, else 0. Fault for more than two files."""
    if len(files) > 2:
        raise Fault("--sumo takes tripinfo.xml and at most one edgedata.xml")
    with Slow(f"reading {path}") as progress:
        folder = read_folder(path)
        if is_drawn(folder.setting):
            raise Fault(f"{path}: its departures were drawn, and SUMO had those of the file: --departures listed")
        run_times, names = trip_times_of(folder), [row["id"] for row in folder.trips()]
        progress.text = f"reading {files[0]}"
        sumo_times = read_tripinfo(files[0])
        lines, common = list(compare_trips(run_times, sumo_times, names)), bool(run_times.keys() & sumo_times.keys())
        if len(files) == 2:
            progress.text = f"reading {files[1]}"
            edges, sumo = edge_values_of(folder), read_edges(files[1])
            lines += compare_edges(edges, sumo, folder.period, len(folder.mapping.links_of))
            common = common and any(key in sumo for key in edges)
    print(*lines, *folder.notes, sep="\n")
    tell_doubts(folder)
    if not common:
        print("nothing is common to both", file=sys.stderr)
    return 0 if common else 1


def with_times(path: str, files: list[str]) -> int:
    """Prints how the segments, routes, trips and edges of a folder meet travel times that were measured; status 1 where
    fewer than 85 % of a kind are within 15 % (routes and trips also within a minute), else 0."""
    with Slow(f"reading {path}"):
        folder, notes = read_folder(path), list[str]()
        comparisons = compared_times(folder, read_compared(files, notes))
    print(*notes, sep="\n", end="\n" if notes else "", file=sys.stderr)
    print(*lines_of_times(comparisons), sep="\n")
    tell_doubts(folder)
    return 0 if are_close(comparisons) else 1


def with_counts(path: str, files: list[str], attribute: str | None, out_path: str | None) -> int:
    """Prints how a folder meets counts by the usual criteria for each hour; writes tables and pictures where a folder
    `out_path` is named. attribute: of SUMO's files, that is the count, or none. Status 1 where the criteria are not
    met, else 0; that the run is not to be trusted is printed and does not change it."""
    with Slow(f"reading {path}") as progress:
        folder = read_folder(path)
        counts = read_counts(files, attribute, folder.mapping)
        progress.text = f"comparing with {len(counts):,} counts"
        fit = judge_counts(counts, passed_in(folder, counts))
        if out_path:
            with whole_folder(out_path, LAST_FILE, COMPARED) as out_folder:
                write_judged(out_folder, fit)
                draw_fit(out_folder, fit, folder.mapping.links, "passed in the run")
    print(*fit.lines(), *folder.notes, sep="\n")
    tell_doubts(folder)
    return 0 if fit.meets_criteria else 1


def tell_doubts(folder: Folder) -> None:
    """Prints why a run is not to be trusted, and its worst doubted places, where there are any."""
    if line := trust.last_line(folder.doubts, folder.places, folder.mapping):
        print(line)
