"""Writes the CSV files of streetsim-demand and streetsim-compare: pairs, counts beside vehicles, contradictions,
runs."""
from collections import Counter
from collections.abc import Iterator, Sequence
from itertools import pairwise

from streetsim.base.files import quoteattr, whole_file
from streetsim.demand.candidates import Way
from streetsim.demand.checking import Contradiction
from streetsim.demand.correcting import Attempt
from streetsim.demand.demanding import Basis, Fitted
from streetsim.demand.judging import FIT, GROUPS, HOURS, JudgedCounts
from streetsim.model.tables import write_table
from streetsim.sumo.way_graph import Graph

PAIRS = ("begin", "end", "from", "to", "class", "vehicles")
RUNS = ("run", "vehicles", "arrived", "rescues", "geh_below_5_percent", "total_difference_percent", "criteria")
APART = ("place", "begin", "end", "what", "first", "second", "where")
LAST_FILE = "hours.csv"  # of a comparison: away while other files take their places (whole_folder)


def write_judged(folder: str, fit: JudgedCounts) -> None:
    """Writes the tables of a comparison with counts to a folder: fit.csv, hours.csv, and groups.csv where there are
    screen lines. Fault where one cannot be written."""
    write_table(f"{folder}/fit.csv", FIT, (row.fit_row() for row in fit.compared))
    write_table(f"{folder}/{LAST_FILE}", HOURS, (row.hour_row() for row in fit.hours))
    if fit.groups:
        write_table(f"{folder}/groups.csv", GROUPS, (row.group_row() for row in fit.groups))


def write_demand(folder: str, basis: Basis, fitted: Fitted, tried: Sequence[Attempt]) -> None:
    """Writes to a folder pairs.csv, candidates.rou.xml, contradictions.csv where counts contradict each other, and
    runs.csv where the demand was run (tried: its runs). Fault where one cannot be written."""
    write_table(f"{folder}/pairs.csv", PAIRS, pair_rows(basis, fitted))
    write_candidates(f"{folder}/candidates.rou.xml", basis.ways, basis.town.graph)
    if basis.contradictions:
        write_table(f"{folder}/contradictions.csv", APART, contradiction_rows(basis.contradictions))
    if tried:
        write_table(f"{folder}/runs.csv", RUNS, run_rows(tried))


def pair_rows(basis: Basis, fitted: Fitted) -> Iterator[tuple[object, ...]]:
    """(begin, end, from, to, class, vehicles) of each pair, class and slice with vehicles: a matrix that --matrix
    takes."""
    totals: Counter[tuple[int, int, int]] = Counter()
    count, size = len(basis.slices), len(basis.ways) * len(basis.slices)
    for index in fitted.whole_vehicles.nonzero()[0].tolist():
        pair = basis.ways[index // count % len(basis.ways)].pair
        totals[index // size, index % count, pair] += int(fitted.whole_vehicles[index])
    bounds = list(pairwise(basis.slices.bounds))
    for (kind, slice_, pair), vehicles in sorted(totals.items()):
        ends = basis.pairs[pair].source, basis.pairs[pair].target
        yield (*bounds[slice_], *ends, basis.kinds[kind], vehicles)


def write_candidates(path: str, ways: Sequence[Way], graph: Graph) -> None:
    """Writes candidate ways as routes, with numbers as ids, as SUMO's routeSampler takes them. Fault where it cannot be
    written."""
    with whole_file(path) as file:
        file.write("<routes>\n")
        for number, way in enumerate(ways):
            file.write(f'    <route id="{number}" edges={quoteattr(" ".join(graph.names(way.path)))}/>\n')
        file.write("</routes>\n")


def contradiction_rows(contradictions: Sequence[Contradiction]) -> Iterator[tuple[object, ...]]:
    """The rows of contradictions.csv, as APART has the columns."""
    for contradiction in contradictions:
        values = f"{contradiction.first:g}", f"{contradiction.second:g}"
        period, text = (contradiction.begin, contradiction.end), contradiction.template.replace("{} ", "")
        yield contradiction.street, *period, text, *values, contradiction.location


def run_rows(tried: Sequence[Attempt]) -> Iterator[tuple[object, ...]]:
    """The rows of runs.csv, as RUNS has the columns."""
    for attempt in tried:
        verdict = "passed" if attempt.judged.meets_criteria else "not passed"
        shares = f"{100 * attempt.judged.good_share:.1f}", f"{100 * attempt.judged.greatest_difference:.1f}"
        yield (attempt.number, len(attempt.trips), attempt.arrived, attempt.ran.rescues, *shares, verdict)
