"""Why runs are not to be trusted, in words for a page: streets by their names, and what several seeds say once."""
import re
from collections import defaultdict
from collections.abc import Iterator

from streetsim.base.report import first_few
from streetsim.base.words import time_of_day
from streetsim.model.doubts import OF_WORKS
from streetsim.model.knots import KNOTTED
from streetsim.model.names import Names
from streetsim.model.trust import WAITED
from streetsim.report import page_works
from streetsim.report.page_words import in_worst
from streetsim.report.run_tables import Runs

MET_OFTEN = re.compile(r", for [\d,]+ passages? of [\d,]+ vehicles?,")  # of a doubt
PLAIN = (  # of words in doubts, and in their place on a page
    ("queues that wait for gaps at lights did not end", "queues before lights, where some wait for gaps, did not end"),
    ("may be other than in SUMO", "may be far off"),
    ("in one cell", "in one place"),
)
NUMBER = re.compile(r"\d[\d,.]*")
MOST_OF_ALL = re.compile(r"(?<=most of all ).*$")
AT_END = "at the end of "
OF_WORKS_ON = re.compile(r"(?<=works on )[^\s:,]+")
CLOCK = re.compile(r"(?<= at )([\d,]+) s\b")


def doubts_of(runs: Runs) -> list[str]:
    """Why the runs of a plan are not to be trusted, each with its seed; empty where they are."""
    return [f"seed {seed}: {doubt}" for seed, folder in runs.folders.items() for doubt in folder.doubts]


def reasons_once(runs: Runs) -> Iterator[str]:
    """The same, where seeds differ by numbers or places alone the first of them, and which others say so too."""
    seeds_by_kind = defaultdict[str, dict[int, str]](dict)
    for seed, folder in runs.folders.items():
        for doubt in folder.doubts:
            seeds_by_kind[MOST_OF_ALL.sub("", NUMBER.sub("", doubt))].setdefault(seed, doubt)
    for found in seeds_by_kind.values():
        (first, doubt), *others = found.items()
        alike = f" (so also seed{'s' if len(others) > 1 else ''} {first_few([str(seed) for seed, _ in others])})"
        yield f"seed {first}: {in_plain_words(doubt, runs.names)}{alike if others else ''}"


def held_back(runs: Runs) -> str:
    """How many vehicles waited to enter at the worst minute of all runs of a plan, where one is doubted for it; empty
    where none is."""
    found = [match for folder in runs.folders.values() for text in folder.doubts if (match := WAITED.search(text))]
    if not found:
        return ""
    count, clock = max((int(match[1].replace(",", "")), int(match[2].replace(",", ""))) for match in found)
    return f"{count:,} of {runs.vehicles:,.0f} vehicles wait outside the network at {time_of_day(clock)}"


def jams_of(runs: Runs) -> str:
    """Who waited to enter a plan, and its knots; empty where no run is doubted for either."""
    return ", and ".join(filter(None, (held_back(runs), knotted(runs))))


def knotted(runs: Runs) -> str:
    """Where vehicles kept each other from going on in the first run of a plan that is doubted for it; empty where none
    is."""
    found = (KNOTTED.search(text) for folder in runs.folders.values() for text in folder.doubts)
    match = next(filter(None, found), None)
    return f"vehicles keep each other from going on in {match[1]}: {match[2]}" if match else ""


def first_reason(runs: Runs) -> str:
    """Why a plan is not to be trusted, by the reasons that leave most out of its figures, without its seed."""
    edges = dict.fromkeys(one.edge for one in runs.places if one.kind == OF_WORKS)
    left = [clock for clock in (page_works.left_at(runs, edge) for edge in edges) if clock is not None]
    told = "the queue before the works reaches the end of the network from"
    parts = [f"{told} {time_of_day(min(left))}{in_worst(len(runs.folders))}"] if left else []
    parts += [text] if (text := held_back(runs)) else []
    if parts:
        return f"{', and '.join(parts)}: vehicles that wait beyond the map are not counted"
    return MET_OFTEN.sub("", in_plain_words(doubts_of(runs)[0].partition(": ")[2], runs.names))


def in_plain_words(doubt: str, names: Names) -> str:
    """A doubt of a whole run in a councillor's words: streets and junctions by their names, clocks as times of day."""
    for told, plain in PLAIN:
        doubt = doubt.replace(told, plain)
    doubt = CLOCK.sub(lambda found: f"{time_of_day(int(found[1].replace(',', '')) // 60 * 60)}", doubt)
    doubt = OF_WORKS_ON.sub(lambda found: street_of_works(found[0], names), doubt)
    return MOST_OF_ALL.sub(lambda found: places_told(found[0], names), doubt)


def street_of_works(lane: str, names: Names) -> str:
    """The street of works by the id of their edge, or of a lane of it."""
    edge, _, number = lane.rpartition("_")
    return names.street_told(edge if number.isdigit() and edge in names.mapping.links_of else lane)


def places_told(edges: str, names: Names) -> str:
    """Edges, with commas between, by the names of their streets, or where it is at their ends of the junctions there;
    unchanged where one is unknown."""
    known, at_ends = edges.removeprefix(AT_END).split(", "), edges.startswith(AT_END)
    if not all(edge in names.mapping.links_of for edge in known):
        return edges
    told = [names.junction_told(names.junction_ahead(edge)) if at_ends else names.street_told(edge) for edge in known]
    return f"{'before ' if at_ends else ''}{'; '.join(dict.fromkeys(told))}"
