"""Whether a run is to be trusted: what speaks against it, in words for its last line and its setting.

The marks are chosen, not measured: above them a run is of another town than the one that was asked for.
"""
import json
import re
from collections import Counter
from collections.abc import Collection, Iterable, Iterator, Mapping, Sequence
from dataclasses import dataclass
from itertools import chain, compress, pairwise
from statistics import fmean

from streetsim.base.files import whole_file
from streetsim.base.program import proof_note
from streetsim.model.doubts import Doubt, places_told
from streetsim.model.folder import NAME
from streetsim.model.freeflow import FreeFlow
from streetsim.model.knots import Knot, knots_told
from streetsim.model.mapping import Map
from streetsim.model.runs import Run

MOST_RESCUES = 0.01  # of the vehicles; one alone is none too many
MOST_LATE = 0.1  # of those that would have arrived, were nobody in their way
MOST_WAITING = 0.05  # of the vehicles that wait to enter, at the worst minute
STANDSTILL_SECONDS = 600  # seconds without an arrival
OTHER_LENGTH = 0.1  # of the metres that are driven
MOST_ACTUATED = 0.1  # of the vehicles, that pass lights which SUMO times by detectors
MOST_FULL = 0.2  # of the vehicles, that pass lanes which are nearly full by the demand
MOST_OVERFULL = 0.1  # of the vehicles, that pass lanes whose queue grows all the time, as drawn towns chose
# Of the vehicles, that pass lanes from which some wait for gaps at lights while their queues do not end, as 16 networks
# of the kinds of bench/run lit chose (seeds 5001 to 5004, 7001 to 7004, 8001 to 8005, 17923, 25421, 32993).
MOST_IN_GAPS = 0.05
MOST_SLOW = 0.15  # of the vehicles, that start slowly at lights
MOST_RESERVED = 0.05  # of the vehicles, that drive on lanes of their own class
MOST_CROWDED = 0.1  # of the vehicles, that pass nearly full streets which give way
MOST_NAMED = 3  # edges, or lights
RESCUED = "(these stood too long, and were put down on the next link)"
RESERVED_OFF = "8 to 13 %"  # of trips of buses in SUMO that drive so (tools/CLOSENESS.md)
WAITED = re.compile(r"([\d,]+) vehicles? waited to enter at ([\d,]+) s")  # of a doubt: how many, and the clock
SLOW_OFF = "4 to 15 %"  # of mean trips in SUMO where many start slowly (tools/CLOSENESS.md)


@dataclass(slots=True)
class TripsAtEnd:
    """The trips of a run at its last clock; seconds of each are from the departure that was wished for."""

    clock: int
    vehicles: int  # in the run file
    durations: list[int]  # of those that arrived
    to_date: list[int]  # of those that wished to depart and have not arrived
    due: int  # those that would have arrived, were nobody in their way
    late: int  # those of them that have not
    long_due: int  # those that would have arrived for STANDSTILL_SECONDS and have not
    last_arrival: int  # clock of the last arrival, or of the start where nobody arrived

    def all_arrived(self) -> int | None:
        """The clock at which all who wished to depart had arrived; none where some have not."""
        return None if self.to_date else self.last_arrival

    def in_words(self) -> str:
        """How many vehicles there are and have arrived, and the mean trip, as the last line of a run says it."""
        told = f"{self.vehicles:,} vehicles, {len(self.durations):,} arrived, "
        told += f"mean trip {fmean(self.durations):.1f} s" if self.durations else "no trip"
        if not self.to_date:
            return told
        of_these = " of these" if self.durations else ""
        return f"{told}{of_these}, {fmean(self.to_date):.1f} s to date of {len(self.to_date):,} under way"


def trips_at(clock: int, start: int, rows: Collection[tuple]) -> TripsAtEnd:
    """The trips of a run at a clock, from rows for trips.csv: (id, depart, arrival or "", duration, free flow, ..).
    start: the clock at the run's begin."""
    durations, to_date, ends, last_arrival = list[int](), list[int](), list[float](), start
    for _, depart, arrival, duration, free, *_ in rows:
        if arrival != "":
            durations.append(duration)
            last_arrival = max(last_arrival, arrival)
        elif depart < clock:
            to_date.append(clock - depart)
            ends.append(depart + float(free))
    late = sum(end <= clock for end in ends)
    return TripsAtEnd(
        clock=clock,
        vehicles=len(rows),
        durations=durations,
        to_date=to_date,
        due=late + len(durations),
        late=late,
        long_due=sum(end + STANDSTILL_SECONDS <= clock for end in ends),
        last_arrival=last_arrival,
    )


def free_arrivals(run: Run, mapping: Map) -> list[float]:
    """The clocks, rising, at which vehicles would arrive, were nobody in their way and all lights green."""
    free_flow = FreeFlow(mapping, run.load.command["dawdle"] / 1000)
    return sorted(depart + free_flow(plan) for depart, plan in zip(run.departs().tolist(), run.plans(), strict=True))


def missing_doubts(arrived: Mapping[str, float], due: float) -> list[str]:
    """What speaks against the means of several runs, a text each, as more than a tenth of the vehicles that had the
    time to arrive (due) have not, and count until the end in such means. arrived: {name of the runs: vehicles}."""
    late = {name: due - count for name, count in arrived.items() if due - count > MOST_LATE * due}
    told = "vehicles that had the time to arrive have not"
    return [f"{name} {missing:,.0f} of {due:,.0f} {told}".strip() for name, missing in late.items()]


def doubts(
    trips: TripsAtEnd, rescues: tuple[int, Sequence[Knot]], censuses: Sequence, run: Run, mapping: Map,
    listed: Sequence[str],
) -> list[str]:
    """What speaks against a run by rescues, arrivals, entries, works, full lanes, starts, lengths and lights, a text
    each. rescues: how many, and the knots in which they were; censuses: of each minute; listed: lights that SUMO times
    by detectors and that show their listed seconds."""
    count, knots = rescues
    found = [*rescue_doubts(trips, count, knots_told(knots, mapping)), *arrival_doubts(trips)]
    found += entry_doubts(trips, censuses)
    found += works_doubts(works_in(run, mapping), [(trips.clock, trips.all_arrived())])
    found += [*full_doubts(mapping), *start_doubts(mapping), *reserved_doubts(mapping)]
    found += plan_doubts(mapping.doubted_plans)
    return [*found, *length_doubts(trips.clock, run, mapping), *actuated_doubts(trips.clock, run, mapping, listed)]


def rescue_doubts(trips: TripsAtEnd, rescues: int, in_knots: str = "") -> Iterator[str]:
    """A doubt where there were more rescues than a hundredth of the vehicles, and more than one. rescues: how many in
    all, so that a vehicle that was rescued twice counts twice; in_knots: as knots_told gives it."""
    if rescues > max(1, MOST_RESCUES * trips.vehicles):
        yield f"{rescues:,} rescues of {count_told(trips.vehicles, 'vehicle')} {RESCUED}{in_knots}"


def arrival_doubts(trips: TripsAtEnd) -> Iterator[str]:
    """A doubt where the network is locked (nobody has arrived for 600 s who should have), or more than a tenth of those
    that had the time to arrive has not."""
    if trips.long_due and trips.clock - trips.last_arrival >= STANDSTILL_SECONDS:
        yield (
            f"the network is locked: nobody has arrived for {trips.clock - trips.last_arrival:,} s, "
            f"and {trips.long_due:,} should have"
        )
    elif trips.late > MOST_LATE * trips.due:
        has = "has" if trips.late == 1 else "have"
        yield f"{trips.late:,} of {count_told(trips.due, 'vehicle')} that had the time to arrive {has} not"


def entry_doubts(trips: TripsAtEnd, censuses: Sequence) -> Iterator[str]:
    """A doubt where more than a twentieth of the vehicles waits to enter at the worst census."""
    worst = max(censuses, key=lambda census: census.waiting, default=None)
    if worst is not None and worst.waiting > MOST_WAITING * trips.vehicles:
        told, be = count_told(worst.waiting, "vehicle"), "is" if worst.waiting == 1 else "are"
        yield f"{told} waited to enter at {worst.clock:,} s, and {be} in no queue or count"


def waiting_doubts(waiting: Mapping[str, Sequence[tuple[int, int]]], vehicles: int) -> Iterator[str]:
    """What speaks against the means of several runs, a text each, because at their worst minutes more than a twentieth
    of the vehicles, by the mean over the runs, waited to enter. waiting: {name of the runs: (vehicles that waited,
    clock) of each, one at least}; vehicles: how many a run has."""
    for name, runs in waiting.items():
        count, clock = (fmean(column) for column in zip(*runs, strict=True))
        if count > MOST_WAITING * vehicles:
            told = f"vehicles waited to enter at some {clock:,.0f} s, and are in no queue or count"
            yield f"{name} {count:,.0f} of {vehicles:,} {told}".strip()


def works_in(run: Run, mapping: Map) -> Iterator[tuple[str, int]]:
    """For each line by which the tools close a lane for works: (SUMO's id of the lane, clock at which it is sent).
    Closures that the author of a run file wrote are passed over."""
    for clock, line in run.timed:
        if line.number == 0 and line.command["cmd"] == "close":
            yield mapping.lane_name(line.command["link"], line.command["lane"]), clock


def works_doubts(works: Iterable[tuple[str, int]], runs: Sequence[tuple[int, int | None]]) -> Iterator[str]:
    """Doubts for works, (lane, first second), that met nobody in some runs, which had ended, or all whose vehicles had
    arrived, before. runs: of each the last clock, and the clock when all had arrived, or none."""
    for lane, first in works:
        begin = f"works on {lane} begin at {first:,} s, and"
        if early := sum(end <= first for end, _ in runs):
            ended = "the run" if len(runs) == 1 else f"{early:,} of {len(runs):,} runs"
            yield f"{begin} {ended} had ended by then"
        if empty := sum(gone is not None and gone <= first < end for end, gone in runs):
            where = "" if len(runs) == 1 else f" in {empty:,} of {len(runs):,} runs"
            yield f"{begin} met nobody{where}, as all vehicles had arrived by then"


def plans_before(clock: int, run: Run) -> Iterator[Sequence[int]]:
    """The plans (links) of the vehicles that wish to depart before a clock."""
    return compress(run.plans(), (run.departs() < clock).tolist())


def actuated_doubts(clock: int, run: Run, mapping: Map, lights: Sequence[str]) -> Iterator[str]:
    """A doubt where more than a tenth of the vehicles that wish to depart before a clock pass `lights`, which SUMO
    times by detectors and which show their listed seconds here."""
    ways = {(turn.link, turn.next): turn.light for turn in mapping.turns if turn.light and turn.light in lights}
    plans = [*plans_before(clock, run)] if ways else []
    passed = [{ways[pair] for pair in pairwise(plan) if pair in ways} for plan in plans]
    if (count := sum(map(bool, passed))) > MOST_ACTUATED * len(plans):
        most = [light for light, _ in Counter(light for met in passed for light in sorted(met)).most_common(MOST_NAMED)]
        told = f"{count:,} of {count_told(len(plans), 'vehicle')} {'passes' if count == 1 else 'pass'} lights that are"
        yield f"{told} actuated in SUMO and show their listed seconds here: most of all {', '.join(most)}"


def crowding_doubts(vehicles: int, crowded: Mapping[str, int]) -> Iterator[str]:
    """A doubt where streets that give way without a light were nearly full, and were passed then more than a tenth as
    often as there are vehicles. vehicles: how many there are; crowded: {edge: how many pass it then}."""
    if (count := sum(crowded.values())) > MOST_CROWDED * vehicles:
        most_passed = ", ".join(sorted(crowded, key=lambda edge: (-crowded[edge], edge))[:MOST_NAMED])
        is_one = len(crowded) == 1
        give = "gives way without a light is" if is_one else "give way without a light are"
        yield (
            f"{count_told(len(crowded), 'street')} that {give} nearly full, for {count_told(count, 'passage')} of "
            f"{count_told(vehicles, 'vehicle')}, and {'its queue' if is_one else 'their queues'} may be other than in "
            f"SUMO: most of all {most_passed}"
        )


def full_doubts(mapping: Map) -> Iterator[str]:
    """A doubt where more than a fifth of the vehicles pass lanes that are nearly full by the demand, or a tenth those
    whose queue grows all the time; without those that runs show themselves (gap_doubts)."""
    full = mapping.full.unseen() if mapping.lit_ways else mapping.full
    if full.share > MOST_FULL or full.overfull_share > MOST_OVERFULL:
        first = "; ".join(one.in_words() for one in full.lanes[:MOST_NAMED])
        most = f", most of all {first}" if len(full.lanes) > MOST_NAMED else f": {first}"
        yield (
            f"{full.vehicles:,} of {count_told(full.of, 'vehicle')} pass lanes that are nearly full by the demand, and "
            f"their queues may be other than in SUMO{most}"
        )


def gap_doubts(vehicles: int, passages: Mapping[str, int]) -> Iterator[str]:
    """A doubt where lanes from which some wait for gaps at lights were full, and were passed then more than 0.05 times
    as often as there are vehicles. vehicles: how many there are; passages: by edge how many passed then."""
    if (count := sum(passages.values())) > MOST_IN_GAPS * vehicles:
        most_passed = ", ".join(sorted(passages, key=lambda edge: (-passages[edge], edge))[:MOST_NAMED])
        yield (
            f"queues that wait for gaps at lights did not end, for {count_told(count, 'passage')} of "
            f"{count_told(vehicles, 'vehicle')}, and may be other than in SUMO: most of all at the end of {most_passed}"
        )


def start_doubts(mapping: Map) -> Iterator[str]:
    """A doubt where more than 0.15 of the vehicles start slowly at lights."""
    starts = mapping.starts
    if starts and starts.vehicles > MOST_SLOW * starts.of:
        yield f"{starts.in_words()}; mean trips of such drawn rows were {SLOW_OFF} too short"


def reserved_doubts(mapping: Map) -> Iterator[str]:
    """A doubt where more than 0.05 of the vehicles drive on lanes of their own class."""
    own = mapping.reserved
    if own and own.vehicles > MOST_RESERVED * own.of:
        yield f"{own.in_words()}; trips of such buses were {RESERVED_OFF} too short"


def plan_doubts(plans: Mapping[str, str]) -> Iterator[str]:
    """A doubt, for each reason, where the plans of lights were found by a search that is not to be trusted. plans: by
    light why."""
    for why, count in Counter(plans.values()).items():
        told = "the plan of 1 light is" if count == 1 else f"the plans of {count:,} lights are"
        yield f"{told} of a search that is not to be trusted ({why})"


def length_doubts(clock: int, run: Run, mapping: Map) -> Iterator[str]:
    """A doubt where the routes of those that wish to depart before a clock are, together, by more than a tenth longer
    or shorter than in SUMO, as edges are whole cells."""
    cell_metres = [link.cells * link.cell_metres for link in mapping.links]
    sumo_metres = [link.metres for link in mapping.links]
    metres = [
        sum(sum(map(lengths.__getitem__, plan)) for plan in plans_before(clock, run))
        for lengths in (cell_metres, sumo_metres)
    ]
    if abs(metres[0] - metres[1]) > OTHER_LENGTH * metres[1]:
        driven = {*chain.from_iterable(plans_before(clock, run))}
        used = [link for link in driven if cell_metres[link] != sumo_metres[link]]
        order = sorted(used, key=lambda link: (-abs(cell_metres[link] - sumo_metres[link]), link))
        edges = ", ".join(dict.fromkeys(mapping.links[link].edge for link in order[:MOST_NAMED]))
        share = 100 * (metres[0] / metres[1] - 1)
        how = f"{abs(share):.0f} % {'longer' if share > 0 else 'shorter'} here than in SUMO"
        yield f"routes are {how}, as edges are whole cells: most of all {edges}"


def count_told(count: int, noun: str) -> str:
    """How many of a thing there are, in words: '1 vehicle', '2 vehicles'; noun: its name in the singular."""
    return f"{count:,} {noun}{'' if count == 1 else 's'}"


def write_doubts(folder: str, doubts: Sequence[str], program: str) -> None:
    """Writes to a folder why a study or a search is not to be trusted (doubts, empty where it is), in a setting.json
    with nothing else but that its program is without proofs. program: its path. Fault where it cannot be written."""
    with whole_file(f"{folder}/{NAME}") as file:
        json.dump({"not_trusted": list(doubts), **proof_note(program)}, file, separators=(",", ":"))


def last_line(doubts: Sequence[str], places: Sequence[Doubt], mapping: Map) -> str:
    """The last line of a run: that it is not to be trusted, and why, and its worst doubted places; empty where there is
    neither."""
    return "; ".join(filter(None, [verdict(doubts) if doubts else "", places_told(places, mapping)]))


def last_line_of_seeds(doubts: Mapping[int, Sequence[str]], places: Sequence[Doubt], mapping: Map) -> str:
    """The same of runs with several seeds: which are not to be trusted, and why the first of them is not. doubts: by
    seed; places: of all."""
    doubtful = {seed: texts for seed, texts in doubts.items() if texts}
    if not doubtful:
        return places_told(places, mapping)
    named = f"seed{'s' if len(doubtful) > 1 else ''} {', '.join(map(str, doubtful))}"
    first, texts = next(iter(doubtful.items()))
    why = "; ".join(texts) if len(doubtful) == 1 else f"seed {first}: {'; '.join(texts)}"
    return "; ".join(filter(None, [f"not to be trusted: {named}: {why}", places_told(places, mapping)]))


def verdict(doubts: Sequence[str]) -> str:
    """The line that says that a run is not to be trusted, and why; doubts: the reasons, one at least."""
    return f"not to be trusted: {'; '.join(doubts)}"
