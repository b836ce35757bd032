"""A folder that streetsim-run wrote for one run, read back."""
import json
import os
import re
from collections.abc import Iterator, Sequence
from dataclasses import dataclass, field

from streetsim.base.files import Fault, Json, open_text, read_json, reading
from streetsim.base.limits import CLOCK
from streetsim.base.program import UNKNOWN_NOTE, Proof, proof_of_digest
from streetsim.base.unpacking import LINE, STREAMED, lines_of, refuse_crowded
from streetsim.model import tables
from streetsim.model.doubts import Doubt, doubts_from
from streetsim.model.mapping import Map, map_from
from streetsim.model.rows import NAME as ROWS
from streetsim.model.rows import RowsPart, Stretches, frames_in, part_of_frame, parts_in
from streetsim.model.runs import TimedCommand

NAME = "setting.json"
LIGHTS = "lights.json"  # what its lights show at the road, of a run with --junctions, as model.timing has it
POLLS = "lanes.jsonl.gz"  # what stood on the lanes at polls, as text
RUN_LINES = "run.jsonl.gz"  # the lines of the run, beside the folders of its seeds where there are several
# Tables that have got columns since version 1.0.0.
GROWN_TABLES = {"movements": tables.MOVEMENTS, "approaches": tables.APPROACHES, "junctions": tables.JUNCTIONS}
Frame = Json  # what stood on lanes at a clock: {"clock", "lanes"}, as `polls` says


@dataclass(slots=True)
class Folder:
    """What a run left in its folder. Its tables are read anew at each call, a row as the texts by column; Fault where
    one is missing or has other columns."""

    path: str
    mapping: Map
    signals: list[TimedCommand]
    dawdle: int  # of 1,000
    every: int  # seconds between polls; 0: none
    period: int  # seconds of a count
    # Of what the folder was setting: run, seed, start, until, rescue, program.
    setting: Json = field(default_factory=dict)
    doubts: list[str] = field(default_factory=list)  # why the run is not to be trusted
    places: list[Doubt] = field(default_factory=list)  # and where

    @property
    def unproved(self) -> str:
        """What is to be said of a run of a program that is not known to be proved; empty of any other."""
        known = proof_of_digest(self.setting.get("program")) is Proof.PROVED
        return str(self.setting.get("unproved", "" if known else UNKNOWN_NOTE))

    @property
    def notes(self) -> list[str]:
        """What each page of the run has at its head: that its program is not known to be proved, demand invented, or
        its tables of an earlier version."""
        return [text for text in (self.unproved, self.mapping.invented, self.lacking) if text]

    @property
    def lacking(self) -> str:
        """What is to be said where tables lack columns, as those of earlier versions do; empty where none does."""
        texts = []
        for name, header in GROWN_TABLES.items():
            path = f"{self.path}/{name}.csv"
            if os.path.exists(path) and (absent := tables.absent_columns(path, header)):
                texts.append(f"{name}.csv has no {', '.join(absent)}")
        return f"tables of an earlier version: {'; '.join(texts)}: these are not told or compared" if texts else ""

    @property
    def vehicles(self) -> int:
        """How many vehicles the run had."""
        return int(self.setting.get("vehicles", len(self.mapping.cars)))

    def trips(self) -> list[dict[str, str]]:
        """The rows of trips.csv (tables.TRIPS), in the order of the vehicles' numbers."""
        return tables.read_table(f"{self.path}/trips.csv", tables.TRIPS)

    def trip_columns(self, *names: str) -> list[list[str]]:
        """Some columns of trips.csv, as texts, by the vehicles' numbers."""
        return tables.read_columns(f"{self.path}/trips.csv", tables.TRIPS, *names)

    def counts(self) -> list[dict[str, str]]:
        """The rows of counts.csv (tables.COUNTS)."""
        return tables.read_table(f"{self.path}/counts.csv", tables.COUNTS)

    def edges(self) -> list[dict[str, str]]:
        """The rows of edges.csv (tables.EDGES)."""
        return tables.read_table(f"{self.path}/edges.csv", tables.EDGES)

    def queues_before_works(self) -> list[dict[str, str]]:
        """The rows of queues.csv (tables.QUEUES) of queues before works."""
        return tables.read_table(f"{self.path}/queues.csv", tables.QUEUES, {"before": tables.BEFORE_WORKS})

    def works(self) -> list[dict[str, str]]:
        """The rows of works.csv (tables.WORKS); Fault where the run had no works."""
        return self.optional_table(tables.WORKS_FILE, tables.WORKS, "no works in this run (streetsim-run --close)")

    def stops(self) -> list[dict[str, str]]:
        """The rows of stops.csv (tables.STOPS); Fault where the run had no stops."""
        return self.optional_table(tables.STOPS_FILE, tables.STOPS, "no stops of vehicles in this run")

    def phases(self) -> list[dict[str, str]]:
        """The rows of phases.csv (tables.PHASES); Fault where detectors drove no light."""
        return self.optional_table(tables.PHASES_FILE, tables.PHASES, "detectors drive no light in this run")

    def optional_table(self, name: str, header: Sequence[str], why: str) -> list[dict[str, str]]:
        """The rows of a table that not every run has; Fault where this one has none. name: of the file; header: its
        columns; why: what the Fault says."""
        if not os.path.exists(f"{self.path}/{name}"):
            raise Fault(f"{self.path}: {why}")
        return tables.read_table(f"{self.path}/{name}", header)

    def polls(self) -> Iterator[Frame]:
        """What stood on the lanes at each poll, rising: {"clock", "lanes": [[link, lane, [[car, cell, speed], ..], [car
        in the buffer, ..], [[first, last cell closed], ..]], ..]}; car: its number in the run file; the size of a car
        stands after its speed where it is above 1. Lanes with nothing on them, behind them and closed are left out, as
        are those that were not polled. Nothing where nothing was; Fault where the file is not there."""
        path, rows = f"{self.path}/{POLLS}", f"{self.path}/{ROWS}"
        if self.every and os.path.exists(rows) and not os.path.exists(path):
            yield from frames_in(rows, self.every)
        elif self.every or os.path.exists(path):
            with reading(path), open_text(path, ratio=STREAMED) as file:
                for line in lines_of(file, LINE):
                    refuse_crowded(line)
                    yield json.loads(line)

    def polled_parts(
        self, first_clock: int = 0, last_clock: int = CLOCK, every: int | None = None
    ) -> Iterator[tuple[RowsPart, list[Stretches]]]:
        """What stood on the lanes from a first to a last clock as columns, and by clock their closed stretches, as of
        parts_in; every: clocks that are whole multiples of so many seconds, None: polls. Nothing where nothing was
        polled; Fault where the file is not there."""
        rows = f"{self.path}/{ROWS}"
        if self.every and os.path.exists(rows):
            yield from parts_in(rows, every or self.every, first_clock, last_clock)
        else:
            for frame in self.polls():
                if first_clock <= frame["clock"] <= last_clock:
                    closed = {2 * link + lane: stretches for link, lane, *_, stretches in frame["lanes"] if stretches}
                    yield part_of_frame(frame), [closed]

    def has_each_second(self) -> bool:
        """Whether each second of the run is kept, beside polls."""
        return bool(self.every) and os.path.exists(f"{self.path}/{ROWS}")

    def links_along(self, edges: Sequence[str]) -> list[list[int]]:
        """For each edge of a path, in its order, the numbers of its links; Fault where the map has no such edge."""
        if unknown := [edge for edge in edges if edge not in self.mapping.links_of]:
            raise Fault(f"{self.path}: the map has no edge {unknown[0]!r}")
        return [self.mapping.links_of[edge] for edge in edges]


def seeds_in(path: str) -> list[int]:
    """The seeds, rising, whose runs a folder has, each in a folder of its own; empty where there are none."""
    names = os.listdir(path) if os.path.isdir(path) else []
    seeds = [int(name[5:]) for name in names if re.fullmatch(r"seed-\d+", name)]
    return sorted(seed for seed in seeds if os.path.exists(f"{path}/seed-{seed}/{NAME}"))


def read_folder(path: str) -> Folder:
    """What streetsim-run left in the folder of one run; Fault where it is no such folder, or one of several seeds."""
    if not os.path.exists(f"{path}/{NAME}") and (seeds := seeds_in(path)):
        raise Fault(f"{path}: the runs of {len(seeds)} seeds: name one of them, {path}/seed-{seeds[0]}")
    contents = read_json(f"{path}/{NAME}", ("map", "signals", "dawdle", "every", "period"))
    fields = {key: contents[key] for key in ("signals", "dawdle", "every", "period")}
    made, doubts = contents.get("made", {}), contents.get("not_trusted", [])
    try:
        places = doubts_from(contents.get("doubts", ()))
    except TypeError as fault:
        raise Fault(f"{path}/{NAME}: doubts: {fault}") from None
    return Folder(path, map_from(path, contents["map"]), **fields, setting=made, doubts=doubts, places=places)
