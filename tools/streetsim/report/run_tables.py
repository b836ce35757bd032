"""What reports, maps and exports read: the folders of a run, one for each seed, and their junction tables."""
import os
from collections import Counter, defaultdict
from collections.abc import Collection, Mapping, Sequence
from dataclasses import dataclass, field
from statistics import fmean
from typing import Any

from streetsim.base.files import Fault
from streetsim.base.report import first_few
from streetsim.model.doubts import OF_WORKS, Doubt, doubts_by_seed, place_of
from streetsim.model.folder import NAME, Folder, read_folder, seeds_in
from streetsim.model.names import Names
from streetsim.model.replications import is_drawn
from streetsim.model.service import level
from streetsim.model.tables import APPROACHES, JUNCTIONS, MOVEMENTS, SEEDS, read_table

TABLES = {"movements": MOVEMENTS, "approaches": APPROACHES, "junctions": JUNCTIONS}
KEYS = {"movements": ("junction", "approach", "to"), "approaches": ("junction", "approach"), "junctions": ("junction",)}
MEASURES = (
    *("vehicles", "vehicles_per_hour", "control_delay_s", "stopped_delay_s", "stops_per_vehicle"),
    *("queue_50_m", "queue_95_m", "queue_max_m", "storage_m", "v_c", "capacity_per_hour"),
    *("nearly_full", "full_percent", "blocked_percent"),
)


@dataclass(slots=True)
class ResultRow:
    """A movement, approach or junction in an interval of the tables: means over seeds, and each seed's values."""

    key: tuple[str, ...]
    control: str
    movement: str  # L, T, R or U; empty of an approach or a junction
    means: dict[str, float]  # measure: mean over the seeds that have it
    by_seed: dict[int, dict[str, float]]  # seed: {measure: value}
    doubt: str = ""  # why it is not sure, of half of the runs or more; empty where it is

    @property
    def delay(self) -> float:
        """Mean control delay over the seeds, seconds a vehicle."""
        return self.means["control_delay_s"]

    @property
    def vehicles_lost(self) -> float:
        """Seconds that all its vehicles together lose in an hour."""
        return self.delay * self.means["vehicles_per_hour"]

    def letter(self) -> str:
        """Its level of service by its mean delay, A to F; of a movement F also where v/c is above 1."""
        return level(self.delay, self.control, self.means["v_c"] if self.movement else None)


Rows = dict[tuple[str, ...], ResultRow]  # by their key


@dataclass(slots=True)
class Runs:
    """The runs of one folder, one for each seed."""

    name: str
    folders: dict[int, Folder]
    rows: dict[tuple[str, int, int], Rows] = field(default_factory=dict)  # by table, begin and end

    @property
    def first_folder(self) -> Folder:
        """The folder of the first seed."""
        return next(iter(self.folders.values()))

    @property
    def names(self) -> Names:
        """The names of its map's streets and junctions."""
        return Names(self.first_folder.mapping)

    @property
    def is_drawn(self) -> bool:
        """Whether the departures of all its runs were drawn by their seeds; else they are those of the file."""
        return all(is_drawn(folder.setting) for folder in self.folders.values())

    @property
    def vehicles(self) -> float:
        """How many vehicles a run had, in the mean over the seeds."""
        return fmean(folder.vehicles for folder in self.folders.values())

    def departing(self, until: int) -> tuple[int, float]:
        """(the whole minute, in seconds, in which the first vehicle wishes to depart, how many do before a clock, in
        the mean over the seeds); (0, 0) where nobody does. until: the clock, seconds."""
        clocks = [[*map(int, folder.trip_columns("depart")[0])] for folder in self.folders.values()]
        early = [[clock for clock in own if clock < until] for own in clocks]
        first = min((clock for own in early for clock in own), default=0)
        return first // 60 * 60, fmean(map(len, early))

    @property
    def places(self) -> list[Doubt]:
        """The doubts of its runs with their places, of each place the worst, the worst first: of works, and what half
        of the runs or more doubt, as of rows."""
        found = {seed: folder.places for seed, folder in self.folders.items()}
        runs = Counter(place for doubts in found.values() for place in {place_of(one) for one in doubts})
        half = [place for place, count in runs.items() if 2 * count >= len(found)]
        return [one for one in doubts_by_seed(found) if one.kind == OF_WORKS or place_of(one) in half]

    def mean_trips(self) -> dict[int, float]:
        """{seed: mean trip in seconds of those who arrived}; seeds in which nobody did are left out."""
        found = {
            seed: [float(seconds) for seconds in folder.trip_columns("duration")[0] if seconds]
            for seed, folder in self.folders.items()
        }
        return {seed: fmean(durations) for seed, durations in found.items() if durations}

    def intervals(self) -> list[tuple[int, int]]:
        """The (begin, end) of the junction tables, in seconds, rising; empty where they were not read."""
        return sorted({(begin, end) for _, begin, end in self.rows})

    def busiest(self, among: Collection[tuple[int, int]] | None = None) -> tuple[int, int]:
        """The interval (begin, end), in seconds, in which most vehicles an hour crossed junctions, the first of equal
        ones; among: of these (None: of all). ValueError where no junction tables were read of any."""
        volumes: dict[tuple[int, int], float] = {}
        for (table, begin, end), rows in self.rows.items():
            if table == "junctions" and (among is None or (begin, end) in among):
                volumes[begin, end] = sum(row.means["vehicles_per_hour"] for row in rows.values())
        return min(volumes, key=lambda interval: (-volumes[interval], interval))


def read_folders(path: str) -> Runs:
    """The runs of a folder that streetsim-run wrote, one or one for each seed, without their junction tables; Fault
    where it is none, or has what another run left there."""
    if not os.path.isdir(path):
        raise Fault(f"{path}: no folder that streetsim-run wrote")
    if seeds := seeds_in(path):
        refuse_old(path, seeds)
        folders = {seed: read_folder(f"{path}/seed-{seed}") for seed in seeds}
    else:
        folder = read_folder(path)
        folders = {folder.setting.get("seed", 1): folder}
    return Runs(os.path.basename(os.path.normpath(path)), folders)


def refuse_old(path: str, seeds: Collection[int]) -> None:
    """Fault where a folder of several seeds, those with folders, also has what another run left there."""
    advice = "remove what is old, or give each run a folder of its own"
    if os.path.exists(f"{path}/{NAME}"):
        raise Fault(f"{path}: a run without --seeds is there beside seeds of another one: {advice}")
    if os.path.exists(table := f"{path}/seeds.csv"):
        known = {int(row["seed"]) for row in read_table(table, SEEDS)}
        if old := [f"seed-{seed}" for seed in seeds if seed not in known]:
            raise Fault(f"{path}: {first_few(old)}: not of the run that wrote seeds.csv: {advice}")


def read_runs(path: str) -> Runs:
    """The runs of a folder that streetsim-run wrote, one or one for each seed, with their junction tables; Fault as of
    read_folders, and where a run lacks a table or none has rows."""
    runs = read_folders(path)
    for table in TABLES:
        add_rows(runs, table)
    if not runs.rows:
        raise Fault(f"{path}: the junction tables have no rows")
    return runs


def read_with_any_tables(path: str) -> Runs:
    """The runs of a folder that streetsim-run wrote, one or one for each seed; with their junction tables where the
    first of them has these, and then Fault as of read_runs, else as of read_folders."""
    runs = read_folders(path)
    return read_runs(path) if os.path.exists(f"{runs.first_folder.path}/junctions.csv") else runs


def add_rows(runs: Runs, table: str) -> None:
    """Adds the rows of a junction table, by its key in TABLES, of all seeds to `runs`; Fault where a folder lacks it.
    Measures that are empty in the table are left out."""
    # By (begin, end): {(key, control, movement): {seed: measures}}.
    measures_of: defaultdict[tuple[int, int], dict[Any, Any]] = defaultdict(dict)
    doubts_of: defaultdict[object, list[str]] = defaultdict(list)  # by interval and key
    for seed, folder in runs.folders.items():
        place = f"{folder.path}/{table}.csv"
        if not os.path.exists(place):
            raise Fault(f"{folder.path}: no {table}.csv: a report needs streetsim-run --junctions")
        for row in read_table(place, TABLES[table]):
            key = tuple(row[name] for name in KEYS[table]), row["control"], row.get("movement", "")
            numbers = {name: float(row[name]) for name in MEASURES if row.get(name)}
            interval = int(row["begin"]), int(row["end"])
            measures_of[interval].setdefault(key, {})[seed] = numbers
            if row["doubt"]:
                doubts_of[interval, key].append(row["doubt"])
    for (begin, end), rows in measures_of.items():
        runs.rows[table, begin, end] = {
            own[0]: ResultRow(
                own[0], own[1], own[2], means_over_seeds(by_seed), by_seed,
                of_most(doubts_of[(begin, end), own], by_seed),
            )
            for own, by_seed in rows.items()
        }


def of_most(doubts: Sequence[str], seeds: Collection[int]) -> str:
    """The doubt of a row by those of the runs that have one: the first of them, and in how many runs there are some
    where not in all; empty where less than half of the runs have one."""
    if 2 * len(doubts) < len(seeds) or not doubts:
        return ""
    return doubts[0] if len(doubts) == len(seeds) else f"{doubts[0]} (in {len(doubts)} of {len(seeds)} runs)"


def means_over_seeds(seeds: Mapping[int, Mapping[str, float]]) -> dict[str, float]:
    """{measure: its mean over the seeds that have it}, of the greatest queue the greatest."""
    if len(seeds) == 1:
        return dict(next(iter(seeds.values())))
    names = {name for values in seeds.values() for name in values}
    found = {name: fmean(values[name] for values in seeds.values() if name in values) for name in names}
    if "queue_max_m" in found:
        found["queue_max_m"] = max(values["queue_max_m"] for values in seeds.values() if "queue_max_m" in values)
    return found
