"""SUMO's side of the tests of doubts at their places: delays, queues and mean trips by seed."""

import gzip
import json
from collections.abc import Sequence
from pathlib import Path
from statistics import fmean

import shared
from beside_sumo import rows
from beside_sumo.doubted_rows import LAST, SECONDS, movements_in_sumo
from beside_sumo.lit import lone_losses
from networks.lit_streets import programs_of, put_programs
from networks.streets import Plain
from networks.unseen import MadeNetwork, make
from planners.works import Case, Stretch, in_sumo
from streetsim.report.beside_sumo import read_tripinfo

STORED = shared.SAMPLES / "decides.json"
OFFICE_SECONDS = range(27_000, 28_800)
POCKETS = {64_231: 0.6}  # lone lights of these seeds, and their levels
WORKS_CLOSED, WORKS_SECONDS = "A1A2w_0", (25_200, 36_000)

Numbers = dict[str, dict[str, float]]  # seconds, by case and seed


# ---- movements at lone lights


def office(folder: Path, plan: int) -> MadeNetwork:
    """The office's junction with a plan, as a made network."""
    made = MadeNetwork(folder / f"office-{plan}", "office", plan, 0.0, 6157, seconds=OFFICE_SECONDS.stop)
    made.folder.mkdir(parents=True, exist_ok=True)
    made.net.write_bytes(gzip.decompress((shared.SAMPLES / "office.net.xml.gz").read_bytes()))
    made.routes[0].write_bytes(gzip.decompress((shared.SAMPLES / "office.rou.xml.gz").read_bytes()))
    put_programs(made.net, programs_of(shared.SAMPLES / f"office-{plan}.add.xml"))
    return made


def stored_case(network: MadeNetwork, seconds: range, seeds: Sequence[int]) -> dict[str, object]:
    """SUMO's numbers of a network: vehicles, delay and queue of each movement in some seconds, by seed."""
    by_seed, alone = {}, lone_losses(network)
    for seed in seeds:
        found = movements_in_sumo(network, seed, seconds)
        by_seed[str(seed)] = {
            " ".join(way): [one.vehicles, round(max(0.0, one.delay - alone[way]), 1), round(one.queue, 1)]
            for way, one in sorted(found.items())
        }
    return {"seconds": [seconds.start, seconds.stop], "movements": by_seed}


def put_samples(name: str, net: Path, routes: Path) -> None:
    """Puts a network and its demand among the tests' data."""
    for source, kind in ((net, "net"), (routes, "rou")):
        packed = gzip.compress(source.read_bytes(), 9, mtime=0)
        (shared.SAMPLES / f"{name}.{kind}.xml.gz").write_bytes(packed)


# ---- works


def stored_works(folder: Path, seeds: Sequence[int]) -> Numbers:
    """SUMO's mean trips, with the wait to enter, of a street without and with a lane closed for three hours, by
    seed."""
    begin, end = WORKS_SECONDS
    closing, closed = f'<closingLaneReroute id="{WORKS_CLOSED}" disallow="all"/>', folder / "closed.add.xml"
    interval = f'<interval begin="{begin}" end="{end}">{closing}</interval>'
    rerouter = f'<rerouter id="r" edges="A0A1 A1A2">{interval}</rerouter>'
    closed.write_text(f"<additional>{rerouter}</additional>", encoding="utf-8")
    mean_trips: Numbers = {"without": {}, "with": {}}
    files = [shared.SAMPLES / "works.net.xml.gz", "-r", shared.SAMPLES / "works.rou.xml.gz", "--begin", begin - 3600]
    for name, more in (("without", []), ("with", ["-a", closed])):
        for seed in seeds:
            trips = rows.sumo_trips(folder / f"{name}-{seed}.xml", ["-n", *files, *more, "--seed", seed])
            times = read_tripinfo(str(trips)).values()
            mean_trips[name][str(seed)] = round(fmean(arrival - depart for depart, arrival in times), 1)
    return mean_trips


QUARTER = 900  # seconds
HOURLY = (800, 2000, 800)  # vehicles, by quarters of an hour; the second is more than a lane passes
HOURS_END = 5400


def stored_hours(folder: Path, seeds: Sequence[int]) -> Numbers:
    """SUMO's mean trips on a street of two lanes, without another way, with 200 m of one of them closed in one quarter
    of an hour or none, by the second at which works begin, and by seed; the network is put among the tests' data."""
    case = hours_street(folder / "hours")
    put_samples("hours", case.net, case.routes[0])
    works = {str(begin): Stretch("out", 0, 200, 400, begin, begin + QUARTER) for begin in hours()}
    return {
        name: {str(seed): mean_of_all(in_sumo(case, one, seed, name).trips) for seed in seeds}
        for name, one in {"without": None, **works}.items()
    }


def mean_of_all(trips: dict[str, tuple[float, float]]) -> float:
    return round(fmean(arrival - depart for depart, arrival in trips.values()), 1)


def hours() -> range:
    return range(0, QUARTER * len(HOURLY), QUARTER)


def hours_street(folder: Path) -> Case:
    """Two edges of 800 m at 50 km/h, and vehicles that depart evenly in each quarter of an hour."""
    folder.mkdir(parents=True, exist_ok=True)
    net, routes = folder / "net.net.xml", folder / "demand.rou.xml"
    plain = Plain()
    for name, x in (("a", 0), ("b", 800), ("c", 1600)):
        plain.node(name, x, 0, "")
    for name, begin, end in (("in", "a", "b"), ("out", "b", "c")):
        plain.named_edge(name, begin, end, numLanes=2, speed=13.89)
    plain.make(net, "--no-turnarounds", "true")
    departures = [
        begin + at * 3600 / hourly
        for begin, hourly in zip(hours(), HOURLY, strict=True) for at in range(hourly * QUARTER // 3600)
    ]
    lines = [
        f'<vehicle id="v{number}" depart="{depart:.0f}" departLane="best" departSpeed="max"><route edges="in out"/>'
        "</vehicle>" for number, depart in enumerate(departures)
    ]
    routes.write_text("<routes>" + "\n".join(lines) + "</routes>\n", encoding="utf-8")
    return Case(folder, net, (routes,), (), HOURS_END)


# ---- the measurement


def main_stored_rows(argv: list[str]) -> int | None:
    """What the tests of doubts at their places compare with: SUMO's delays, queues and trips by seed.

    Takes minutes; needs sumo, sumo-tools.

    It writes decides.json of the tests' data: of the office's junction with both plans, of a drawn lone light with
    pockets, of a street with works, and of another one with works at several hours.
    """
    parser = shared.parser_of(main_stored_rows, program=False, work=True)
    parser.add_argument("--seeds", default="1-3", type=shared.numbers)
    shared.add_some(parser, "--only", ("office", "pocket", "works", "hours"))
    args = parser.parse_args(argv)
    folder, cases = shared.work_of(args), json.loads(STORED.read_text("utf-8")) if STORED.exists() else {}
    for plan in (90, 75) if "office" in args.only else ():
        cases[f"office-{plan}"] = stored_case(office(folder, plan), OFFICE_SECONDS, args.seeds)
    for seed, level in POCKETS.items() if "pocket" in args.only else ():
        network = make("lone-light", seed, folder, level, seconds=LAST)
        cases["pocket"] = stored_case(network, SECONDS, args.seeds)
        put_samples("pocket", network.net, network.routes[0])
    if "works" in args.only:
        cases["works"] = stored_works(folder, args.seeds)
    if "hours" in args.only:
        cases["hours"] = stored_hours(folder, args.seeds)
    STORED.write_text(json.dumps(cases, indent=1, sort_keys=True) + "\n", encoding="utf-8")
