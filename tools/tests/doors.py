"""Small runs of one feature each, and the doors by which a run is made."""
from __future__ import annotations

import gzip
import json
import os
import re
from collections import Counter
from contextlib import redirect_stderr
from dataclasses import dataclass, field
from functools import partial
from hashlib import sha256
from io import StringIO
from itertools import cycle
from pathlib import Path
from tempfile import mkdtemp
from unittest import mock

from support import PROGRAM, TOOLS, lane
from test_actuated import PHASES, street
from test_buses import AT_FIRST, BUS, STOPS, STREET
from test_nema import street as ringed
from test_rounds import junction
from test_rounds import routes as from_streets
from test_route import two_ways
from test_wauts import changing
from test_works import fan
from streetsim.base.program import find_program
from streetsim.cli import live, serving
from streetsim.control.works_asked import all_works
from streetsim.control.works_sites import WorksOptions, with_works
from streetsim.demand.correcting import LONGEST_AFTER
from streetsim.env import SignalEnv
from streetsim.kernel.session_program import QUESTION_PREFIXES
from streetsim.live.joining import Joining
from streetsim.live.session import PageSession
from streetsim.model.runs import read_with_map
from streetsim.model.stops import vehicle_classes_of
from streetsim.scenario import Scenario
from streetsim.search.route_loading import write_run_of
import streetsim.traci as traci

UNTIL, SEED = 600, 42
PARTS = (1, 7, 100)  # steps that a page asks for at once, by turns
PROXY = Path(__file__).parent / "proxy.py"
PAGE, DATA = TOOLS / "DOORS.md", Path(__file__).parent / "data"


@dataclass
class Feature:
    """A small run with one feature. Words are those of streetsim-run beside its files and --until."""

    net: str
    routes: str
    additional: str = "<additional/>"
    words: tuple[str, ...] = ("--rescue", "0")
    variant: str = ""  # the same as a variant of a study
    departures: str = "listed"
    wishes: dict = field(default_factory=dict)  # the same as arguments of Scenario
    close: tuple = ()  # works: a lane, from and to metres, from and to seconds
    divert: bool = False  # vehicles go round them

    @property
    def close_words(self):
        """The works as words of a command; none without."""
        return ["--close", "{}:{}-{}:{}-{}".format(*self.close)] if self.close else []

    @property
    def priority_words(self):
        """What has lights wait for vehicles as words of a command; none without."""
        names = self.wishes.get("priority", ())
        return ["--priority", ",".join(names)] if names else []


def vehicles(count, edges, every=2, begin=0, more=""):
    """Vehicles along edges, with some seconds between them."""
    first = edges.split()[0]
    return "".join(
        f'<vehicle id="{first}.{begin}.{at}" depart="{begin + every * at}" {more}><route edges="{edges}"/></vehicle>'
        for at in range(count)
    )


def lit(phases):
    """A street with a light that shows (seconds, state) in turn."""
    return street("".join(f'<phase duration="{seconds}" state="{state}"/>' for seconds, state in phases), "static")


def works(lane_name, *places):
    """What is said of works at each door."""
    text = f"{lane_name}:{places[0]}-{places[1]}:{places[2]}-{places[3]}"
    return {
        "variant": f'close = ["{text}"]', "close": (lane_name, *places), "wishes": {"joint": [lane_name]},
    }  # fmt: skip


def all_in(*parts):
    """A file of routes."""
    return f"<routes>{''.join(parts)}</routes>"


STREET_OF_CARS = all_in(vehicles(60, "a b", 5))
TWO_STREAMS = '<flow id="f{0}" {1} begin="0" end="400" vehsPerHour="850"><route edges="z a to{0}"/></flow>'
LONG = '<vType id="trailer" vClass="trailer"/>'
BUSES = BUS + "".join(
    f'<vehicle id="bus{at}" type="bus" depart="{at}"><route edges="a b"/>{AT_FIRST}</vehicle>' for at in (30, 90)
)
CHANGES = changing((100, "0"), (300, "fixed"))
FEATURES = {
    "timed lines": Feature(lit([(60, "r"), (60, "G"), (100, "r"), (9500, "G")]), STREET_OF_CARS),
    "merging": Feature(
        fan(2), all_in(*(TWO_STREAMS.format(at, "") for at in (0, 1))), **works("a_0", 150, 200, 60, 500)
    ),
    "lights by detectors": Feature(street(PHASES), STREET_OF_CARS),
    "NEMA": Feature(ringed(), STREET_OF_CARS),
    "bus stops": Feature(STREET, all_in(BUSES, vehicles(50, "a b", 4)), f"<additional>{STOPS}</additional>"),
    "priority": Feature(
        lit([(30, "G"), (3, "y"), (40, "r")]), all_in(BUS, vehicles(4, "a b", 95, 7, 'type="bus"')),
        words=("--rescue", "0", "--priority", "bus"), variant='priority = "bus"', wishes={"priority": ["bus"]},
    ),
    "rescue": Feature(
        lit([(10, "G"), (390, "r")]), STREET_OF_CARS, words=("--rescue", "60"), wishes={"rescue": 60}
    ),
    "giving way": Feature(junction(), from_streets([*((4 * at, "w") for at in range(30)), (50, "s"), (90, "s")])),
    "times of day": Feature(street(PHASES), STREET_OF_CARS, CHANGES),
    "works with several lengths": Feature(
        fan(2), all_in(LONG, TWO_STREAMS.format(0, 'type="trailer"'), TWO_STREAMS.format(1, "")),
        **works("a_1", 100, 180, 40, 450),
    ),
    "drawn departures": Feature(
        lit([(30, "G"), (3, "y"), (40, "r")]),
        all_in(BUS, vehicles(90, "a b", 5), vehicles(3, "a b", 90, 7, 'line="1"')),
        words=("--rescue", "0", "--departures", "drawn"), departures="drawn", wishes={"drawn": True},
    ),
    "giving way at lights": Feature(
        gzip.decompress((DATA / "cross1.net.xml.gz").read_bytes()).decode(),
        all_in(vehicles(40, "wc cn", 5), vehicles(40, "ec cw", 6), vehicles(30, "nc cs", 9), vehicles(20, "sc cw", 11)),
    ),
    "detours": Feature(
        two_ways(), all_in(vehicles(60, "in short out", 5)), close=("short_0", 100, 200, 100, 400), divert=True
    ),
}  # fmt: skip


BESIDE = (  # a street with a light of seconds, whose plan can be changed, of which no feature knows
    '<edge id="one" from="X" to="Y" priority="1">{}</edge><edge id="two" from="Y" to="Z" priority="1">{}</edge>'
    '<tlLogic id="Y" type="static" programID="0" offset="0"><phase duration="20" state="G"/>'
    '<phase duration="20" state="r"/></tlLogic><junction id="X" type="priority" x="0" y="0"/>'
    '<junction id="Y" type="priority" x="0" y="0"/><junction id="Z" type="priority" x="0" y="0"/>'
    '<connection from="one" to="two" fromLane="0" toLane="0" state="M" tl="Y" linkIndex="0"/>'
).format(lane("one", 0), lane("two", 0))


class Files:
    """The files of a feature, and their import."""

    def __init__(self, case, feature):
        """case: a test with a folder of its own."""
        self.case, self.feature, self.folder = case, feature, case.folder
        self.net = case.write("x.net.xml", feature.net.replace("</net>", BESIDE + "</net>"))
        self.routes = case.write("x.rou.xml", feature.routes)
        self.additional = case.write("x.add.xml", feature.additional)
        self.run, self.map = self.folder / "run.jsonl", self.folder / "map.json"
        self.found = self.folder / "found.add.xml"
        words = [self.net, self.additional, "--routes", self.routes, "--seed", SEED]
        case.tool("import", *words, "-o", self.run, "--map", self.map)

    def through(self, door):
        """The digests of the record of the last program of a door, and of the lines that change something."""
        record, sent, _ = self.seen(door)
        return [sha256(seen).hexdigest() for seen in (record, json.dumps(sent, sort_keys=True).encode())]

    def seen(self, door):
        """What the last program of a door saw: its record, the lines that change something, its last clock."""
        seen = Path(mkdtemp(dir=self.folder))
        here = {"STREETSIM_REAL": PROGRAM, "STREETSIM_SEEN": str(seen), "STREETSIM_PROGRAM": str(PROXY)}
        with mock.patch.dict(os.environ, here), redirect_stderr(StringIO()):
            door(self)
        last = max(seen.iterdir())
        return (last / "record").read_bytes(), *changes((last / "lines").read_bytes())

    def plans(self):
        """The plans of its vehicles, by edges, with the class of each."""
        run, mapping = read_with_map(self.run, self.map)
        classes = vehicle_classes_of(mapping.kinds, len(run.enters))
        ways = [[mapping.links[link].edge for link in line.command["plan"]] for line in run.enters]
        return list(zip(map(tuple, ways), classes, strict=True))

    def sumo_words(self):
        """The words with which a script starts."""
        files = ["-n", self.net, "-r", self.routes, "-a", self.additional]
        return [*files, "-W", "--seed", str(SEED), *self.feature.words, *self.feature.close_words]


def changes(lines):
    """((the vehicles that enter, in order; other commands that change something, with their clocks, those of one clock
    in an order of their own), the last clock). Those of the last clock are left out, as nothing comes of them."""
    clock, enters, others = 0, [], []
    for line in lines.splitlines():
        command = json.loads(line)
        if command["cmd"] == "advance":
            clock += command["steps"]
        elif command["cmd"] == "enter":
            enters.append(command)
        elif not line.startswith(QUESTION_PREFIXES):
            others.append((clock, {name: value for name, value in command.items() if name not in ("at", "works")}))
    enters = [one for one in enters if one["depart"] < clock]
    return (enters, sorted((one for one in others if one[0] < clock), key=json.dumps)), clock


def by_run(files):
    """streetsim-run."""
    words = ["--map", files.map, "--until", UNTIL, "--out", files.folder / "run", *files.feature.words]
    words += files.feature.close_words
    files.case.tool("run", files.run, *words)


def by_study(files):
    """streetsim-study with one variant and one seed."""
    text = f'run = "run.jsonl"\nmap = "map.json"\nuntil = {UNTIL}\nseeds = "{SEED}"\n'
    text += f'departures = "{files.feature.departures}"\n[variant.one]\n'
    path = files.case.write("study.toml", text + files.feature.variant + "\n")
    files.case.tool("study", path, "--out", files.folder / "study")


def by_scenario(files):
    """A scenario, which closes lanes itself."""
    lane_name, *places = files.feature.close or (None, 0, 0, 0, 0)
    with Scenario(files.run, files.map, **files.feature.wishes) as sim:
        if lane_name:
            sim.simulationStep(places[2])
            sim.close(lane_name, *places[:2], divert=files.feature.divert)
            sim.simulationStep(places[3])
            sim.reopen(lane_name, *places[:2])
        sim.simulationStep(UNTIL)


def by_traci(files):
    """TraCI's calls, a step each."""
    traci.start(["sumo", *files.sumo_words()])
    while traci.simulation.getTime() < UNTIL:
        traci.simulationStep()
    traci.close()


def by_learning(files):
    """The environment for learning, which controls no light."""
    with SignalEnv(files.sumo_words(), seconds=UNTIL, controlled=()) as env:
        env.reset(SEED)
        while not env.step({})[3]:
            pass


def by_live(files):
    """The live page, on which lanes are closed by hand, which goes back once, and then on by parts."""
    session, parts = page_session(files), cycle(PARTS)
    try:
        session.step(150)
        session.go_back(1)
        while (left := UNTIL - session.current.clock) > 0:
            session.step(min(left, next(parts)))
    finally:
        session.close()


def page_session(files):
    """The session of a live page that has begun, with the works of the feature to come."""
    feature = files.feature
    lane_name, *places = feature.close or (None, 0, 0, 0, 0)
    asked = live.parser().parse_args([str(files.run), "--map", str(files.map), *feature.words])
    names = tuple(feature.wishes.get("joint", ()))
    program, run_and_map = find_program(None), read_with_map(files.run, files.map)
    settings = partial(serving.page_settings, asked)
    more = names, asked.rounds, 1, asked.departures or "listed"
    of, _ = Joining(*run_and_map, files.map, program, settings, *more).page_run()
    session = PageSession(of)
    session.begin()
    session.compare(False, False)
    if lane_name:
        link, lane = of.mapping.place_of(lane_name)
        spans = dict(zip(("begin", "end", "from", "until"), places, strict=True))
        session.works({"cmd": "close", "link": link, "lanes": [lane], "text": "works", **spans})
    return session


def by_signals(files):
    """A search for signal plans; its last run is that of the plan found with the last seed of its check."""
    with_closures(files)
    words = [files.run, "--map", files.map, "--plans", files.net, files.additional, "--until", UNTIL, "--jobs", 1]
    words += ["--seeds", 1, "--check", f"{SEED - 1}-{SEED}", "--budget", 4, "--change", "splits", "--reserve", 0]
    files.case.tool("signals", *words, "-o", files.found, "--out", files.folder / "signals", status=1)


def with_closures(files):
    """Puts the works of a feature into its run and map."""
    if files.feature.close:
        run, mapping = read_with_map(files.run, files.map)
        asked = all_works(files.feature.close_words[1:], mapping, run.start(), UNTIL)
        run, mapping, _ = with_works(run, mapping, files.map, asked, WorksOptions())
        write_run_of(run, mapping, files.run, files.map)


def run_of_signals(files):
    """The run of the plan found, imported anew."""
    run, mapping = files.folder / "found.jsonl", files.folder / "found.json"
    words = [files.net, files.additional, files.found, "--routes", files.routes, "--seed", SEED]
    files.case.tool("import", *words, "-o", run, "--map", mapping)
    words = ["--map", mapping, "--until", UNTIL, "--out", files.folder / "again", "--rescue", 0]
    files.case.tool("run", run, *words, *files.feature.close_words)


def by_route(files):
    """A search for routes; its last run is that of the routes found with the seed of its check."""
    words = [files.net, files.additional, "--trips", files.routes, "--until", UNTIL, *files.feature.close_words]
    words += [*files.feature.priority_words, "--iterations", 1, "--gap", 1, "--check", f"{SEED}-{SEED}", "--jobs", 1]
    words += ["--run", files.folder / "found.jsonl", "--map", files.folder / "found.json", "-o", files.folder / "o.xml"]
    files.case.tool("route", *words, "--out", files.folder / "route")


def by_demand(files):
    """A demand of counts of the vehicles of the run; its last run is that of the demand found."""
    counted = Counter((plan[0], plan[1], kind.replace("passenger", "")) for plan, kind in files.plans())
    rows = [f"0,{UNTIL},{source},{to},{count},{kind}" for (source, to, kind), count in counted.items()]
    counts = files.case.write("counts.csv", "\n".join(["begin,end,from,to,vehicles,class", *rows, ""]))
    words = [files.net, files.additional, "--counts", counts, "--ends", "all", "--runs", 1, "--seed", SEED]
    words += ["--run", files.folder / "found.jsonl", "--map", files.folder / "found.json", "-o", files.folder / "o.xml"]
    files.case.tool("demand", *words, *files.feature.close_words, "--out", files.folder / "demand", status=None)


def run_of_found(files, until):
    """The run that a search wrote, with the seed that it was judged by and the last clock that it might have."""
    words = ["--map", files.folder / "found.json", "--seeds", SEED, "--out", files.folder / "again", "--until", until]
    words += ["--departures", "listed"]
    files.case.tool("run", files.folder / "found.jsonl", *words, *files.feature.priority_words)


def refusals():
    """The refusals that the page has, {(door, feature)}."""
    found = re.findall(r"^- \*\*(.+?)\*\*, (.+?): ", PAGE.read_text(encoding="utf-8"), re.MULTILINE)
    return {(door, feature) for doors, feature in found for door in doors.split(", ")}


DOORS = {
    "run": by_run, "study": by_study, "Scenario": by_scenario, "TraCI": by_traci, "learning": by_learning,
    "live": by_live,
}  # fmt: skip
SEARCHES = {
    "signals": (by_signals, run_of_signals), "route": (by_route, partial(run_of_found, until=UNTIL)),
    "demand": (by_demand, partial(run_of_found, until=UNTIL + LONGEST_AFTER)),
}  # fmt: skip
