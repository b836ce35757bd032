"""Streets and small towns with fixed lights of many ordinary kinds, as a seed draws them; and their signal programs."""

import re
import xml.etree.ElementTree as ElementTree
from collections import defaultdict
from collections.abc import Callable, Iterable, Mapping
from dataclasses import dataclass, replace
from itertools import accumulate, pairwise
from pathlib import Path
from random import Random

from networks.streets import BUS_LANE, SIDE, Build, Draft, Plain, cycle, side_streets

MAIN = 8  # the priority of a main street

# ---- programs of lights


@dataclass(frozen=True)
class Program:
    """A signal program: seconds and state of each phase, and the places of the main street in a state."""

    light: str
    offset: int
    phases: tuple[tuple[int, str], ...]
    main: frozenset[int] = frozenset()

    @property
    def cycle(self) -> int:
        return sum(seconds for seconds, _ in self.phases)

    @property
    def greens(self) -> list[int]:
        """The places of the phases in which streets have green, arrows for left turns and yellow apart."""
        long = [at for at, (seconds, state) in enumerate(self.phases) if "y" not in state and seconds >= LEAST_GREEN]
        return [at for at in long if set(self.phases[at][1]) & {*"Gg"}]

    def is_main(self, at: int) -> bool:
        state = self.phases[at][1]
        return sum(state[place] in "Gg" for place in self.main) * 2 >= len(self.main)

    def with_seconds(self, seconds: Mapping[int, int]) -> "Program":
        """The same with other seconds of some phases."""
        phases = tuple((seconds.get(at, own), state) for at, (own, state) in enumerate(self.phases))
        return replace(self, phases=phases)

    def text(self) -> str:
        rows = "".join(f'<phase duration="{seconds}" state="{state}"/>' for seconds, state in self.phases)
        return f'<tlLogic id="{self.light}" type="static" programID="0" offset="{self.offset}">{rows}</tlLogic>'


LEAST_GREEN = 10  # seconds of a green that is not an arrow
LEAST_SIDE = 6  # seconds that a green keeps
WALK = (12, 15, 20)  # seconds of red for all, in which pedestrians walk
SPLITS = (0.25, 0.75)  # shares of the greens that the main street may have


def programs_of(net: Path) -> list[Program]:
    """The programs that a network has."""
    root, places = ElementTree.parse(net).getroot(), defaultdict(set)
    main_edges = {edge.get("id") for edge in root.iter("edge") if float(edge.get("priority") or 0) >= MAIN}
    for one in root.iter("connection"):
        if one.get("tl") and one.get("from") in main_edges:
            places[one.get("tl")].add(int(one.get("linkIndex")))
    return [program_of(light, frozenset(places[light.get("id")])) for light in root.iter("tlLogic")]


def program_of(light: ElementTree.Element, main: frozenset[int]) -> Program:
    return Program(light.get("id"), round(float(light.get("offset"))), phases_of(light), main)


def phases_of(light: ElementTree.Element) -> tuple[tuple[int, str], ...]:
    return tuple((round(float(one.get("duration"))), one.get("state")) for one in light.iter("phase"))


def put_programs(net: Path, programs: Iterable[Program]) -> None:
    """Puts programs in the place of those that a network has."""
    texts = {one.light: one.text() for one in programs}
    text = net.read_text(encoding="utf-8")
    changed = re.sub(r'<tlLogic id="([^"]*)".*?</tlLogic>', lambda found: texts[found[1]], text, flags=re.DOTALL)
    net.write_text(changed, encoding="utf-8")


def with_cycle(program: Program, seconds: int) -> Program:
    """The same shares of green in another cycle."""
    own, greens = program.cycle, program.greens
    fixed = own - sum(program.phases[at][0] for at in greens)
    times = (seconds - fixed) / (own - fixed)
    return program.with_seconds({at: max(LEAST_SIDE, round(program.phases[at][0] * times)) for at in greens})


def with_split(program: Program, share: float) -> Program:
    """The same cycle with this share of the greens for the main street."""
    of_main_street = [at for at in program.greens if program.is_main(at)]
    of_sides = [at for at in program.greens if not program.is_main(at)]
    whole = sum(program.phases[at][0] for at in program.greens)
    if not of_main_street or not of_sides:
        return program
    most = whole - LEAST_SIDE * len(of_sides)
    seconds = min(most, max(LEAST_SIDE * len(of_main_street), round(whole * share)))
    return program.with_seconds({**even(seconds, of_main_street), **even(whole - seconds, of_sides)})


def even(seconds: int, places: list[int]) -> dict[int, int]:
    """Whole seconds, spread evenly."""
    return {place: seconds // len(places) + (at < seconds % len(places)) for at, place in enumerate(places)}


def with_walk(program: Program, seconds: int) -> Program:
    """The same greens, and a red for all at the end."""
    return replace(program, phases=(*program.phases, (seconds, "r" * len(program.phases[0][1]))))


def without_permissive(program: Program, _draws: Random) -> Program:
    """The same without green for those who have to yield in it, where they have another one too."""
    safe = {at for _, state in program.phases for at, letter in enumerate(state) if letter == "G"}
    phases = ((s, "".join("r" if c == "g" and at in safe else c for at, c in enumerate(state)))
              for s, state in program.phases)
    return replace(program, phases=tuple(phases))


def retimed(build: Build, change: Callable[[Program, Random], Program]) -> Build:
    """The same network with changed programs."""

    def build_retimed(draws: Random, folder: Path) -> Draft:
        draft, own = build(draws, folder), Random(draws.random())

        def put_changed(net: Path) -> None:
            put_programs(net, [change(program, own) for program in programs_of(net)])

        return replace(draft, change=put_changed)

    return build_retimed


# ---- main streets


@dataclass(frozen=True)
class MainStreet:
    """A main street with lights; of each choice the seed draws one."""

    lights: tuple[int, int] = (4, 8)  # as of range
    metres: tuple[int, int, int] = (160, 421, 20)  # between lights, as of range
    lanes: int = 2
    kmh: int = 50
    pockets: tuple[int, ...] = (0, 50, 70)  # metres of a lane for left turns; 0: none
    side_lanes: tuple[int, ...] = (1, 1, 2)
    cycles: tuple[int, ...] = (60, 70, 80, 90)
    arrow: int | None = None  # seconds of green for left turns alone; none: netconvert's
    trucks: float = 0.0
    inside: str = ""  # what is said of lanes
    classes: str = ""  # for the import, where it needs to be told

    def __call__(self, draws: Random, folder: Path) -> Draft:
        plain, count = Plain(), draws.randrange(*self.lights)
        lengths = [draws.randrange(*self.metres) for _ in range(count + 1)]
        pocket, side = draws.choice(self.pockets), draws.choice(self.side_lanes)
        for at, x in enumerate(accumulate(lengths, initial=0)):
            inside = 0 < at <= count
            plain.node(f"m{at}", x, 0, "traffic_light" if inside else "priority")
            if inside:
                side_streets(plain, f"m{at}", x, side)
        for one, other in pairwise(range(count + 2)):
            own = pocket if other <= count else 0
            plain.edge(f"m{one}", f"m{other}", self.lanes, self.kmh, MAIN, own, self.inside)
            plain.edge(f"m{other}", f"m{one}", self.lanes, self.kmh, MAIN, pocket if one >= 1 else 0, self.inside)
        arrow = [] if self.arrow is None else ["--tls.left-green.time", str(self.arrow)]
        drawn = {"lights": count, "metres": lengths, "pocket": pocket, "side lanes": side}
        importing = ("--classes", self.classes) if self.classes else ()
        words = [*plain.write(folder), *cycle(draws, self.cycles), *arrow]
        return Draft(words, self.trucks, drawn=drawn, importing=importing)


def couplet(draws: Random, folder: Path) -> Draft:
    """Two one-way streets of two lanes side by side, and three or four streets that cross both."""
    plain, apart, crossings = Plain(), draws.randrange(80, 141, 20), draws.randrange(3, 5)
    lengths = [draws.randrange(140, 301, 20) for _ in range(crossings + 1)]
    xs = list(accumulate(lengths, initial=0))
    for number, x in enumerate(xs):
        kind = "traffic_light" if 0 < number <= crossings else "priority"
        plain.node(f"e{number}", x, 0, kind)
        plain.node(f"w{number}", x, apart, kind)
        if 0 < number <= crossings:
            plain.node(f"s{number}", x, -SIDE)
            plain.node(f"n{number}", x, apart + SIDE)
            for begin, end in ("se", "ew", "wn"):
                plain.street(f"{begin}{number}", f"{end}{number}", 1, 50, 4)
    for one, other in pairwise(range(crossings + 2)):
        plain.edge(f"e{one}", f"e{other}", 2, 50, MAIN)
        plain.edge(f"w{other}", f"w{one}", 2, 50, MAIN)
    words = [*plain.write(folder), *cycle(draws), "--tls.left-green.time", "0"]
    return Draft(words, drawn={"apart": apart, "metres": lengths})


def offset_tees(draws: Random, folder: Path) -> Draft:
    """A main street whose side streets meet it one after another, from the north and from the south; some without a
    light."""
    plain, pairs = Plain(), draws.randrange(3, 5)
    gaps = [gap for _ in range(pairs) for gap in (draws.randrange(160, 321, 20), draws.randrange(40, 101, 10))]
    lengths, lit = [*gaps, 240], [draws.random() < 0.65 for _ in gaps]
    lit[0] = True
    for at, x in enumerate(accumulate(lengths, initial=0)):
        inside = 0 < at <= len(gaps)
        plain.node(f"m{at}", x, 0, "traffic_light" if inside and lit[at - 1] else "priority")
        if inside:
            plain.node(f"m{at}t", x, SIDE if at % 2 else -SIDE)
            plain.street(f"m{at}", f"m{at}t", 1, 50, 4)
    for one, other in pairwise(range(len(lengths) + 1)):
        plain.street(f"m{one}", f"m{other}", 2, 50, MAIN)
    words = [*plain.write(folder), *cycle(draws), "--tls.left-green.time", "0"]
    return Draft(words, drawn={"metres": lengths, "lights": sum(lit)})


# ---- small grids of wide streets


def wide_grid(plain: Plain, draws: Random, pocket: int = 0) -> list[str]:
    """Streets of two lanes that cross at four or six lights; gives the names of these. pocket: metres of two lanes for
    left turns."""
    columns, rows = draws.choice(((2, 2), (3, 2)))
    xs, ys = ([0, *accumulate(draws.randrange(220, 361, 20) for _ in range(count + 1))] for count in (columns, rows))
    lit = [f"c{column}r{row}" for column in range(1, columns + 1) for row in range(1, rows + 1)]
    for column in range(columns + 2):
        for row in range(rows + 2):
            inner = 0 < column <= columns, 0 < row <= rows
            if any(inner):
                plain.node(f"c{column}r{row}", xs[column], ys[row], "traffic_light" if all(inner) else "priority")
    ways = [[f"c{column}r{row}" for column in range(columns + 2)] for row in range(1, rows + 1)]
    priorities = [MAIN] * len(ways)
    ways += [[f"c{column}r{row}" for row in range(rows + 2)] for column in range(1, columns + 1)]
    priorities += [6] * (len(ways) - len(priorities))
    for way, priority in zip(ways, priorities, strict=True):
        for one, other in pairwise(way):
            for begin, end in ((one, other), (other, one)):
                plain.edge(begin, end, 2, 50, priority, pocket if end in lit else 0, pocket_lanes=2)
    return lit


def neighbours(node: str) -> dict[str, str]:
    """The nodes around one of a grid, by the side from which one comes."""
    column, row = map(int, node[1:].split("r"))
    steps = {"w": (-1, 0), "s": (0, -1), "e": (1, 0), "n": (0, 1)}
    return {side: f"c{column + right}r{row + up}" for side, (right, up) in steps.items()}


ROUND = "wsen"  # sides, against the clock: who comes from one goes right to the next


def two_lefts(draws: Random, folder: Path) -> Draft:
    """Crossings of streets of two lanes, where two lanes turn left, with arrows of their own."""
    plain, pocket = Plain(), draws.choice((60, 80))
    for node in wide_grid(plain, draws, pocket):
        around = neighbours(node)
        for at, side in enumerate(ROUND):
            right, ahead, left = (around[ROUND[(at + step) % 4]] for step in (1, 2, 3))
            for target, lanes in ((right, (0, 0)), (ahead, (0, 0)), (ahead, (1, 1)), (left, (2, 0)), (left, (3, 1))):
                plain.connect(f"{around[side]}-{node}.-{pocket}", f"{node}-{target}", lanes)
    words = [*plain.write(folder), *cycle(draws, (90, 100, 110)), "--tls.left-green.time", "14"]
    return Draft(words, drawn={"pocket": pocket})


def banned_turns(draws: Random, folder: Path) -> Draft:
    """Crossings of streets of two lanes, some of whose left turns are banned."""
    plain, share = Plain(), draws.choice((0.3, 0.5))
    for node in wide_grid(plain, draws):
        around = neighbours(node)
        for at, side in enumerate(ROUND):
            if draws.random() < share:
                plain.ban(f"{around[side]}-{node}", f"{node}-{around[ROUND[(at + 3) % 4]]}")
    words = [*plain.write(folder), *cycle(draws), "--tls.left-green.time", "0"]
    return Draft(words, drawn={"share": share, "banned": len(plain.connections)})


PEAKS = (0.6, 1.0, 1.4, 1.0), (0.5, 0.9, 1.3, 1.3), (0.8, 1.4, 1.1, 0.7)  # of the demand, by quarters of its time


def with_peak(build: Build) -> Build:
    """The same network with a demand that grows to a peak."""

    def build_with_peak(draws: Random, folder: Path) -> Draft:
        return replace(build(draws, folder), peak=draws.choice(PEAKS))

    return build_with_peak
