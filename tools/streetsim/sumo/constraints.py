"""What a plan must keep of each phase: its least and most seconds, and the least green of those who cross on foot. It
is written with a plan, so that each later search keeps it too. Fault where two of these contradict each other."""
from __future__ import annotations

from collections.abc import Iterator, Mapping, Sequence
from dataclasses import dataclass, replace
from math import ceil, floor
from operator import gt, lt

from streetsim.base import limits
from streetsim.base.files import Fault, FilePath, at_least_zero, attribute, elements, number, optional
from streetsim.base.report import Report
from streetsim.model.tables import read_table
from streetsim.sumo.net import STATIC, LightProgram, SumoNet

PEDESTRIANS = "pedestrians."  # with the place of a phase, from 0: a parameter of a program
COLUMNS = ("light", "phase", "least", "most", "pedestrians")  # of a file of constraints
WALK = 1.2  # metres a second of who crosses a street
GREEN = "Gg"  # letters under which a crossing is green
Crossings = dict[str, dict[int, float]]  # by light and place in its states: metres


@dataclass(frozen=True, slots=True)
class Constraint:
    """What one phase must keep, in whole seconds; None: nothing is written."""

    least_seconds: int | None = None
    most_seconds: int | None = None
    pedestrians: int | None = None  # the least green of those who cross on foot

    @property
    def low(self) -> int:
        """The fewest seconds that the phase may last."""
        return max(self.least_seconds or 0, self.pedestrians or 0)

    @property
    def high(self) -> int:
        """The most seconds that the phase may last."""
        return limits.PHASE_STEPS if self.most_seconds is None else min(self.most_seconds, limits.PHASE_STEPS)

    def clamp(self, seconds: int) -> int:
        """The nearest seconds that keep the constraint."""
        return min(self.high, max(self.low, seconds)) if any(self.bounds()) else seconds

    def bounds(self) -> tuple[int | None, int | None, int | None]:
        """The least, the most and the green of pedestrians."""
        return self.least_seconds, self.most_seconds, self.pedestrians

    def broken_by(self, seconds: float) -> str:
        """What a phase of so many seconds breaks, as text; empty where it breaks nothing."""
        if self.most_seconds is not None and floor(seconds) > self.most_seconds:
            return f"lasts {seconds:g} s, above its most of {self.most_seconds} s"
        if ceil(seconds) >= self.low:
            return ""
        for_whom = " for pedestrians" if (self.pedestrians or 0) > (self.least_seconds or 0) else ""
        return f"lasts {seconds:g} s, below its least of {self.low} s{for_whom}"


def constraints_of(light: str, program: LightProgram) -> tuple[Constraint, ...]:
    """What a light's program says that its phases must keep: minDur, maxDur, and a parameter pedestrians.N for the
    phase N, from 0. Fault where one contradicts another, or names no green phase."""
    bounds = program.bounds or [(None, None)] * len(program.phases)
    feet = pedestrians_of(light, program)
    found = []
    for at, (least, most) in enumerate(bounds):
        low = None if least is None else ceil(least)
        high = None if most is None else floor(most)
        found.append(checked(light, at, Constraint(low, high, feet.get(at))))
    return tuple(found)


def kept_values(light: str, program: LightProgram) -> list[tuple[int | None, int | None, int | None]]:
    """The least, the most and the green of pedestrians of each phase of a program; empty where it says nothing of
    them, or what it says contradicts itself."""
    try:
        found = [one.bounds() for one in constraints_of(light, program)]
    except Fault:
        return []
    return found if any(value is not None for one in found for value in one) else []


def pedestrians_of(light: str, program: LightProgram) -> dict[int, int]:
    """The greens of pedestrians, whole seconds, by phase, that a program's parameters say; Fault where one is no number
    or names no phase with a green."""
    greens = {}
    for key, text in program.parameters.items():
        if key.startswith(PEDESTRIANS):
            place = key.removeprefix(PEDESTRIANS)
            if not (place.isdecimal() and text.strip().isdecimal()):
                raise Fault(f"light {light!r}: parameter {key}={text!r} is no whole seconds of a phase, from 0")
            refuse_no_green(light, int(place), program)
            greens[int(place)] = int(text)
    return greens


def refuse_no_green(light: str, at: int, program: LightProgram) -> None:
    """Fault where a program has no phase at a place, or nobody has green in it."""
    if at >= len(program.phases):
        raise Fault(f"light {light!r}: no phase {at}: it has {len(program.phases)}, from 0")
    if not {*program.phases[at][1]} & {*GREEN}:
        raise Fault(f"light {light!r}: phase {at}: pedestrians have no green in it ({program.phases[at][1]})")


def checked(light: str, at: int, constraint: Constraint) -> Constraint:
    """The constraint of a light's phase; Fault where nothing could keep it."""
    where = f"light {light!r}: phase {at}: its least of"
    if constraint.low > limits.PHASE_STEPS:
        raise Fault(f"{where} {constraint.low} s is above the {limits.PHASE_STEPS} s that a phase may last")
    if constraint.most_seconds is not None and constraint.low > constraint.most_seconds:
        told = f"{constraint.low} s" + (" for pedestrians" if constraint.low > (constraint.least_seconds or 0) else "")
        raise Fault(f"{where} {told} is above its most of {constraint.most_seconds} s")
    return constraint


LightConstraints = dict[str, dict[int, Constraint]]  # of a file, by light and phase


def read_constraints(path: FilePath) -> LightConstraints:
    """The constraints of a CSV file: light, phase (from 0), and whole seconds of least, most and pedestrians, each
    maybe empty. Fault where it cannot be read, a cell is wrong, or a phase has two rows."""
    constraints: LightConstraints = {}
    for line, row in enumerate(read_table(path, COLUMNS), 2):
        cells = [row[name].strip() for name in COLUMNS[1:]]
        if wrong := next((cell for cell in cells if cell and not cell.isdecimal()), None):
            raise Fault(f"{path}: line {line}: {wrong!r} is no whole number from 0 on")
        if not cells[0] or not any(cells[1:]):
            raise Fault(f"{path}: line {line}: a row has a phase, and a least, a most or a green of pedestrians")
        at, values = int(cells[0]), [int(cell) if cell else None for cell in cells[1:]]
        of_light = constraints.setdefault(row["light"], {})
        if at in of_light:
            raise Fault(f"{path}: line {line}: light {row['light']!r}: phase {at} has two rows")
        of_light[at] = Constraint(*values)
    return constraints


def with_given(
    light: str, program: LightProgram, planned: Sequence[Constraint], file_constraints: Mapping[int, Constraint]
) -> list[Constraint]:
    """The constraints of a light with those of a file. Fault where a file loosens what the program keeps, contradicts
    it, or names no such phase."""
    constraints = list(planned)
    for index, file_constraint in file_constraints.items():
        if index >= len(constraints):
            raise Fault(f"light {light!r}: no phase {index}: it has {len(constraints)}, from 0")
        if file_constraint.pedestrians:
            refuse_no_green(light, index, program)
        planned_constraint = constraints[index]
        pairs = list(zip(file_constraint.bounds(), planned_constraint.bounds(), strict=True))
        loose = [
            f"{name} of {file_bound} s is looser than the {planned_bound} s"
            for name, is_loose, (file_bound, planned_bound) in zip(COLUMNS[2:], (lt, gt, lt), pairs, strict=True)
            if file_bound is not None and planned_bound is not None and is_loose(file_bound, planned_bound)
        ]
        if loose:
            raise Fault(f"light {light!r}: phase {index}: {loose[0]} that its plan keeps: change the plan's own first")
        bounds = (file_bound if file_bound is not None else planned_bound for file_bound, planned_bound in pairs)
        constraints[index] = checked(light, index, Constraint(*bounds))
    return constraints


def with_walks(
    program: LightProgram, planned: Sequence[Constraint], crossings: Mapping[int, float]
) -> list[Constraint]:
    """The constraints with the greens of crossings: each lasts as long as its metres take on foot, or as it does now
    where that is shorter; the longest phase of a green is held to it. A green with pedestrians' seconds of its own in
    one of its phases, and a phase whose most is too short, stays as it is. crossings: metres by place in the states."""
    constraints, seconds = list(planned), [duration for duration, _ in program.phases]
    for index, metres in crossings.items():
        for run in green_runs([state for _, state in program.phases], index):
            if any(constraints[at].pedestrians for at in run):
                continue
            need = min(ceil(metres / WALK), floor(sum(seconds[at] for at in run)))
            longest = max(run, key=lambda at: seconds[at])
            rest = need - floor(sum(constraints[at].low or seconds[at] for at in run if at != longest))
            if 0 < rest <= constraints[longest].high:
                constraints[longest] = replace(constraints[longest], pedestrians=rest)
    return constraints


def green_runs(states: Sequence[str], index: int) -> Iterator[list[int]]:
    """The places of phases, in a row, maybe over the cycle's end, in which a letter of the states is green."""
    is_green = [index < len(state) and state[index] in GREEN for state in states]
    if all(is_green):
        return
    begins = [at for at, green in enumerate(is_green) if green and not is_green[at - 1]]
    for begin in begins:
        run: list[int] = []
        while is_green[(begin + len(run)) % len(states)]:
            run.append((begin + len(run)) % len(states))
        yield run


def read_crossings(path: FilePath) -> Crossings:
    """The crossings on foot at lights of a network; empty where it has none. Fault where the file cannot be read."""
    metres: dict[str, float] = {}
    crossings: Crossings = {}
    for element in elements(path, ["net"]):
        if element.tag == "edge" and element.get("function") == "crossing":
            lanes = [optional(path, lane, "length", at_least_zero(number), 0.0) for lane in element.iter("lane")]
            metres[element.get("id", "")] = max(lanes, default=0.0)
        elif element.tag == "connection" and (light := element.get("tl")) and element.get("to") in metres:
            index = attribute(path, element, "linkIndex", at_least_zero(int))
            crossings.setdefault(light, {})[index] = metres[element.get("to", "")]
    return crossings


def broken_in(light: str, program: LightProgram, constraints: Sequence[Constraint]) -> Iterator[str]:
    """What a program breaks of what its phases must keep, a text each."""
    for at, ((seconds, _), one) in enumerate(zip(program.phases, constraints, strict=True)):
        if told := one.broken_by(seconds):
            yield f"light {light!r}: phase {at} {told}"


def warn_of_broken(net: SumoNet, report: Report) -> None:
    """Reports where a program of seconds that is shown breaks its own least or most, or these contradict each other."""
    for light in net.programs:
        for program in net.programs_in_run(light):
            if program.kind != STATIC:
                continue
            try:
                told = list(broken_in(light, program, constraints_of(light, program)))
            except Fault as fault:
                told = [str(fault)]
            for text in told:
                report.warn(text, [light], "change the plan", kind="phases break what their plans must keep")
