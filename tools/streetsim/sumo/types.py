"""Reads SUMO's vehicle types, and gives vehicles their sizes: how many cells each takes. All that reads raises Fault,
with file and element, where an attribute that it needs is absent, or one cannot be read."""
import random
from collections import Counter, defaultdict
from collections.abc import Collection, Sequence
from dataclasses import dataclass
from xml.etree.ElementTree import Element

from streetsim.base import limits
from streetsim.base.files import (
    Fault, FilePath, above_zero, at_least_zero, attribute, element_told, filled, number, optional,
)
from streetsim.base.report import Report, first_few
from streetsim.sumo.driving import Driving, driving_of
from streetsim.sumo.net import FREE

# SUMO's vehicle classes.
CLASSES = (
    *("private", "emergency", "authority", "army", "vip", "passenger", "hov", "taxi", "bus", "coach", "delivery"),
    *("truck", "trailer", "tram", "rail_urban", "rail", "rail_electric", "rail_fast", "motorcycle", "moped", "bicycle"),
    *("pedestrian", "evehicle", "ship", "container", "cable_car", "subway", "aircraft", "wheelchair", "scooter"),
    *("drone", "custom1", "custom2"),
)
FORMER = {  # names that SUMO still takes for them
    "public_emergency": "emergency",
    "public_authority": "authority",
    "public_army": "army",
    "public_transport": "bus",
    "transport": "truck",
    "lightrail": "tram",
    "cityrail": "rail_urban",
    "rail_slow": "rail",
}
DEFAULT = "DEFAULT_VEHTYPE"
USUAL = 5.0, 2.5  # metres of a vehicle, and of the gap to the one ahead of it when both stand
BY_CLASS = {  # where SUMO's defaults are other ones
    "bicycle": (1.6, 0.5),
    "moped": (2.1, 2.5),
    "motorcycle": (2.2, 2.5),
    "emergency": (6.5, 2.5),
    "delivery": (6.5, 2.5),
    "truck": (7.1, 2.5),
    "trailer": (16.5, 2.5),
    "bus": (12.0, 2.5),
    "coach": (14.0, 2.5),
    "tram": (22.0, 2.5),
    "rail_urban": (109.5, 5.0),
    "rail": (135.0, 5.0),
    "rail_electric": (200.0, 5.0),
    "rail_fast": (200.0, 5.0),
    "ship": (17.0, 2.5),
}
PACE = 2.6, 4.5  # metres a second and second, of one who starts and one who brakes
PACE_BY_CLASS = {  # where SUMO's defaults are other ones
    "bicycle": (1.2, 3.0),
    "moped": (1.1, 7.0),
    "motorcycle": (6.0, 10.0),
    "truck": (1.3, 4.0),
    "trailer": (1.1, 4.0),
    "bus": (1.2, 4.0),
    "coach": (2.0, 4.0),
    "tram": (1.0, 3.0),
    "rail_urban": (1.0, 3.0),
    "rail": (0.25, 1.3),
    "rail_electric": (0.5, 1.3),
    "rail_fast": (0.5, 1.3),
}
READ = {"id", "length", "minGap", "vClass", "probability", "probabilities", "vTypes"}
READ |= {"accel", "maxSpeed", "sigma", "speedFactor", "speedDev", "carFollowModel"}  # in the mean of a street
BRAKING = "decel"  # counts for vehicles that stop, as buses do
TAGS = ("vType", "vTypeDistribution")
Mix = tuple[list[str], list[float]]  # names, of types or of routes, and their weights


@dataclass(slots=True, frozen=True)
class Kind:
    """A vehicle type, as far as it is kept."""

    vclass: str = "passenger"
    length: float = USUAL[0]  # metres
    gap: float = USUAL[1]  # metres to the one ahead when both stand
    speed: float | None = None  # metres a second at most, where the type tells it


def class_of(path: FilePath, element: Element) -> str:
    """The vehicle class of a type, under SUMO's present name; passenger where none is written. Fault where SUMO has no
    such class."""
    name = element.get("vClass", "passenger")
    name = FORMER.get(name, name)
    if name not in CLASSES and name != FREE:
        raise Fault(f"{element_told(path, element)}: SUMO has no vehicle class {name!r}")
    return name


def named_in(path: FilePath, element: Element, kind: str) -> Mix:
    """The members that a distribution (element) names in its attribute kind, with the weights of its probabilities; one
    without a probability weighs 1. Fault where a weight is no number of 0 or more."""
    names = element.get(kind, "").split()
    weights: list[float] = optional(path, element, "probabilities", weights_of, [])
    return names, (weights + [1.0] * len(names))[: len(names)]


def weights_of(text: str) -> list[float]:
    """Numbers of 0 or more, of a text with spaces between; ValueError otherwise."""
    return [at_least_zero(number)(part) for part in text.split()]


def weight_of(path: FilePath, element: Element) -> float:
    """The weight of a member that stands in a distribution, 1 where it tells none. Fault where it is no number of 0 or
    more."""
    return optional(path, element, "probability", at_least_zero(number), 1.0)


class Types:
    """The vehicle types that files tell, and the distributions from which the type of a vehicle is drawn."""

    def __init__(self, seed: int, report: Report) -> None:
        """seed: of the draws from distributions."""
        self.report = report
        # By name: of road that a vehicle takes, with the gap ahead of it.
        self.metres = {DEFAULT: sum(USUAL), "DEFAULT_TAXITYPE": sum(USUAL)}
        self.metres["DEFAULT_BIKETYPE"] = sum(BY_CLASS["bicycle"])
        self.kinds = {DEFAULT: Kind()}  # by name; those that files tell, and the usual one
        self.pace = {DEFAULT: PACE}  # by name
        self.braking: set[str] = set()  # names of those that tell a BRAKING
        self.drivings: dict[str, Driving] = {}  # by name; those that files tell
        self.mixes: dict[str, Mix] = {}  # by distribution
        self.draws = random.Random(f"types {seed}")
        self.told_names: set[str] = set()  # types and distributions of the files
        self.unknown: set[str] = set()

    def read_element(self, path: FilePath, element: Element) -> None:
        """Adds a <vType>, or a <vTypeDistribution> with the types in it."""
        if element.tag == "vType":
            self.read_type(path, element)
        else:
            self.read_mix(path, element)

    def read_type(self, path: FilePath, element: Element) -> None:
        """Adds a type; what it does not tell is as SUMO's defaults for its class. Attributes beside READ and BRAKING,
        and elements in it, are reported as ignored. Fault where another one has its name, or SUMO has no such class."""
        vclass = class_of(path, element)
        length, gap = BY_CLASS.get(vclass, USUAL)
        length = optional(path, element, "length", above_zero(number), length)
        gap = optional(path, element, "minGap", at_least_zero(number), gap)
        speed = optional(path, element, "maxSpeed", above_zero(number), None)
        name = self.new_name(path, element)
        self.metres[name] = length + gap
        self.kinds[name] = Kind(vclass, length, gap, speed)
        starting, braking = PACE_BY_CLASS.get(vclass, PACE)
        starting = optional(path, element, "accel", above_zero(number), starting)
        self.pace[name] = starting, optional(path, element, "decel", above_zero(number), braking)
        self.braking |= {name} if BRAKING in element.keys() else set()
        self.drivings[name] = driving_of(path, element, starting, vclass)
        for other in [*(set(element.keys()) - READ - {BRAKING}), *(f"<{one.tag}>" for one in element)]:
            self.report.ignored[f"{other} of vTypes"] += 1

    def note_braking(self, used: Collection[str], report: Report) -> None:
        """Reports how many types tell a BRAKING that has no effect, as none of their vehicles stops; used: the types
        whose vehicles do."""
        report.ignored[f"{BRAKING} of vTypes"] = len(self.braking - set(used))

    def class_kept(self, name: str, classes: Sequence[str]) -> str:
        """As which of the classes that an import keeps, one at least, vehicles of a type drive: its own, or the first;
        FREE where it may use every lane."""
        own = self.kinds[name].vclass if name in self.kinds else ""
        return own if own == FREE or own in classes else classes[0]

    def new_name(self, path: FilePath, element: Element) -> str:
        """The name of a type or a distribution, which then counts as taken; Fault where another one of the files has
        it."""
        name = attribute(path, element, "id", filled)
        if name in self.told_names:
            raise Fault(f"{element_told(path, element)}: a second vehicle type of this name")
        self.told_names.add(name)
        return name

    def read_mix(self, path: FilePath, element: Element) -> None:
        """Adds a distribution, with the types that stand in it; Fault where it names a type that was not read before,
        has no type, weights that are all 0, or a name that is taken."""
        names, weights = named_in(path, element, "vTypes")
        if unknown := [name for name in names if name not in self.metres]:
            raise Fault(f"{element_told(path, element)}: there is no type {unknown[0]!r}")
        for inner in element.iter("vType"):
            self.read_type(path, inner)
            names.append(attribute(path, inner, "id"))
            weights.append(weight_of(path, inner))
        if not names or sum(weights) <= 0:
            raise Fault(f"{element_told(path, element)}: a distribution without a type")
        self.mixes[self.new_name(path, element)] = names, weights

    def draw_type(self, name: str) -> str:
        """The type that a vehicle has: the one that is named, or one drawn anew from the distribution that is named.
        DEFAULT where no file tells it, which is noted in unknown."""
        if name in self.mixes:
            return self.draws.choices(*self.mixes[name])[0]
        if name in self.metres:
            return name
        self.unknown.add(name)
        return DEFAULT


class Sizes:
    """Gives vehicles their sizes in order of departure. What rounding leaves is carried on to the next vehicle of the
    type: without that, all trucks of 9.6 m would take one cell."""

    def __init__(self, types: Types) -> None:
        """types: whose metres are turned into cells."""
        self.types = types
        self.rests: defaultdict[str, float] = defaultdict(float)  # by type: cells that are owed
        self.count: Counter[int] = Counter()  # vehicles by size
        self.metres = 0.0  # of all vehicles, in SUMO
        self.too_long: Counter[str] = Counter()  # vehicles by type

    def next_size(self, name: str) -> int:
        """The cells, 1 to limits.SIZE, that the next vehicle of a type takes, which is counted; name: of the type."""
        metres = self.types.metres[name]
        wished = min(limits.SIZE, max(1.0, metres / limits.CELL_METRES)) + self.rests[name]
        size = int(wished + 0.5)
        self.rests[name] = wished - size
        self.count[size] += 1
        self.metres += metres
        if metres > limits.SIZE * limits.CELL_METRES:
            self.too_long[name] += 1
        return size

    def report_sizes(self, report: Report) -> None:
        """Reports how many vehicles took which size, where some take more than a cell; types that no file tells; and
        vehicles that are too long for the most cells."""
        if self.types.unknown:
            names = first_few(sorted(self.types.unknown))
            report.warn(f"vehicle types that no file defines are taken for cars: {names}")
        if self.too_long:
            report.warn(
                f"{self.too_long.total()} vehicles are longer than {limits.SIZE} cells of {limits.CELL_METRES} m and "
                f"take {limits.SIZE}: types {first_few(sorted(self.too_long))}"
            )
        if set(self.count) - {1}:
            sizes = ", ".join(f"{count:,} of {size}" for size, count in sorted(self.count.items()))
            here = sum(size * count for size, count in self.count.items()) * limits.CELL_METRES
            report.notes.append(
                f"vehicles by cells: {sizes}; {here:,.0f} m of road here, {self.metres:,.0f} m in SUMO with the gaps"
            )
