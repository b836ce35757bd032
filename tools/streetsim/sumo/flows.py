"""When the vehicles of a SUMO flow depart, and flows in intervals. All that reads raises Fault, with file and element,
where an attribute that it needs is absent, or one cannot be read."""
import math
from collections.abc import Collection, Iterator
from itertools import count, islice, takewhile
from random import Random
from xml.etree.ElementTree import Element

from streetsim.base import limits
from streetsim.base.files import (
    Fault, FilePath, above_zero, at_least_zero, attribute, element_told, elements, number, only, optional, seconds,
)

DAY = 86_400.0
LARGEST = 2**31 - 1  # of SUMO's whole numbers
RATES = ("period", "vehsPerHour", "perHour", "probability")


def route_elements(path: FilePath, roots: Collection[str]) -> Iterator[Element]:
    """The elements of a file of routes, as `elements` gives them; of an <interval> those that stand in it."""
    for element in elements(path, roots):
        if element.tag == "interval":
            yield from elements_in_interval(path, element)
        else:
            yield element


def elements_in_interval(path: FilePath, interval: Element) -> Iterator[Element]:
    """The elements that stand in an <interval>. Its begin and end are those of a flow that tells none itself, but a
    flow with a rate and a number has no end, as in SUMO. Fault where the interval lacks one of both."""
    begin, end = (attribute(path, interval, name) for name in ("begin", "end"))
    for one in interval:
        if one.tag == "flow":
            one.attrib.setdefault("begin", begin)
            if one.get("number") is None or all(one.get(name) is None for name in RATES):
                one.attrib.setdefault("end", end)
        yield one


def departs(path: FilePath, element: Element, draws: Random, run_end: float | None = None) -> list[float]:
    """The seconds at which the vehicles of a flow depart, in order: its number spread evenly from its begin to its end;
    or begin + k * period below its end, its number at most; with a probability, or a period exp(RATE), by draws. A flow
    that tells no end, nor both a rate and a number, has the end of the run (run_end), else a day, as in SUMO. Fault
    where there are more than may drive, it ends before it begins, or refuse_two_rates or moments raises one. element:
    the <flow>."""
    begin = optional(path, element, "begin", at_least_zero(seconds), 0.0)
    count = optional(path, element, "number", only(int, lambda value: 0 <= value <= LARGEST), None)
    usual = begin + DAY if run_end is None else max(begin, run_end)
    if count is not None and any(element.get(name) is not None for name in RATES):
        usual = math.inf
    end = optional(path, element, "end", seconds, usual)
    if end < begin:
        raise Fault(f"{element_told(path, element)}: ends at {end:g} s, before it begins at {begin:g} s")
    refuse_two_rates(path, element)
    if count is None or end == math.inf:
        times: Iterator[float] = takewhile(lambda time: time < end, islice(moments(path, element, begin, draws), count))
    else:
        period = (end - begin) / max(1, count)
        times = (begin + at * period for at in range(count))
    departures = list(islice(times, limits.VEHICLES + 1))
    if len(departures) > limits.VEHICLES:
        raise Fault(f"{element_told(path, element)}: more than {limits.VEHICLES:,} vehicles")
    return departures


def refuse_two_rates(path: FilePath, element: Element) -> None:
    """Fault where a flow has two rates, or an end and a number beside a rate, as in SUMO."""
    rates = [name for name in RATES if element.get(name) is not None]
    if len(rates) > 1:
        raise Fault(f"{element_told(path, element)}: {rates[0]} and {rates[1]} are two rates, of which a flow has one")
    if rates and element.get("end") is not None and element.get("number") is not None:
        raise Fault(f"{element_told(path, element)}: beside {rates[0]} a flow has an end or a number, not both")


def moments(path: FilePath, element: Element, begin: float, draws: Random) -> Iterator[float]:
    """The seconds of all departures that the rate of a flow gives from begin on, mostly without end. Fault where it has
    no rate."""
    for name in ("vehsPerHour", "perHour"):
        if element.get(name) is not None:
            hourly = attribute(path, element, name, above_zero(number))
            return (begin + index * 3600 / hourly for index in count())
    if element.get("probability") is not None:
        chance = attribute(path, element, "probability", only(number, lambda value: 0 < value <= 1))
        return by_chance(begin, chance, draws)
    if (element.get("period") or "").startswith("exp("):
        return by_rate(begin, attribute(path, element, "period", rate_of), draws)
    if element.get("period") is None:
        raise Fault(
            f"{element_told(path, element)}: no rate (number, period, vehsPerHour, perHour or probability)"
        )
    period = attribute(path, element, "period", above_zero(seconds))
    return (begin + index * period for index in count())


def rate_of(text: str) -> float:
    """Vehicles a second, of a text exp(RATE); ValueError where it ends without ")" or RATE is no number above 0."""
    if not text.endswith(")"):
        raise ValueError(text)
    return above_zero(number)(text.removeprefix("exp(").removesuffix(")"))


def by_chance(begin: float, chance: float, draws: Random) -> Iterator[float]:
    """Seconds of departures from begin on, where each second has one with a chance (above 0 to 1); the seconds until
    the next one are drawn at once. It ends where these are limits.CLOCK or more, else never."""
    second = -1
    while True:
        waited = math.log(1 - draws.random()) / math.log1p(-chance) if chance < 1 else 0.0
        if not waited < limits.CLOCK:
            return
        second += 1 + int(waited)
        yield begin + second


def by_rate(begin: float, rate: float, draws: Random) -> Iterator[float]:
    """Seconds of departures without end; the times between them, and from begin to the first, are drawn with a mean of
    1 / rate seconds."""
    clock = begin
    while True:
        clock += draws.expovariate(rate)
        yield clock
