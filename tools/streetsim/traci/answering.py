"""Answers get and set commands of TraCI's protocol, by the calls of streetsim.traci; `server` has them come."""
from collections.abc import Callable, Mapping, Sequence
from functools import cache
from math import isfinite
from typing import NamedTuple

import streetsim.traci as traci
from streetsim.simulation.errors import NotHere, TraCIException
from streetsim.traci import constants as tc
from streetsim.traci.advice import advice_on
from streetsim.traci.names import sumo_name
from streetsim.traci.protocol import (
    DOUBLE, ENCODERS, INT, TYPES, BadMessage, TraciValue, Typed, ValueReader, command, state_of, text,
)
from streetsim.traci.table import DOMAINS, GETS, SETS, Get
from streetsim.traci.trafficlights import Logic, Phase

GET_OF = {numbers.get: name for name, numbers in DOMAINS.items()}
SET_OF = {numbers.set: name for name, numbers in DOMAINS.items()}
OK_STATES = [state_of(code) for code in range(256)]
ANSWER_OFFSET = 16  # by which the code of an answer is above that of its command
FIXED_SIZE = {letter: (bytes((TYPES[letter],)), layout.pack) for letter, layout in (("d", DOUBLE), ("i", INT))}
WITHOUT_OBJECT = ("getIDList", "getIDCount", "getTaxiReservations")  # whose calls take no name
DISPLAY_DOMAINS = ("gui", "poi", "polygon")  # domains whose changes only show something


@cache
def call_of(domain: str, name: str) -> Callable[..., TraciValue]:
    """A call of a domain; NotHere where it is not here."""
    call: Callable[..., TraciValue] = getattr(getattr(traci, domain), name)
    return call


class ReadCall(NamedTuple):
    """A command that was read: what it calls, and how its value is packed; repeated as often as its bytes come."""

    code: int
    call: Callable[..., TraciValue]
    arguments: tuple[TraciValue, ...]
    head: bytes  # of its answer, in front of the value; of a change the whole answer
    gives: str = ""  # the type of the value; empty for a change
    fixed: Callable[[TraciValue], bytes] | None = None  # packs a value of fixed size, whose mark `head` has

    def message(self) -> Callable[[], bytes]:
        """What makes the call and gives the state and the value as a message of their own; it raises what the call
        raises."""
        if self.fixed is None:
            return lambda: whole_message(self.answer())
        call, arguments, pack = self.call, self.arguments, self.fixed
        head = INT.pack(INT.size + len(self.head) + len(pack(0))) + self.head
        return lambda: head + pack(call(*arguments))

    def answer(self) -> bytes:
        """The state and the value, once the call is made; raises what that raises."""
        value = self.call(*self.arguments)
        if self.fixed is not None:
            return self.head + self.fixed(value)
        if not self.gives:
            return self.head
        return OK_STATES[self.code] + command(self.code + ANSWER_OFFSET, self.head + ENCODERS[self.gives](value))


def whole_message(answer: bytes | bytearray) -> bytes:
    """A message of an answer: its length stands before it."""
    return INT.pack(len(answer) + INT.size) + answer


def read_get_command(code: int, reader: ValueReader) -> ReadCall:
    """The call that tells a variable of an object. reader: behind the code. NotHere for what is not told here,
    BadMessage for wrong words."""
    domain, variable, name = GET_OF[code], reader.byte(), reader.text()
    head = bytes((variable,)) + text(name)
    if (get := GETS.get(domain, {}).get(variable)) is None:
        if (special_call := SPECIAL_CALLS.get((domain, variable))) is None:
            raise not_here(domain, variable, "get")
        call, arguments, gives = special_call(name, reader)
        return ReadCall(code, call, arguments, head, gives)
    objects = () if takes_no_name(domain, get) else (name,)
    call_read = ReadCall(code, call_of(domain, get.call), (*objects, *reader.typed_values(get.takes)), head, get.gives)
    if get.gives not in FIXED_SIZE:
        return call_read
    mark, pack = FIXED_SIZE[get.gives]
    whole = OK_STATES[code] + command(code + ANSWER_OFFSET, head + mark + pack(0))
    return call_read._replace(head=whole[: -len(pack(0))], fixed=pack)


def takes_no_name(domain: str, get: Get) -> bool:
    """Whether a call takes no name of an object."""
    return get.call in WITHOUT_OBJECT or domain == "simulation" and not get.call.startswith("getParameter")


def read_set_command(code: int, reader: ValueReader) -> ReadCall:
    """The call that makes a change; raises as read_get_command does, and TraCIException for values that are no
    numbers."""
    domain, variable, name = SET_OF[code], reader.byte(), reader.text()
    if domain in DISPLAY_DOMAINS:
        return ReadCall(code, getattr(traci, domain).nothing, (), OK_STATES[code])
    if variable not in SETS.get(domain, {}):
        raise not_here(domain, variable, "set")
    call, types = SETS[domain][variable]
    arguments = SPECIAL_ARGUMENTS[call](reader) if types == "*" else reader.typed_values(types)
    if not all(isfinite(value) for value in arguments if isinstance(value, float)):
        raise TraCIException(f"{domain}.{call}: {arguments} are not all numbers")
    objects = () if domain == "simulation" and call != "setParameter" else (name,)
    return ReadCall(code, call_of(domain, call), (*objects, *arguments), OK_STATES[code])


def not_here(domain: str, variable: int, how: str) -> NotHere:
    """What is raised for a variable that nothing here tells or changes: it names the call of SUMO's, where it is known,
    and what to do instead."""
    call = f"{domain}.{sumo_name(domain, variable, how) or f'{how} {variable:#04x}'}"
    return NotHere(f"{call} is not here: {advice_on(call)}")


# Values and words that one variable has in several forms.

def read_parts(reader: ValueReader) -> list[Typed]:
    """The parts of the compound that comes next."""
    letter, parts = reader.typed()
    if letter != "t":
        raise BadMessage("a compound is awaited")
    return list(parts)


Special = tuple[Callable[..., TraciValue], tuple[TraciValue, ...], str]  # a call, its words, the type of its value


def convert_call(_: str, reader: ValueReader) -> Special:
    """What tells simulation.convert2D, convertRoad and convertGeo."""
    (letter, position), (_mark, target_type), *_more = (*read_parts(reader), ("", 0), ("", 0))
    if letter == "r" and target_type == tc.POSITION_2D:
        return traci.simulation.convert2D, tuple(position), "o"
    if letter == "o" and target_type == tc.POSITION_ROADMAP:
        return traci.simulation.convertRoad, tuple(position), "r"
    raise NotHere("simulation.convertGeo is not here: neither degrees nor heights; streetsim-export writes degrees")


def distance_call(_: str, reader: ValueReader) -> Special:
    """What tells simulation.getDistance2D and getDistanceRoad."""
    reader.typed_values("t")
    (begin_type, begin), (end_type, end) = reader.typed(), reader.typed()
    driving = reader.byte() == tc.REQUEST_DRIVINGDIST
    if (begin_type, end_type) == ("o", "o"):
        return traci.simulation.getDistance2D, (*begin[:2], *end[:2], False, driving), "d"
    if (begin_type, end_type) == ("r", "r"):
        return traci.simulation.getDistanceRoad, (*begin[:2], *end[:2], driving), "d"
    raise NotHere("simulation.getDistance2D: degrees are not here; two points, or two places on edges")


def driving_distance_call(name: str, reader: ValueReader) -> Special:
    """What tells vehicle.getDrivingDistance."""
    reader.typed_values("t")
    letter, target = reader.typed()
    reader.byte()
    if letter != "r":
        raise not_here("vehicle", tc.DISTANCE_REQUEST, "get")
    return traci.vehicle.getDrivingDistance, (name, *target[:2]), "d"


def option_call(name: str, _: ValueReader) -> Special:
    """What tells simulation.getOption."""
    return traci.simulation.getOption, (name,), "s"


def travel_time_arguments(reader: ValueReader) -> list[float]:
    """The words of edge.adaptTraveltime: the seconds, and from when to when they count where that is told."""
    numbers = [value for letter, value in read_parts(reader) if letter == "d"]
    return [numbers[-1], *numbers[:-1]] if len(numbers) in (1, 3) else refuse_values("one number or three")


def program_arguments(reader: ValueReader) -> list[Logic]:
    """The words of trafficlight.setProgramLogic."""
    (_, name), (_, kind), (_, index), (_, phases), *_more = check_types(read_parts(reader), "siit")
    program_phases = []
    for _, parts in phases:
        (_, duration), (_, state), (_, least), (_, most), (_, following), (_, text) = check_types(parts, "dsddts")
        program_phases.append(Phase(duration, state, least, most, tuple(number for _, number in following), text))
    return [Logic(name, kind, index, program_phases)]


def check_types(parts: list[Typed], letters: str) -> list[Typed]:
    """Some parts, the first of which must have types by letters; BadMessage where they do not."""
    if not isinstance(parts, list) or "".join(letter for letter, _ in parts)[: len(letters)] != letters:
        refuse_values(f"values of the types {letters}")
    return parts


def refuse_values(awaited: str) -> list[float]:
    """BadMessage: something else is awaited."""
    raise BadMessage(f"{awaited} are awaited")


SPECIAL_CALLS: Mapping[tuple[str, int], Callable[[str, ValueReader], Special]] = {
    ("simulation", tc.POSITION_CONVERSION): convert_call, ("simulation", tc.DISTANCE_REQUEST): distance_call,
    ("vehicle", tc.DISTANCE_REQUEST): driving_distance_call, ("simulation", tc.VAR_OPTION): option_call,
}
SPECIAL_ARGUMENTS: Mapping[str, Callable[[ValueReader], Sequence[TraciValue]]] = {
    "adaptTraveltime": travel_time_arguments, "setProgramLogic": program_arguments, "highlight": lambda _: [],
}


def subscribed_value(domain: str, get: Get, name: str, arguments: Sequence[TraciValue]) -> bytes:
    """The value of a variable that is subscribed to, with the mark of its type; arguments: behind the name."""
    objects = () if domain == "simulation" or get.call in WITHOUT_OBJECT else (name,)
    return ENCODERS[get.gives](call_of(domain, get.call)(*objects, *arguments))
