"""The bytes of TraCI's protocol: values by the letters of their types, commands and states.

Letters: i, d whole number and number; b, B byte with and without sign; s text; l texts; o point; O point and height;
p line of points; c colour; r place on a lane (edge, metres, index); g point in degrees; t beginning of a compound, of
so many parts; u byte without the mark of a type. Others, by whole words, are compounds of values."""
import struct
from collections.abc import Callable, Iterable, Sequence
from functools import lru_cache
from typing import Any

from streetsim.traci import constants as tc

LEAST_MESSAGE, MOST_MESSAGE = 6, 1 << 24  # bytes of a message that are taken, with its length
MOST_COMMANDS, MOST_PARTS = 1 << 16, 1 << 16  # of a message; of the compounds of a command; at most
MOST_DEPTH = 8  # compounds within each other that are taken, at most
SHORT_COMMAND = 255  # bytes of a command whose length is one byte, at most
INT, DOUBLE, BYTE, UBYTE, POINT, SPACE, COLOUR = (
    struct.Struct(f"!{letters}") for letters in ("i", "d", "b", "B", "dd", "ddd", "4B")
)
TYPED_INT, TYPED_DOUBLE, TYPED_POINT, LONG_HEAD = (struct.Struct(f"!{one}") for one in ("Bi", "Bd", "Bdd", "BiB"))
PLACE_END = struct.Struct("!dB")
TYPES = {
    "i": tc.TYPE_INTEGER, "d": tc.TYPE_DOUBLE, "b": tc.TYPE_BYTE, "B": tc.TYPE_UBYTE, "s": tc.TYPE_STRING,
    "l": tc.TYPE_STRINGLIST, "f": tc.TYPE_DOUBLELIST, "o": tc.POSITION_2D, "O": tc.POSITION_3D, "p": tc.TYPE_POLYGON,
    "c": tc.TYPE_COLOR, "r": tc.POSITION_ROADMAP, "g": tc.POSITION_LON_LAT, "t": tc.TYPE_COMPOUND,
}
LETTERS = {number: letter for letter, number in TYPES.items()}
TraciValue = Any  # that bytes carry, of a type by its letters
Typed = tuple[str, TraciValue]  # the letter of its type, the value; of a compound the parts, each as this


class BadMessage(Exception):
    """Bytes that are no value, command or message of the protocol."""


class ValueReader:
    """Reads values from bytes, and nothing beyond their end: BadMessage there, and for what is no value."""

    def __init__(self, message: bytes, position: int, end: int) -> None:
        """position, end: of the bytes that are read."""
        self.message, self.position, self.end = message, position, end
        self.parts_left = MOST_PARTS

    def unpack(self, layout: struct.Struct) -> tuple[TraciValue, ...]:
        """The next values of a layout."""
        if self.position + layout.size > self.end:
            raise BadMessage("a command ends before its values do")
        values = layout.unpack_from(self.message, self.position)
        self.position += layout.size
        return values

    def count(self) -> int:
        """The next number of things, each of which takes at least a byte."""
        (count,) = self.unpack(INT)
        if not 0 <= count <= self.end - self.position:
            raise BadMessage(f"{count:,} are announced, where {self.end - self.position:,} bytes are left")
        return int(count)

    def text(self) -> str:
        """The next text."""
        size = self.count()
        self.position += size
        return self.message[self.position - size : self.position].decode("latin1")

    def byte(self) -> int:
        """The next byte without sign."""
        return int(self.unpack(UBYTE)[0])

    def typed(self, depth: int = 0) -> Typed:
        """The next value by the mark of its type; depth: the compounds around it."""
        letter = LETTERS.get(number := self.byte(), "")
        if letter == "t":
            return "t", [self.typed(depth + 1) for _ in range(self.parts(depth))]
        if not letter:
            raise BadMessage(f"{number:#x} is no type of a value")
        return letter, self.read_value(letter)

    def parts(self, depth: int) -> int:
        """How many parts the next compound has, which is within so many others."""
        if depth >= MOST_DEPTH:
            raise BadMessage(f"more than {MOST_DEPTH} compounds within each other")
        count = self.count()
        self.parts_left -= count
        if self.parts_left < 0:
            raise BadMessage(f"compounds of more than {MOST_PARTS:,} parts")
        return count

    def read_value(self, letter: str) -> TraciValue:
        """The next value of a type by its letter, behind the mark."""
        if letter == "s":
            return self.text()
        if letter == "l":
            return [self.text() for _ in range(self.count())]
        if letter == "f":
            return [self.unpack(DOUBLE)[0] for _ in range(self.count())]
        if letter == "r":
            return self.text(), *self.unpack(PLACE_END)
        if letter == "p":
            return [self.unpack(POINT) for _ in range(self.byte() or self.count())]
        layout = LAYOUTS[letter]
        values = self.unpack(layout)
        return values[0] if len(values) == 1 else values

    def typed_values(self, letters: str) -> list[TraciValue]:
        """The next values, of types by their letters; BadMessage where others come."""
        read_values = []
        for letter in letters:
            if letter == "u":
                read_values.append(self.byte())
                continue
            if (number := self.byte()) != TYPES[letter]:
                raise BadMessage(f"a value has the type {number:#x}, where {TYPES[letter]:#x} is awaited")
            if letter == "t":
                self.count()
            else:
                read_values.append(self.read_value(letter))
        return read_values


LAYOUTS = {"i": INT, "d": DOUBLE, "b": BYTE, "B": UBYTE, "o": POINT, "O": SPACE, "c": COLOUR, "g": POINT}


def text(value: str) -> bytes:
    """A text, without the mark of its type; what Latin-1 does not have is "?"."""
    data = value.encode("latin1", "replace")
    return INT.pack(len(data)) + data


def integer(value: int) -> bytes:
    """A whole number."""
    return TYPED_INT.pack(tc.TYPE_INTEGER, value)


def double(value: float) -> bytes:
    """A number."""
    return TYPED_DOUBLE.pack(tc.TYPE_DOUBLE, value)


def ubyte(value: int) -> bytes:
    """A byte without sign."""
    return bytes((tc.TYPE_UBYTE, int(value)))


def string(value: str) -> bytes:
    """A text."""
    return bytes((tc.TYPE_STRING,)) + text(value)


known_text = lru_cache(1 << 16)(text)


def strings(values: Iterable[str]) -> bytes:
    """Texts."""
    parts = [known_text(value) for value in values]
    return TYPED_INT.pack(tc.TYPE_STRINGLIST, len(parts)) + b"".join(parts)


def point(value: Sequence[float]) -> bytes:
    """A point (x, y)."""
    return TYPED_POINT.pack(tc.POSITION_2D, *value[:2])


def line(values: Sequence[Sequence[float]]) -> bytes:
    """A line of points."""
    size = len(values)
    is_short = 0 < size <= SHORT_COMMAND
    head = bytes((tc.TYPE_POLYGON, size)) if is_short else struct.pack("!BBi", tc.TYPE_POLYGON, 0, size)
    return head + b"".join(POINT.pack(*point_xy[:2]) for point_xy in values)


def road_position(value: tuple[str, float, int]) -> bytes:
    """A place on a lane: (edge, metres from its begin, index of the lane)."""
    return bytes((tc.POSITION_ROADMAP,)) + text(value[0]) + PLACE_END.pack(*value[1:])


def colour(value: Sequence[int]) -> bytes:
    """A colour (red, green, blue, opacity; 0 to 255)."""
    return bytes((tc.TYPE_COLOR, *value))


def compound(count: int, *parts: bytes) -> bytes:
    """A compound that has so many parts."""
    return TYPED_INT.pack(tc.TYPE_COMPOUND, count) + b"".join(parts)


def counted_compound(count: int, parts_of_item: int, parts: Iterable[bytes]) -> bytes:
    """A compound of a number of things and, of each, so many parts."""
    return compound(1 + parts_of_item * count, integer(count), *parts)


def neighbour(value: tuple[str, float] | None) -> bytes:
    """(vehicle, metres) before or behind another one; None: nobody."""
    name, metres = value or ("", -1.0)
    return compound(2, string(name), double(metres))


def lights_ahead(values: Sequence[tuple[str, int, float, str]]) -> bytes:
    """What vehicle.getNextTLS gives."""
    parts = (string(name) + integer(index) + double(far) + ubyte(ord(state)) for name, index, far, state in values)
    return counted_compound(len(values), 4, parts)


def stops(values: Sequence[TraciValue]) -> bytes:
    """What vehicle.getStops gives."""
    return counted_compound(len(values), 16, map(stop, values))


def stop_place(stop_data: TraciValue) -> bytes:
    """The first four parts of a stop: its lane, end, stopping place and flags."""
    end = double(stop_data.endPos)
    return string(stop_data.lane) + end + string(stop_data.stoppingPlaceID) + integer(stop_data.stopFlags)


def stop(stop_data: TraciValue) -> bytes:
    """The sixteen parts of a stop; of what is not told SUMO's value for "none"."""
    times = map(double, (stop_data.duration, stop_data.until, stop_data.startPos, *3 * (tc.INVALID_DOUBLE_VALUE,)))
    return stop_place(stop_data) + b"".join(times) + 5 * string("") + double(0.0)


def stops_shortly(values: Sequence[TraciValue]) -> bytes:
    """As `stops`, of each the six parts that vehicle.getNextStops gives."""
    parts = (
        stop_place(stop_data) + double(stop_data.duration) + double(stop_data.until) for stop_data in values
    )
    return counted_compound(len(values), 6, parts)


def turns(values: Sequence[Sequence[TraciValue]]) -> bytes:
    """What lane.getLinks gives."""
    return counted_compound(len(values), 8, map(turn, values))


def turn(connection: Sequence[TraciValue]) -> bytes:
    """The eight parts of a connection of a lane."""
    lane, has_priority, green, foes, via, state, direction, metres = connection
    marks = ubyte(has_priority) + ubyte(green) + ubyte(foes)
    return string(lane) + string(via) + marks + string(state) + string(direction) + double(metres)


def signals(values: Sequence[Sequence[tuple[str, str, str]]]) -> bytes:
    """What trafficlight.getControlledLinks gives."""
    by_signal = (integer(len(connections)) + b"".join(map(strings, connections)) for connections in values)
    return compound(1 + len(values) + sum(map(len, values)), integer(len(values)), *by_signal)


def logics(values: Sequence[TraciValue]) -> bytes:
    """What trafficlight.getAllProgramLogics gives."""
    return compound(len(values), *map(logic, values))


def logic(program: TraciValue) -> bytes:
    """A program of a light."""
    phases = compound(len(program.phases), *map(phase, program.phases))
    parameters = compound(len(program.subParameter), *map(strings, program.subParameter.items()))
    head = string(program.programID) + integer(program.type) + integer(program.currentPhaseIndex)
    return compound(5, head, phases, parameters)


def phase(phase_data: TraciValue) -> bytes:
    """A phase of a program."""
    bounds = double(phase_data.minDur) + double(phase_data.maxDur)
    shown = double(phase_data.duration) + string(phase_data.state) + bounds
    return compound(6, shown, compound(len(phase_data.next), *map(integer, phase_data.next)), string(phase_data.name))


def stage(stage_data: TraciValue) -> bytes:
    """What simulation.findRoute gives."""
    texts = map(string, (stage_data.vType, stage_data.line, stage_data.destStop))
    names = integer(stage_data.type) + b"".join(texts) + strings(stage_data.edges)
    costs = map(double, (stage_data.travelTime, stage_data.cost, stage_data.length))
    figures = b"".join(costs) + string(stage_data.intended)
    positions = b"".join(map(double, (stage_data.depart, stage_data.departPos, stage_data.arrivalPos)))
    return compound(13, names, figures, positions, string(stage_data.description))


def pair(value: tuple[str, str]) -> bytes:
    """(key, text) of a parameter."""
    return compound(2, *map(string, value))


def nothing_counted(_: object) -> bytes:
    """A compound of no things."""
    return counted_compound(0, 0, ())


ENCODERS: dict[str, Callable[[TraciValue], bytes]] = {
    "i": integer, "d": double, "B": ubyte, "s": string, "l": strings, "o": point, "p": line, "c": colour,
    "r": road_position, "neighbour": neighbour, "lights": lights_ahead, "stops": stops, "next stops": stops_shortly,
    "turns": turns, "signals": signals, "logics": logics, "stage": stage, "pair": pair, "none": nothing_counted,
    "no parts": lambda _: compound(0),
}


def subscription_answer(code: int, body: bytes) -> bytes:
    """An answer to a subscription, whose length is a whole number however short it is."""
    return LONG_HEAD.pack(0, len(body) + 6, code) + body


def command(code: int, body: bytes) -> bytes:
    """A command, or the answer to one, with its length before it."""
    size = len(body) + 2
    return bytes((size, code)) + body if size <= SHORT_COMMAND else LONG_HEAD.pack(0, size + 4, code) + body


def state_of(code: int, result: int = tc.RTYPE_OK, why: str = "") -> bytes:
    """The state of a command: RTYPE_OK, RTYPE_NOTIMPLEMENTED or RTYPE_ERR, and why."""
    return command(code, bytes((result,)) + text(why))


def commands_in_message(message: bytes) -> list[tuple[int, int]]:
    """The first byte, from its code on, and the end of each command of a message, the last one first. BadMessage where
    their lengths are not its own."""
    commands, position = list[tuple[int, int]](), 0
    while position < len(message):
        size, head = message[position], 1
        if not size:
            if position + 1 + INT.size > len(message):
                raise BadMessage("a message ends in the length of a command")
            (size,), head = INT.unpack_from(message, position + 1), 1 + INT.size
        if size <= head or position + size > len(message):
            raise BadMessage(f"a command of {size:,} bytes, where {len(message) - position:,} are left")
        if len(commands) == MOST_COMMANDS:
            raise BadMessage(f"a message of more than {MOST_COMMANDS:,} commands")
        commands.append((position + head, position + size))
        position += size
    return commands[::-1]
