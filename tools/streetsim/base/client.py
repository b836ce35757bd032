"""The Python client of the program streetsim: starts it, sends commands as lines and gives typed replies.
streetsim.client is the same for users; the kernel sends its commands by it."""
import fcntl
import json
import os
import subprocess
from collections.abc import Callable, Iterable, Iterator, Sequence
from os import PathLike, fspath
from typing import Any, NamedTuple

from streetsim.base import limits
from streetsim.base.files import Fault
from streetsim.base.process import Process, ProgramEnded
from streetsim.base.program import find_program

Fields = dict[str, Any]  # of an object of JSON
Command = Fields | str | bytes  # a command, or its line
Numbers = Sequence[Sequence[int]]
Entries = tuple[tuple[int, ...], ...]

CHUNK = 60_000  # bytes: fits in an empty pipe, so the two sides never wait for each other
ENCODER = json.JSONEncoder(separators=(",", ":"))  # made once: json.dumps makes one a call
DECODER = json.JSONDecoder()
MOST_AT_ONCE = 4096  # bytes that are read of a reply at once; most have fewer
COUNT = b'{"cmd":"count"}\n'  # the lines of what is asked most; %d is put in for an int alone
ADVANCE = b'{"cmd":"advance","steps":%d}\n'
VEHICLE = b'{"cmd":"vehicle","car":%d}\n'
LANE = b'{"cmd":"lane","link":%d,"lane":%d}\n'
READ = b'{"cmd":"read","meter":%d}\n'


class Refused(Exception):
    """A command that was refused; it changed nothing. Each refusal is a class of its own below this one."""

    number = 0

    def __init__(self, at: int | None = None, part: str | None = None) -> None:
        """at: the position of the fault, from 0, in a list; part: of a network, which list that is (nodes, links,
        turns, or values: zone, dawdle, change, start); none where it has no position."""
        self.at, self.part = at, part
        place = f" at {at}" if part is None else f" at {at} of {part}"
        super().__init__(f"{self.number} {type(self).__name__}{'' if at is None else place}")

    def __eq__(self, other: object) -> bool:
        """Whether the other one is of the same class with the same position."""
        return (
            isinstance(other, Refused) and type(self) is type(other) and (self.at, self.part) == (other.at, other.part)
        )

    __hash__ = Exception.__hash__


def refusal(number: int, name: str, doc: str) -> type[Refused]:
    """Makes the class of a refusal: its number in a reply, its name there, and the doc that says what it means."""
    return type(name, (Refused,), {"number": number, "__doc__": doc, "__module__": __name__})


NotLoaded = refusal(1, "NotLoaded", "No network is loaded.")
AlreadyLoaded = refusal(2, "AlreadyLoaded", "A network is loaded.")
BadNetwork = refusal(3, "BadNetwork", "The network has a fault, at `at` of `part`.")
NoNode = refusal(4, "NoNode", "No node has this identifier.")
NoLink = refusal(5, "NoLink", "No link has this identifier.")
NoLane = refusal(6, "NoLane", "The link has no such lane.")
BadRange = refusal(7, "BadRange", "A number is out of its range.")
BadPlan = refusal(8, "BadPlan", "The plan has a fault, at `at`.")
BadSignal = refusal(9, "BadSignal", "The signal plan has a fault, at `at`.")
NoVehicle = refusal(10, "NoVehicle", "No vehicle has this number.")
Gone = refusal(11, "Gone", "The vehicle has ended.")
NoMeter = refusal(12, "NoMeter", "No detector has this number.")
TooMany = refusal(13, "TooMany", "As many as there may be were admitted or placed.")
BadCount = refusal(14, "BadCount", "Too many steps, or a period out of its range.")
ClockEnd = refusal(15, "ClockEnd", "The steps lead past the greatest clock.")
NotJson = refusal(20, "NotJson", "The line is not JSON.")
BadCommand = refusal(21, "BadCommand", "The value is no command.")
LineTooLong = refusal(22, "LineTooLong", "The line is too long.")
Full = refusal(23, "Full", "The run has no calls left.")
REFUSALS = {kind.number: kind for kind in Refused.__subclasses__()}


class Starved(Exception):
    """The program had too little memory: the command was not done and may be sent again."""

    def __eq__(self, other: object) -> bool:
        """Whether the other one is of this class, as all are equal, so that a list of replies can be compared."""
        return type(self) is type(other)

    __hash__ = Exception.__hash__


class NoReply(Exception):
    """What the program wrote is no reply of streetsim."""


class Loaded(NamedTuple):
    """How many links, nodes and turns were loaded, the reply to load."""

    links: int
    nodes: int
    turns: int


class Short(NamedTuple):
    """The reply to an advance that made only `short` of its steps; clock: after them."""

    clock: int
    short: int


class Vehicle(NamedTuple):
    """Where a vehicle is: state is waiting (to enter), cell, buffer, arrived or taken (out), and tells which of the
    fields below are given; the others keep their defaults."""

    car: int  # its number, from 0 by the order of entering
    state: str
    link: int | None = None
    lane: int | None = None
    cell: int | None = None
    speed: int | None = None  # cells a step
    plan: tuple[int, ...] = ()  # what remains, the present link included
    depart: int | None = None  # clock at which one that waits wished to enter
    ready: int | None = None  # clock from which one in a buffer may go on
    size: int = 1  # cells
    step: int | None = None  # of arriving, or the clock at taking out

    @property
    def place(self) -> tuple[int, int]:
        """The (link, lane) of one on cells or in a buffer; AssertionError for others."""
        assert self.link is not None and self.lane is not None
        return self.link, self.lane

    @property
    def arrival(self) -> int | None:
        """The clock at which it arrived; None where it has not, or was taken out."""
        return self.step + 1 if self.state == "arrived" and self.step is not None else None


class Lane(NamedTuple):
    """What is on one lane, in its buffer and waits to enter it, and its closed cells, the reply to lane."""

    cells: Entries  # of (car, cell of its front, speed in cells a step[, size in cells above 1]); greatest cell first
    buffer: Entries  # of (car, speed, clock from which it may go on), from the front
    waiting: Entries  # of (car, clock from which it wishes to enter)
    closed: tuple[tuple[int, int], ...]  # of (first, last) cell, both included


class Row(NamedTuple):
    """What a detector noted from `start` on, in `steps` steps."""

    start: int  # clock
    steps: int
    passes: int  # vehicles that passed
    speeds: int  # their sum, cells a step
    occupied: int  # steps with a vehicle on the cell

    @property
    def flow(self) -> float:
        """Vehicles a step; 0 where there is no step yet."""
        return self.passes / self.steps if self.steps else 0.0

    @property
    def density(self) -> float:
        """The share, 0 to 1, of steps with a vehicle on the cell: vehicles a cell; 0 where there is no step yet."""
        return self.occupied / self.steps if self.steps else 0.0

    @property
    def mean_speed(self) -> float | None:
        """Cells a step, over the vehicles that passed; none if none did."""
        return self.speeds / self.passes if self.passes else None

    def kmh(self, cell_metres: float = limits.CELL_METRES) -> str:
        """The mean speed in km/h, with one decimal, as a text; empty where nobody passed. cell_metres: of a cell."""
        return "" if self.mean_speed is None else f"{self.mean_speed * (3.6 * cell_metres):.1f}"


class Rows(NamedTuple):
    """The rows of a detector, the reply to read."""

    now: Row  # the running period, with the steps it has so far
    rows: tuple[Row, ...]  # the last full periods, at most 32, the oldest first


class Census(NamedTuple):
    """How many vehicles are where at `clock`, the reply to count; admitted: all of `enter`, wherever they are."""

    admitted: int
    arrived: int
    buffers: int  # in the buffers behind stop lines
    cells: int  # on cells of lanes
    clock: int
    taken: int  # taken out
    waiting: int  # to enter


Reply = Refused | Starved | Loaded | Short | Vehicle | Lane | Rows | Census | int


def refusal_of(reply: Fields) -> Refused:
    """A refusal, as a value."""
    return REFUSALS[reply["error"]](reply.get("at"), reply.get("part"))


def vehicle_of(reply: Fields) -> Vehicle | int:
    """Where a vehicle is; or its number alone, the reply to enter."""
    if len(reply) == 1:
        return number_of(reply)
    if "plan" in reply:
        reply["plan"] = tuple(reply["plan"])
    return Vehicle(**reply)


def lane_of(reply: Fields) -> Lane:
    """What is on a lane."""
    closed = tuple((first, last) for first, last in reply["closed"])
    return Lane(entries(reply["cells"]), entries(reply["buffer"]), entries(reply["waiting"]), closed)


def rows_of(reply: Fields) -> Rows:
    """The rows of a detector."""
    now, rows = Row(*reply["now"]), reply["rows"]
    period = now.start - rows[-1][0] if rows else 0
    return Rows(now, tuple(Row(start, period, *rest) for start, *rest in rows))


def number_of(reply: Fields) -> int:
    """The number that is all of a reply."""
    [number] = reply.values()
    return number


def clock_of(reply: Fields) -> Short | int:
    """The clock after an advance, or after a part of it."""
    return Short(**reply) if "short" in reply else number_of(reply)


READERS: dict[str, Callable[[Fields], Reply]] = {
    **dict.fromkeys(("error", "at", "part"), refusal_of),
    "starved": lambda reply: Starved(),
    **dict.fromkeys(("car", "state"), vehicle_of),
    "admitted": lambda reply: Census(**reply),
    **dict.fromkeys(("buffer", "cells"), lane_of),
    "now": rows_of,
    "links": lambda reply: Loaded(**reply),
    **dict.fromkeys(("clock", "short"), clock_of),
    **dict.fromkeys(("cycle", "closed", "taken", "meter"), number_of),
}  # by the first field of a reply: the program writes the fields in the order of their names


def entries(lists: Numbers) -> Entries:
    """Lists of numbers as tuples."""
    return tuple(map(tuple, lists))


def reply_of(reply: Fields) -> Reply:
    """The typed reply of a JSON object; a refusal or Starved is given as a value. Plain numbers answer enter, advance,
    signal, close, reopen, takeout and meter. KeyError, TypeError and the like where it is no reply."""
    return READERS[next(iter(reply))](reply)


def plain_number(line: bytes) -> int:
    """The number of a reply that has one alone."""
    return int(line.translate(None, NO_DIGITS))


def plain_census(line: bytes) -> Census:
    """The census of a line with all its fields in their order."""
    return tuple.__new__(Census, map(int, line.translate(None, NO_NUMBERS).split(b",")))


def plain_cell(line: bytes) -> Vehicle:
    """The place of a vehicle of one cell that stands in one."""
    car, cell, lane, link, *plan, speed = map(int, line.translate(None, NO_NUMBERS)[:-1].split(b","))
    return tuple.__new__(Vehicle, (car, "cell", link, lane, cell, speed, tuple(plan), None, None, 1, None))


NO_NUMBERS = bytes(byte for byte in range(256) if byte not in b"0123456789,")
NO_DIGITS = NO_NUMBERS + b","
FORMS: dict[bytes, Callable[[bytes], Reply]] = {
    **{b'{"%s":}\n' % name: plain_number for name in (b"clock", b"car", b"cycle", b"closed", b"taken", b"meter")},
    b"{%s}\n" % b"".join(b'"%s":' % name.encode() for name in Census._fields): plain_census,
    b'{"car":"cell":"lane":"link":"plan":[]"speed":"state":"cell"}\n': plain_cell,
}  # what is left of the replies that come most without their numbers and commas: such lines are read without JSON


def read_reply(line: bytes) -> Reply:
    """The typed reply of a line, as `reply_of` gives it; NoReply where it is none."""
    try:
        if plain := FORMS.get(line.translate(None, b"0123456789,")):
            return plain(line)
        text = line.decode()
        value, end = DECODER.raw_decode(text)
        if text[end:] not in ("\n", ""):
            raise ValueError(text)
        return reply_of(value)
    except (ValueError, TypeError, KeyError, AttributeError, StopIteration):
        raise NoReply(f"no reply of streetsim: {line[:80].decode(errors='replace').strip()}") from None


def line_of(command: Command) -> bytes:
    """The line of a command, with its end: of a dictionary, or of a line that is ready (with or without its end). A
    blank line would get no reply, and two lines two: ValueError for both."""
    if isinstance(command, dict):
        return ENCODER.encode(command).encode() + b"\n"
    line = (command.encode() if isinstance(command, str) else command).removesuffix(b"\n")
    if not line.strip(b" \t\r") or b"\n" in line:
        raise ValueError("a command is one line that is not blank")
    return line + b"\n"


def line_of_fields(cmd: str, **fields: object) -> bytes:
    """As `line_of`, of the command `cmd` with these fields; faster where each is an int."""
    for field in fields.values():
        if type(field) is not int:
            return line_of({"cmd": cmd, **fields})
    numbers = "".join([f',"{name}":{number}' for name, number in fields.items()])
    return f'{{"cmd":"{cmd}"{numbers}}}\n'.encode()


def vehicle_line(car: int) -> bytes:
    """The line that asks where a vehicle is."""
    return VEHICLE % car if type(car) is int else line_of_fields("vehicle", car=car)


def lane_line(link: int, lane: int) -> bytes:
    """The line that asks for a lane."""
    return LANE % (link, lane) if type(link) is type(lane) is int else line_of_fields("lane", link=link, lane=lane)


def granted(reply: Reply) -> Any:
    """A reply; raises it where it is a refusal or Starved."""
    if isinstance(reply, Exception):
        raise reply
    return reply


def help_of(program: str) -> str:
    """What a program (a path) prints on standard output for --help; empty where that is nothing."""
    words = [program, "--help"]
    return subprocess.run(words, stdin=subprocess.DEVNULL, capture_output=True, text=True, check=False).stdout


def words_of(program: str, calls: int = 0, keep: str | PathLike[str] | None = None) -> list[str]:
    """The words that start a program. keep: a file, in which its session is kept; else calls: how many calls it takes
    before it refuses them, 0 for no end (where --help, for which it is run once, has a word for that)."""
    if keep is not None:
        return [program, "--keep", fspath(keep)]
    if calls:
        return [program, "--calls", str(calls)]
    return [program, "--endless"] if "--endless" in help_of(program) else [program]


def check_kept(path: str | PathLike[str]) -> None:
    """Fault where a file is one whole value of JSON without a LF, and no command, as a map is: the program would take
    it for the begin of a line that a crash left, and empty it. What cannot be read is left to the program."""
    try:
        with open(path, "rb") as file:
            line = file.readline()
        value = {"cmd": ""} if line.endswith(b"\n") else json.loads(line)
    except (OSError, ValueError):
        return
    if not (isinstance(value, dict) and "cmd" in value):
        raise Fault(f"{fspath(path)}: not the file of a session")


class Commands:
    """What may be asked of a session, whoever carries its lines. Methods raise what was refused, or Starved; `batch`
    gives these as values."""

    def exchange(self, lines: Iterable[bytes]) -> Iterator[bytes]:
        """Sends lines, each with its end, and gives the replies as bytes, in order."""
        raise NotImplementedError

    def exchange_one(self, line: bytes) -> bytes:
        """Sends a line and gives the reply, each with its end."""
        raise NotImplementedError

    def batch(self, commands: Iterable[Command]) -> list[Reply]:
        """Sends commands, dictionaries or ready lines, and gives the typed reply to each, in order; refusals and
        Starved stand among them as values and do not end the batch. ValueError for a line that is blank or several
        (those before it may have been done), ProgramEnded where the program ends before it replied, NoReply where what
        it writes is no reply of streetsim."""
        return [read_reply(reply) for reply in self.exchange(map(line_of, commands))]

    def ask(self, cmd: str, **fields: Any) -> Any:
        """The typed reply to a command, by its name (cmd) and its fields; raises what was refused, or Starved."""
        return self.ask_line(line_of_fields(cmd, **fields))

    def ask_line(self, line: bytes) -> Any:
        """The typed reply to a line that is ready, with its end; raises what was refused, or Starved."""
        reply = read_reply(self.exchange_one(line))
        if isinstance(reply, Exception):
            raise reply
        return reply

    def load(
        self, nodes: Numbers, links: Numbers, turns: Numbers, zone: int = 0, dawdle: int = 0, change: int = 0,
        seed: int = 0, start: int = 0,
    ) -> Loaded:  # fmt: skip
        """Loads a network and begins its clock; rows as in docs/LINES.md: nodes [id, residence in steps, vehicles that
        each buffer holds], links [id, from, to, lanes, cells, limit in cells a step], turns [link, lane, next,
        next_lane]; zone: cells of turn zones; dawdle, change: chances, of 1,000; seed: of draws; start: clock."""
        network = {"nodes": nodes, "links": links, "turns": turns}
        return self.ask("load", **network, zone=zone, dawdle=dawdle, change=change, seed=seed, start=start)

    def signal(self, node: int, phases: Sequence[Sequence[Any]], offset: int = 0) -> int:
        """Sets a node's plan: phases of (steps, [(link, lane, next link), ..]) with who may go; offset: by how many
        steps the cycle is ahead of the clock, 0 to the cycle less 1. Gives the cycle, in steps."""
        return self.ask("signal", node=node, offset=offset, phases=phases)

    def enter(self, plan: Sequence[int], lane: int = 0, depart: int = 0, size: int = 1) -> int:
        """Adds a vehicle and gives its number, from 0. plan: its links, in order; lane: of the first of them; depart:
        the clock from which on it wishes to enter; size: cells that it takes, 1 to 4."""
        return self.ask("enter", plan=plan, lane=lane, depart=depart, **({} if size == 1 else {"size": size}))

    def advance(self, steps: int = 1) -> int:
        """Makes `steps` steps, 0 to 10,000, of a second, those that a short reply left too; gives the clock."""
        line = ADVANCE % steps if type(steps) is int else line_of_fields("advance", steps=steps)
        return self.advance_on(steps, read_reply(self.exchange_one(line)))

    def advance_on(self, steps: int, reply: Reply) -> int:
        """The clock after so many steps, of which the first reply is this; makes those that it left."""
        while isinstance(reply, Short):
            steps -= reply.short
            reply = read_reply(self.exchange_one(line_of_fields("advance", steps=steps)))
        return granted(reply)

    def close_lane(self, link: int, lane: int, first: int, last: int) -> int:
        """Closes the cells first to last, both included, of a lane; gives how many of its cells are closed now."""
        return self.ask("close", link=link, lane=lane, first=first, last=last)

    def reopen_lane(self, link: int, lane: int, first: int, last: int) -> int:
        """Opens the cells first to last, both included, of a lane; gives how many of its cells are still closed."""
        return self.ask("reopen", link=link, lane=lane, first=first, last=last)

    def takeout(self, car: int) -> int:
        """Takes a vehicle out wherever it is, for good; gives its number."""
        return self.ask("takeout", car=car)

    def meter(self, link: int, lane: int, cell: int, period: int) -> int:
        """Places a detector on a cell; period: steps of each of its rows, 1 to 100,000. Gives its number, from 0."""
        return self.ask("meter", link=link, lane=lane, cell=cell, period=period)

    def read(self, meter: int) -> Rows:
        """What a detector, by the number that `meter` gave, has noted."""
        return self.ask_line(READ % meter if type(meter) is int else line_of_fields("read", meter=meter))

    def vehicle(self, car: int) -> Vehicle:
        """Where a vehicle is, by the number that `enter` gave."""
        return self.ask_line(vehicle_line(car))

    def vehicles(self, cars: Iterable[int]) -> list[Vehicle]:
        """As `vehicle`, of many, in their order."""
        return [granted(read_reply(reply)) for reply in self.exchange(map(vehicle_line, cars))]

    def lane(self, link: int, lane: int) -> Lane:
        """What is on one lane, in its buffer and waits to enter it, and which of its cells are closed."""
        return self.ask_line(lane_line(link, lane))

    def lanes(self, places: Iterable[tuple[int, int]]) -> list[Lane]:
        """As `lane`, of many, each by its (link, lane), in their order."""
        return [granted(read_reply(reply)) for reply in self.exchange(lane_line(*place) for place in places)]

    def count(self) -> Census:
        """How many vehicles are where, at the present clock."""
        return self.ask_line(COUNT)


class Client(Commands, Process):
    """One run of the program, over pipes. All methods raise ProgramEnded where the program ends before it replied.

    The program is the one given, else the one that STREETSIM_PROGRAM names, else the one that is installed with the
    tools. It takes calls without an end, or, with `calls`, that number of them, and later ones are refused as Full.
    With `keep` the session is kept in that file and goes on where it was left there: what is loaded, and who is on the
    way; `calls` then has no effect.
    """

    def __init__(
        self, program: str | None = None, workers: int = 1, calls: int = 0, keep: str | PathLike[str] | None = None
    ) -> None:
        """Starts the program. program: a path or a command's name, else as the class tells; workers: threads, from 1;
        calls: how many it takes, 0 for no end; keep: a file of the session. Fault where there is no program, or the
        file is that of something else, as `check_kept` tells."""
        program = find_program(program)
        if keep is not None:
            check_kept(keep)
        words = words_of(program, calls, keep) + (["--workers", str(workers)] if workers != 1 else [])
        super().__init__(words, 1 << 16)
        self.sink, self.source = self.input.fileno(), self.output.fileno()
        self.chunk = min(CHUNK, fcntl.fcntl(self.sink, fcntl.F_GETPIPE_SZ) * 9 // 10)

    def exchange(self, lines: Iterable[bytes]) -> Iterator[bytes]:
        """Sends lines, each with its end, and gives the replies as bytes, in order; lines are sent only as replies are
        taken, in chunks that fit in the pipe; a longer line alone. ProgramEnded where the program ends before."""
        chunk: list[bytes] = []
        size = 0
        for line in lines:
            if size + len(line) > self.chunk and chunk:
                yield from self.send_chunk(chunk)
                chunk, size = [], 0
            chunk.append(line)
            size += len(line)
        if chunk:
            yield from self.send_chunk(chunk)

    def send_chunk(self, chunk: list[bytes]) -> list[bytes]:
        """Sends lines that fit in the pipe and gives the replies, each with its end; ProgramEnded where fewer come."""
        try:
            self.input.write(b"".join(chunk))
            self.input.flush()
            replies = [self.output.readline() for _ in chunk]
        except OSError:
            replies = [b""]
        if not replies[-1].endswith(b"\n"):
            raise ProgramEnded(*self.end())
        return replies

    def exchange_one(self, line: bytes) -> bytes:
        """Sends a line and gives the reply, each with its end; ProgramEnded where the program ends before. Past the
        buffers of the pipes, which are empty between two calls."""
        try:
            sent = os.write(self.sink, line)
            while sent < len(line):
                sent += os.write(self.sink, line[sent:])
            reply = os.read(self.source, MOST_AT_ONCE)
            while reply and not reply.endswith(b"\n"):
                part = os.read(self.source, CHUNK)
                reply = reply + part if part else b""
        except OSError:
            reply = b""
        if not reply:
            raise ProgramEnded(*self.end())
        return reply

    def end(self) -> tuple[int, str]:
        """As `Process.end`; the pipes are not used any more."""
        self.sink = self.source = -1
        return super().end()
