"""Run files: lines of commands, in order. A line may say with "at" at which clock it is sent (streetsim ignores that
field)."""
from __future__ import annotations

import json
from array import array
from collections.abc import Iterable, Iterator, Sequence
from dataclasses import dataclass, field, replace
from itertools import accumulate, chain, islice
from sys import intern
from typing import Any, overload

from streetsim.base import limits
from streetsim.base.arrays import Array
from streetsim.base.arrays import numpy as np
from streetsim.base.files import Fault, FilePath, open_text, reading
from streetsim.base.unpacking import LINE, lines_of, refuse_crowded
from streetsim.model.mapping import Map, read_map
from streetsim.model.sources import sum_of_lines

MARK = "works"  # a field of lines that a tool made of --close, where they are kept; the program ignores it
SPAN = ("link", "lane", "first", "last")
NEEDED_FIELDS = {"enter": ("depart",), "close": SPAN, "reopen": SPAN, "signal": ("node",)}  # whole numbers, by command
MAY_HAVE = ("at", "start", "dawdle")  # whole numbers too
ENTER = ("cmd", "plan", "lane", "depart")  # the fields of nearly all lines that enter vehicles; some have "size" too
Command = dict[str, Any]
AT_ONCE = 10_000  # lines of a file of the tools that are read together
TimedCommand = tuple[int, Command]  # the clock at which a command is sent


@dataclass(slots=True)
class Line:
    """A line of a run file, as text and as command."""

    number: int  # in the file, from 1; 0 or less: of no file, but made by the tools
    text: str
    command: Command


class Enters(Sequence[Line]):
    """The lines that enter vehicles, by the order of lines, kept as columns, as a day in a city has a million; each is
    made where it is asked for."""

    def __init__(self) -> None:
        """None is there."""
        self.departs, self.numbers, self.lanes = array("q"), array("i"), array("i")
        self.sizes = array("i")  # 0 where none is told
        self.links, self.plan_ends = array("i"), array("q", [0])  # the plans end to end
        self.texts, self.text_ends = bytearray(), array("q", [0])
        self.unusual_lines: dict[int, Line] = {}  # by place those of other fields

    def append(self, line: Line) -> None:
        """Adds a line. OverflowError, and nothing is added, where its numbers are larger than any that is right."""
        command, text = line.command, line.text.encode()
        lane, size = command.get("lane"), command.get("size", 0)
        is_usual = (*command,) in (ENTER, (*ENTER, "size")) and type(lane) is int and type(size) is int
        plan, depart = array("i", command["plan"]), array("q", [command["depart"]])
        lane_and_size = array("i", [lane, size] if is_usual else [0, 0])
        if not is_usual or (size < 1 and "size" in command):
            self.unusual_lines[len(self)] = line
        self.numbers.append(line.number)
        self.departs += depart
        self.lanes.append(lane_and_size[0])
        self.sizes.append(lane_and_size[1])
        self.links += plan
        self.plan_ends.append(len(self.links))
        self.texts += text
        self.text_ends.append(len(self.texts))

    def __len__(self) -> int:
        """How many there are."""
        return len(self.numbers)

    @overload
    def __getitem__(self, place: int) -> Line: ...
    @overload
    def __getitem__(self, place: slice) -> list[Line]: ...
    def __getitem__(self, place: int | slice) -> Line | list[Line]:
        """A line, or some."""
        if isinstance(place, slice):
            return [self.line(number) for number in range(*place.indices(len(self)))]
        return self.line(range(len(self))[place])

    def line(self, vehicle: int) -> Line:
        """The line of a vehicle, by its number."""
        if vehicle in self.unusual_lines:
            return self.unusual_lines[vehicle]
        text = self.texts[self.text_ends[vehicle] : self.text_ends[vehicle + 1]].decode()
        values = "enter", self.plan(vehicle).tolist(), self.lanes[vehicle], self.departs[vehicle]
        command: Command = dict(zip(ENTER, values, strict=True))
        if self.sizes[vehicle]:
            command["size"] = self.sizes[vehicle]
        return Line(self.numbers[vehicle], text, command)

    def plan(self, vehicle: int) -> array[int]:
        """The links of a vehicle, by its number."""
        return self.links[self.plan_ends[vehicle] : self.plan_ends[vehicle + 1]]


@dataclass(slots=True)
class Run:
    """A run as it is sent, by when each line goes."""

    path: FilePath
    load: Line
    first: list[Line] = field(default_factory=list)  # sent after the load, before the first step
    timed: list[tuple[int, Line]] = field(default_factory=list)  # by clock
    enters: Sequence[Line] = field(default_factory=list)  # vehicles, by the order of lines
    least_departs: Sequence[int] = field(default_factory=list)  # by enter: of it and those after it in the file

    def start(self) -> int:
        """The clock at its begin, which its load gives; 0 where it gives none."""
        return self.load.command.get("start", 0)

    def departs(self) -> Array:
        """By vehicle the clock at which it wishes to depart."""
        if isinstance(self.enters, Enters):
            return np.array(self.enters.departs, np.int64)
        return np.fromiter((line.command["depart"] for line in self.enters), np.int64, len(self.enters))

    def plans(self) -> Iterator[Sequence[int]]:
        """By vehicle its links."""
        if isinstance(self.enters, Enters):
            return map(self.enters.plan, range(len(self.enters)))
        return (line.command["plan"] for line in self.enters)

    def plan_columns(self) -> tuple[Array, Array]:
        """(the links of all vehicles, end to end; by vehicle how many are its own)."""
        if isinstance(self.enters, Enters):
            return np.array(self.enters.links, np.int32), np.diff(np.array(self.enters.plan_ends, np.int64))
        plans = [line.command["plan"] for line in self.enters]
        lengths = np.fromiter(map(len, plans), np.int64, len(plans))
        return np.fromiter(chain.from_iterable(plans), np.int32, int(lengths.sum())), lengths

    def signals(self) -> list[TimedCommand]:
        """The signal plans of the run, (clock at which it is sent, command), in the order of sending."""
        lines = [*((self.start(), line) for line in self.first), *self.timed]
        return [(clock, line.command) for clock, line in lines if line.command["cmd"] == "signal"]


def read_run(path: FilePath) -> Run:
    """The run of a file; Fault where it cannot be read, or as of `run_of_texts`."""
    with reading(path), open_text(path) as file:
        return run_of_texts(path, lines_of(file, LINE))


def read_own_run(path: FilePath) -> Run:
    """The run of a file that the tools have just written, which is not looked at further. Fault where it cannot be
    read."""
    with reading(path), open_text(path) as file:
        return run_of(path, own_lines(file.read().splitlines()))


def own_lines(texts: Sequence[str]) -> Iterator[Line]:
    """The lines of a file that the tools have just written."""
    for begin in range(0, len(texts), AT_ONCE):
        part = texts[begin : begin + AT_ONCE]
        yield from map(Line, range(begin + 1, begin + len(part) + 1), part, json.loads(f"[{','.join(part)}]"))


def read_with_map(run_path: FilePath, map_path: FilePath) -> tuple[Run, Map]:
    """(run, map of its names); Fault where a file is none of its kind, a line closes or opens a link that is not there,
    or the map is of another run: by links, by naming more vehicles, or by where they begin and end, if it has that."""
    run, mapping = read_run(run_path), read_map(map_path)
    if run.load.command.get("links") != mapping.load_links():
        raise Fault(f"{map_path}: not the map of {run_path}, whose links are other ones")
    if (cars := len(mapping.cars)) > (count := len(run.enters)):
        raise Fault(f"{map_path}: not the map of {run_path}, which has {count:,} vehicles and not {cars:,}")
    known = mapping.kinds.get("ends")
    if known is not None and known != sum_of_lines(ends_of(run, mapping)):
        raise Fault(f"{map_path}: not the map of {run_path}, whose vehicles begin or end on other edges")
    for line in (*run.first, *(line for _, line in run.timed)):
        if line.command["cmd"] in ("close", "reopen") and not 0 <= line.command["link"] < len(mapping.links):
            raise Fault(f"{run_path}: line {line.number} ({line.command['cmd']}): no link {line.command['link']}")
    return run, mapping


def ends_of(run: Run, mapping: Map) -> Iterator[str]:
    """For each vehicle that the map names a text, by which a map knows its run: the edges on which it begins and ends,
    with a blank between. Lanes, ways and departures may be changed by hand."""
    edges = {number: link.edge for number, link in enumerate(mapping.links)}
    for plan in islice(run.plans(), len(mapping.cars)):
        yield f"{edges.get(plan[0], '')} {edges.get(plan[-1], '')}"


def run_of_texts(path: FilePath, texts: Iterable[str]) -> Run:
    """The run of lines as texts, without blank ones. Fault where the first is no load, or `line_of` raises one."""
    lines = (line_of(path, number, text) for number, text in enumerate(texts, 1) if text.strip())
    first = next(lines, None)
    if first is None or first.command["cmd"] != "load":
        raise Fault(f"{path}: the first line must be a load")
    return run_of(path, chain([first], lines))


def run_of(path: FilePath, lines: Iterable[Line]) -> Run:
    """The run of some lines, of which the first is the load; others may stand in any order. An "at" of an enter has no
    effect. path: of the file, kept for faults."""
    left = iter(lines)
    run = Run(path, next(left))
    enters: Enters | list[Line] = Enters()
    for line in left:
        if line.command["cmd"] == "enter":
            try:
                enters.append(line)
            except OverflowError:  # the program refuses it
                enters = [*enters, line]
        elif "at" in line.command:
            run.timed.append((line.command["at"], line if line.number > 0 else without_mark(line)))
        else:
            run.first.append(line)
    run.timed.sort(key=lambda pair: pair[0])
    run.enters, run.least_departs = enters, least_departs_of(enters)
    return run


def least_departs_of(enters: Sequence[Line]) -> Sequence[int]:
    """By enter the least departure of it and of those after it."""
    if isinstance(enters, Enters):
        return np.minimum.accumulate(np.array(enters.departs, np.int64)[::-1])[::-1]
    least: Iterator[int] = accumulate((line.command["depart"] for line in reversed(enters)), min)
    return [*least][::-1]


def with_load(run: Run, **values: Any) -> Run:
    """The run with other values of its load (seed=7, dawdle=..); the given one stays as it is."""
    command = {**run.load.command, **values}
    return replace(run, load=replace(run.load, command=command, text=json.dumps(command, separators=(",", ":"))))


def texts_of(run: Run) -> Iterator[str]:
    """The lines of a run with its works, which `run_of_texts` reads as this run; those of one clock in their order."""
    yield run.load.text
    yield from (line.text for line in run.first)
    yield from (timed_text(clock, line) for clock, line in run.timed)
    yield from (line.text for line in run.enters)


def without_mark(line: Line) -> Line:
    """A kept line of works as the tool had made it, without its clock and mark."""
    command = {name: value for name, value in line.command.items() if name not in ("at", MARK)}
    return Line(line.number, json.dumps(command), command)


def timed_text(clock: int, line: Line) -> str:
    """The text of a timed line: as it stands in its file, or, of no file as works, with its clock and a mark."""
    if line.number > 0:
        return line.text
    return json.dumps({**line.command, "at": clock, MARK: True}, separators=(",", ":"))


def line_of(path: FilePath, number: int, text: str) -> Line:
    """The line of a text; number: in the file, from 1; a line that is marked as one of works gets 0. Fault where it
    names no command, lacks whole numbers that the tools read of it, or is one that streetsim-run sends itself."""
    try:
        refuse_crowded(text)
        command = {intern(name): value for name, value in json.loads(text).items()}  # one object for each name
        kind = command["cmd"]
        if kind in ("advance", "takeout", "meter", "read"):
            raise ValueError(f"{kind} is sent by streetsim-run itself")
        wrong = [name for name in NEEDED_FIELDS.get(kind, ()) if type(command[name]) is not int]
        wrong += [name for name in MAY_HAVE if type(command.get(name, 0)) is not int]
        if wrong:
            raise ValueError(f"{wrong[0]} is no whole number")
        if kind == "enter":
            if {*map(type, command["plan"])} != {int}:
                raise ValueError("plan is no list of whole numbers")
    except (ValueError, KeyError, TypeError, AttributeError, RecursionError) as fault:
        raise Fault(f"{path}: line {number} is no command of a run: {fault}") from None
    return Line(0 if command.get(MARK) else number, text.strip(), command)
