"""Programs of lights by the time of day, as in SUMO's WAUT: read, and as lines of a run with "at". All that reads
raises Fault, with file and element, where an attribute that it needs is absent, or one cannot be read."""
from collections.abc import Iterable, Iterator, Mapping
from dataclasses import replace
from itertools import count, islice, pairwise, takewhile
from math import floor
from xml.etree.ElementTree import Element

from streetsim.base.files import Fault, FilePath, at_least_zero, attribute, element_told, optional, seconds
from streetsim.base.report import Report, first_few
from streetsim.model.runs import Command
from streetsim.sumo.net import OFF_PROGRAM, LightProgram, SumoNet, Waut
from streetsim.sumo.network import Network
from streetsim.sumo.signals import SECONDS_AFTER, light_of, lit_node, signal_lines, turns_at, warn_of_kind

AT_ONCE = "", "JustSwitch"  # procedures by which a light changes at once
MOST_SWITCHES = 10_000  # of a WAUT in a run; one each 17 s of a day

Day = list[tuple[int, str]]  # the clocks from which on a light shows a program; the first is that of the run's begin


def read_waut(path: FilePath, element: Element, net: SumoNet) -> None:
    """Keeps a <WAUT> in the network (wauts). Its clocks are refTime and time together, rounded down, within its period,
    as in SUMO; of two switches at one clock the first counts. Fault where another one has its name."""
    name = attribute(path, element, "id")
    if name in net.wauts:
        raise Fault(f"{element_told(path, element)}: a second WAUT of this name")
    begin, period = (optional(path, element, key, at_least_zero(seconds), 0.0) for key in ("refTime", "period"))
    switches: dict[int, str] = {}
    for one in element.findall("wautSwitch"):
        clock = begin + attribute(path, one, "time", seconds)
        switches.setdefault(floor(clock % period if period else clock), attribute(path, one, "to"))
    net.wauts[name] = Waut(attribute(path, element, "startProg"), sorted(switches.items()), floor(period))


def read_waut_junction(path: FilePath, element: Element, net: SumoNet, report: Report) -> None:
    """Adds a light to its WAUT in the network. Fault where the network has not this WAUT, read before, or no program of
    the light. A procedure other than at once is reported."""
    name, light = (attribute(path, element, key) for key in ("wautID", "junctionID"))
    if name not in net.wauts:
        raise Fault(f"{element_told(path, element)}: there is no WAUT {name!r} before it")
    if light not in net.programs:
        raise Fault(f"{element_told(path, element)}: the network has no light {light!r}")
    procedure = element.get("procedure", "")
    if procedure not in AT_ONCE:
        report.warn(f"lights of WAUT {name!r} change at once, not by procedure {procedure}", [light])
    net.wauts[name].lights.append(light)


def days_of(net: SumoNet, begin: int, last_clock: int, report: Report) -> dict[str, Day]:
    """By light with a WAUT the programs that it shows from the clock begin to last_clock, both included, [(clock,
    program's name)]; in the network the first then becomes the light's program, those that follow stand in changing,
    all but the first in earlier. Of several WAUTs of a light the last counts. Lights whose WAUT has them blink (off)
    keep their program, and are reported. Fault where a light has not a program that its WAUT names, or day_of raises
    one."""
    days: dict[str, Day] = {}
    for name, waut in net.wauts.items():
        for light in waut.lights:
            names = {waut.start, *(program for _, program in waut.switches)}
            if OFF_PROGRAM in names:
                report.warn(
                    f"WAUT {name!r} does nothing here, as it switches lights off: {first_few(waut.lights)}", [light]
                )
                continue
            programs = {program.name: program for program in net.programs_of(light)}
            if missing := sorted(names - programs.keys()):
                raise Fault(f"WAUT {name!r}: light {light!r} has no program {missing[0]!r}")
            days[light] = day_of(name, waut, begin, last_clock)
            first = programs[days[light][0][1]]
            net.programs[light] = first
            net.earlier[light] = [program for program in programs.values() if program is not first]
            net.changing[light] = [programs[to] for to in {to: 0 for _, to in days[light]} if programs[to] is not first]
    return days


def day_of(name: str, waut: Waut, begin: int, last_clock: int) -> Day:
    """The programs of a WAUT (name) from the clock begin to last_clock, both included, [(clock, program's name)], the
    first at begin; those that follow an equal one are left out. Fault where it switches more than MOST_SWITCHES
    times."""
    switches = list(islice(takewhile(lambda one: one[0] <= last_clock, switches_from(waut, begin)), MOST_SWITCHES + 1))
    if len(switches) > MOST_SWITCHES:
        until = f"until {last_clock:,} s, a day after the last departure"
        raise Fault(f"WAUT {name!r}: more than {MOST_SWITCHES:,} switches {until}")
    day: Day = [(begin, waut.start)]
    for clock, program in switches:
        if clock <= begin:
            day = [(begin, program)]
        elif program != day[-1][1]:
            day.append((clock, program))
    return day


def switches_from(waut: Waut, begin: int) -> Iterable[tuple[int, str]]:
    """The switches of a WAUT, (clock, program), rising, without end where it has a period: of one without a period all,
    else those from about the clock begin on, the last at begin or before it among them."""
    if not waut.period or not waut.switches:
        return waut.switches
    first = max(0, (begin - waut.switches[-1][0]) // waut.period)
    return ((clock + turn * waut.period, program) for turn in count(first) for clock, program in waut.switches)


def programs_shown(net: SumoNet, days: Mapping[str, Day]) -> Iterator[tuple[str, LightProgram]]:
    """(light, program) of all programs that lights show from the run's begin on; days: as days_of gives them, of the
    lights that change."""
    for light, program in net.programs.items():
        names = {name for _, name in days.get(light, ())}
        yield from ((light, one) for one in net.programs_of(light) if one is program or one.name in names)


def day_lines(
    net: SumoNet, network: Network, days: Mapping[str, Day], report: Report
) -> list[tuple[str, Command]]:
    """The signal lines, (light, command with "at"), by which lights show the listed seconds of the programs to which
    they change after the first, the last until SECONDS_AFTER behind network.last, which must be set; reported as by
    signal_commands. days: of days_of. Fault where each_second or check_states raises one."""
    lines: list[tuple[str, Command]] = []
    turns = turns_at(network)
    lights = {node: light_of((turn for *_, turn in own_turns), net) for node, own_turns in turns.items()}
    for light, node in sorted((light, node) for node, light in lights.items() if light and light in days):
        programs = {program.name: program for program in net.programs_of(light)}
        for (clock, name), (end, _) in list(pairwise([*days[light], (network.last_depart + SECONDS_AFTER, "")]))[1:]:
            changed = replace(net, programs={**net.programs, light: programs[name]})
            lit = lit_node(changed, network, node, turns[node], light, report)
            lines += [(light, {"at": clock, **command}) for command in signal_lines(lit, clock, end - 1)]
            warn_of_kind(light, programs[name], report)
    return lines
