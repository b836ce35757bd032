"""The programs of a network's lights with the movements that conflict, and a warning where two of these have main green
(G) together."""
from collections import defaultdict
from collections.abc import Iterable, Iterator, Sequence
from itertools import combinations

from streetsim.base.files import elements
from streetsim.base.report import Report, first_few
from streetsim.model.timing import SignalMovement, Timing, movements_by_edges
from streetsim.sumo.constraints import kept_values
from streetsim.sumo.net import NetConnection, SumoNet, read_net, read_program


def timings_of(net: SumoNet, in_run: bool = False) -> Iterator[Timing]:
    """The program in force of each light that connections name, or all that it shows in the run (in_run), in the order
    of the lights' names; programs with states that are too short for the connections are left out. Of a light of
    several junctions, the junction is that of its first connection."""
    at_light = defaultdict(list)
    for connection in net.connections:
        if connection.light:
            at_light[connection.light].append(connection)
    for light, connections in sorted(at_light.items()):
        last = max(connection.index for connection in connections)
        programs = net.programs_in_run(light)[: None if in_run else 1]
        whole_programs = [
            program for program in programs if all(len(state) > last for _, state in program.phases)
        ]
        if not whole_programs:
            continue
        conflicts = {
            frozenset((connection.index, foe.index))
            for connection, foe in combinations(connections, 2)
            if connection.source != foe.source and do_conflict(net, connection, foe)
        }
        junction = net.edges[connections[0].source].end
        movements = movements_by_edges(
            (connection.source, connection.target, connection.index) for connection in connections
        )
        for program in whole_programs:
            kept = kept_values(light, program)
            yield Timing(light, junction, program.offset, program.phases, program.kind, movements, conflicts, kept)


def timings_of_files(net_path: str, additional: Iterable[str], classes: Sequence[str]) -> list[Timing]:
    """The programs of the lights of a network and of additional files, as timings_of gives them; the last program of a
    light counts. classes: whose lanes are kept. Fault where a file cannot be read; warnings of reading are not told."""
    net = read_net(net_path, classes, Report())
    for path in additional:
        for element in elements(path):
            if element.tag == "tlLogic":
                read_program(path, element, net, ())
    return list(timings_of(net))


def do_conflict(net: SumoNet, connection: NetConnection, other_connection: NetConnection) -> bool:
    """Whether two connections meet at one junction, as the network's foes say. False where a request is not known."""
    junction = net.edges[connection.source].end
    request, other_request = connection.request, other_connection.request
    if net.edges[other_connection.source].end != junction or request is None or other_request is None:
        return False
    foes = net.foes.get(junction, {})
    return other_request in foes.get(request, ()) or request in foes.get(other_request, ())


def warn_of_clashes(net: SumoNet, report: Report) -> None:
    """Reports lights that show main green (G), in any program of the run, to movements that conflict: both go here."""
    pairs = defaultdict[str, dict[str, None]](dict)
    for timing in timings_of(net, True):
        told = (f"{movement_named(net, one)} and {movement_named(net, other)}" for one, other, _ in timing.clashes())
        pairs[timing.light].update(dict.fromkeys(told))
    for light, both in pairs.items():
        if both:
            report.warn(
                f"light {light!r}: movements that conflict have main green together: {first_few(both, 3)}",
                [light],
                "show one of each pair as g, or after the other",
                kind="lights show main green together to movements that conflict",
            )


def movement_named(net: SumoNet, movement: SignalMovement) -> str:
    """How a movement is named to the user: by its streets, and where these have names by its edges too."""
    streets = [net.edges[edge].street or edge for edge in (movement.edge, movement.next_edge)]
    ids = f" ({movement.edge} to {movement.next_edge})"
    return f"{streets[0]} into {streets[1]}{ids if streets != [movement.edge, movement.next_edge] else ''}"
