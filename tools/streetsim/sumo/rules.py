"""Reports what is otherwise here than in SUMO, as far as it concerns a network."""
from collections import Counter, defaultdict
from collections.abc import Iterable

from streetsim.base import limits
from streetsim.base.report import Report, first_few
from streetsim.sumo.driving import Driving
from streetsim.sumo.links import OTHER_SPEED
from streetsim.sumo.net import LightProgram, SumoNet
from streetsim.sumo.network import Network

MUCH_LONGER = 1.1  # times as long as in SUMO
LONGER = 2.0  # seconds more than in SUMO, from which on an edge is told
OTHER_PACE = 0.02  # of the seconds of a type on empty streets, by which they may be off
FAST = 22.0  # metres a second: from here on a road with a merge is told
# What junctions without a light, and states of connections and of lights, are made of here: those of SUMO that are left
# are of railways.
TYPES = {
    *("priority", "priority_stop", "allway_stop", "right_before_left", "left_before_right", "dead_end", "unregulated"),
    *("traffic_light", "traffic_light_unregulated", "traffic_light_right_on_red", "unknown", "internal", "district"),
    "zipper",
}
Key = tuple[Driving, str]  # how vehicles drive, and their class
RING_EDGES, RING_METRES = 12, 400.0  # of a ring, at most
STATES, SHOWN_STATES = set("Mm=swZ-"), set("GgrRyYuUoOs")


def warn_of_rules(net: SumoNet, network: Network, programs: Iterable[tuple[str, LightProgram]], report: Report) -> None:
    """Reports what of a network itself is otherwise here than in SUMO, by the functions of this module; called after
    the vehicles have their plans (enters), as these add turns (network.joined). Lights, stops and types report their
    own. programs: with the name of its light each that is shown at any time."""
    warn_of_classes(net, network, report)
    warn_of_reserved(network, report)
    warn_of_lengths(network, report)
    warn_of_speeds(network, report)
    warn_of_types(network, report)
    warn_of_merges(net, report)
    warn_of_lanes(net, network, report)
    warn_of_unknown(net, programs, report)


def warn_of_classes(net: SumoNet, network: Network, report: Report) -> None:
    """Reports lanes that are closed to the classes and left out."""
    if net.closed_lanes:
        classes = " and ".join(network.options.classes)
        report.warn(
            f"{len(net.closed_lanes)} lanes are closed to {classes} and left out, with {len(net.dropped)} whole edges",
            sorted(net.dropped),
            "--classes NAMES keeps those of other classes too",
        )


def warn_of_reserved(network: Network, report: Report) -> None:
    """Reports vehicles that drive on lanes of their own class."""
    if own := network.reserved:
        report.warn(f"{own.in_words()}: they may be faster there than in SUMO", [own.edge])


def warn_of_lengths(network: Network, report: Report) -> None:
    """Reports edges that are shorter than a cell, or become longer by more than a tenth."""
    if short := sorted({link.edge for link in network.links if link.metres < limits.CELL_METRES}):
        told = f"{len(short)} edges are shorter than a cell of {limits.CELL_METRES} m and get one: {first_few(short)}"
        report.warn(told, short)
    whole = ((link, limits.cells_of_length(link.metres) * limits.CELL_METRES) for link in network.links)
    longer = [link for link, metres in whole if limits.CELL_METRES <= MUCH_LONGER * link.metres < metres]
    if names := sorted({link.edge for link in longer if link.metres >= limits.CELL_METRES}):
        report.warn(
            f"{len(names)} edges are longer here than in SUMO by more than a tenth, "
            f"as lengths are whole cells: {first_few(names)}",
            names,
            "netconvert --geometry.remove --junctions.join makes fewer short edges",
        )


def warn_of_speeds(network: Network, report: Report) -> None:
    """Reports speeds near which there is no limit in cells a step, and how many more or fewer cells their links have;
    and the edges that are too short for the seconds of SUMO."""
    links_of = defaultdict(list)
    for link in network.links:
        links_of[link.speed, link.limit].append(link)
    for (speed, limit), links in sorted(links_of.items()):
        free = (limit - network.options.dawdle / 1000) * limits.CELL_METRES
        if abs(free - speed) > OTHER_SPEED * speed:
            usual = sum(limits.cells_of_length(link.metres) for link in links)
            share = round(100 * (sum(link.cells for link in links) / usual - 1))
            how = f"{abs(share)} % {'fewer' if share < 0 else 'more'} cells, so that one alone takes as long as in SUMO"
            told = (
                f"{speed * 3.6:.0f} km/h becomes {limit} cells a step, {free * 3.6:.0f} km/h when free"
                f"{f', on {how}' if share else ''}: {len(links)} links"
            )
            report.warn(told, dict.fromkeys(link.edge for link in links), light=share != 0)
    if longer := {link.edge: link.longer for link in network.links if link.longer > LONGER}:
        names = sorted(longer, key=lambda edge: (-longer[edge], edge))
        most = f"one alone takes {LONGER:g} to {max(longer.values()):.1f} s longer than in SUMO"
        report.warn(f"{len(names)} edges are so short that {most}: {first_few(names)}", names)


def warn_of_types(network: Network, report: Report) -> None:
    """Reports the vehicle types that drive slower or faster on an empty street than in SUMO, as all on a street have
    its mean pace."""
    own_seconds, mean_seconds = defaultdict[Key, float](float), defaultdict[Key, float](float)
    for link, users in zip(network.links, network.users, strict=True):
        drivers = network.paces.drivers_on(link.edge, users)
        for (driving, vclass), count in network.paces.passing.get(link.edge, {}).items():
            if link.speed and (users is None or vclass in users):
                own_seconds[driving, vclass] += count * link.metres * driving.slowness(link.speed)
                mean_seconds[driving, vclass] += count * link.metres * drivers.slowness(link.speed)
    slower = {key: mean_seconds[key] / own_seconds[key] - 1 for key in own_seconds}
    off = {key: share for key, share in slower.items() if abs(share) > OTHER_PACE}
    if off:
        order = sorted(off, key=lambda key: -abs(off[key]))
        names = [name for key in order for name in sorted(network.paces.types_of[key])]
        share_of = {name: off[key] for key in order for name in network.paces.types_of[key]}
        text = first_few(f"{name} {share_of[name]:+.0%}" for name in names)
        report.warn(f"all on a street have its mean pace, so on empty streets types take other seconds: {text}", names)


def warn_of_merges(net: SumoNet, report: Report) -> None:
    """Reports where fast roads merge: SUMO's vehicles make room for each other there, and here they do not."""
    into, out = Counter(edge.end for edge in net.edges.values()), Counter(edge.begin for edge in net.edges.values())
    lit = {net.edges[connection.source].end for connection in net.connections if connection.light}
    merged = [
        edge.name
        for edge in net.edges.values()
        if edge.lanes[0].speed >= FAST and out[edge.begin] == 1 and into[edge.begin] > 1 and edge.begin not in lit
    ]
    if merged:
        why = "nobody makes room here, so queues may be far too long"
        told = f"{len(merged)} fast roads begin where others merge, and {why}: {first_few(sorted(merged))}"
        report.warn(told, sorted(merged), "judge motorways by SUMO")


def warn_of_lanes(net: SumoNet, network: Network, report: Report) -> None:
    """Reports connections that give way, turns and parallel links that SUMO does not have, lanes that are joint, and
    lanes of a link between which another one lies."""
    if minor := sum(connection.state in "m=sw" and not connection.light for connection in net.connections):
        how = "second by second, or right before left by rounds"
        told = f"{minor} connections have to give way in SUMO; here they do {how}"
        report.warn(told, light=True)
    if network.joined:
        told = f"{len(network.joined)} turns between parallel links added for routes that change between them"
        report.warn(told, light=True)
    if split := sorted(edge for edge, links in network.links_of.items() if len(links) > 1):
        links = "parallel links of one or two lanes, between which nobody changes lane"
        report.warn(f"{len(split)} edges became {links}: {first_few(split)}", split, "--joint EDGES joins their lanes")
    if apart := sorted({one.edge for one in network.links if one.lanes[-1] - one.lanes[0] > 1}):
        between = "a lane that is left out lies between lanes, over which vehicles change here"
        report.warn(f"on {len(apart)} edges {between}: {first_few(apart)}", apart, "judge them by SUMO")
    if network.closing:
        names = first_few(sorted(network.closing))
        report.warn(f"lanes are joint that lead to different edges, as --joint asks: edges {names}", light=True)


def warn_of_unknown(net: SumoNet, programs: Iterable[tuple[str, LightProgram]], report: Report) -> None:
    """Reports types of junctions where edges end, states of connections without a light, states of lights (programs as
    of warn_of_rules), and rings, for which nothing is done here."""
    ends = {edge.end for edge in net.edges.values()}
    junctions = defaultdict(list)
    for name, kind in net.types.items():
        if kind not in TYPES and name in ends:
            junctions[kind].append(name)
    for kind, names in sorted(junctions.items()):
        text = f"{len(names)} junctions are of type {kind}, which does nothing here: {first_few(names)}"
        report.warn(text, names, "judge them by SUMO")
    edges = defaultdict(list)
    for connection in net.connections:
        if not connection.light and connection.state not in STATES:
            edges[connection.state].append(connection.source)
    for state, names in sorted(edges.items()):
        sources = first_few(sorted(set(names)))
        text = f"{len(names)} connections have the state {state!r}, which does nothing here: edges {sources}"
        report.warn(text, dict.fromkeys(names), "judge them by SUMO")
    for light, program in programs:
        if unknown := set().union(*(state for _, state in program.phases)) - SHOWN_STATES:
            text = f"light {light!r}: states {' '.join(sorted(unknown))} are shown red"
            report.warn(text, [light], "judge by SUMO", kind="lights have states that are shown red")
    for names in rings_that_yield(net):
        text = f"a ring whose entries go first, which fills and locks as in SUMO: edges {first_few(names)}"
        do = "netconvert --roundabouts.guess, or a <roundabout> of them, lets the ring go first"
        report.warn(text, names, do, kind="rings have entries that go first, which fill and lock as in SUMO, on edges")


def rings_that_yield(net: SumoNet) -> list[list[str]]:
    """Short rings of one-way edges (RING_EDGES, RING_METRES) in which each edge gives way, where streets enter, to
    these; the names of each ring's edges."""
    ways = {(edge.begin, edge.end) for edge in net.edges.values()}
    following: dict[str, str] = {}
    for connection in net.connections:
        source, target = net.edges[connection.source], net.edges[connection.target]
        alone = all((edge.end, edge.begin) not in ways for edge in (source, target))
        if alone and not connection.light and connection.state in "m=" and net.yields_of(connection):
            following.setdefault(connection.source, connection.target)
    rings: dict[frozenset[str], list[str]] = {}
    for begin in following:
        ring, at = [begin], following[begin]
        while at != begin and at in following and len(ring) < RING_EDGES:
            ring.append(at)
            at = following[at]
        if at == begin and sum(net.edges[name].lanes[0].metres for name in ring) <= RING_METRES:
            rings.setdefault(frozenset(ring), ring)
    return list(rings.values())
