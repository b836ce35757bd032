"""Sends a vehicle of a session along other edges, as TraCI's setRoute and changeTarget do."""
from collections.abc import Sequence

from streetsim.simulation.errors import TraCIException
from streetsim.simulation.fleet import OnRoad
from streetsim.simulation.session import TraciSession


def send_along(session: TraciSession, name: str, position: OnRoad | None, edges: Sequence[str]) -> None:
    """Has a vehicle go on along other edges, as a route without a name; nothing where these are its edges already.
    TraCIException where they have no connection, or do not begin where it is (position) or, where None, will depart."""
    plan = session.plan(name)
    link = plan[0] if position is None else position.link
    edge = session.map.links[link].edge
    if not edges or edges[0] != edge:
        raise TraCIException(f"Vehicle '{name}': a route must begin with the edge '{edge}'")
    if session.edge_names(plan if position is None else session.plan_ahead(name)) == tuple(edges):
        return
    links = links_along(session, name, None if position is None else link, edges)
    session.note_route(name, f"!{name}")
    session.replan(name, links)


def links_along(session: TraciSession, name: str, first_link: int | None, edges: Sequence[str]) -> tuple[int, ...]:
    """The links along a vehicle's edges; first_link: where it is, from which no turn needs to lead to the next one, as
    it enters anew there. TraCIException where the edges have no connection."""
    plan = session.connections.plan_along
    try:
        links = plan(edges)
        return links if first_link is None else (first_link, *(plan(edges[1:]) if len(edges) > 1 else ()))
    except ValueError as fault:
        raise TraCIException(f"Vehicle '{name}': {fault}") from None
