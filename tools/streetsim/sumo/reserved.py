"""Vehicles on lanes that are closed to the cars of a run, as buses have them: in SUMO these lanes take longer."""
from collections import Counter
from collections.abc import Callable, Sequence

from streetsim.model.reserved import ReservedLanes
from streetsim.sumo.demand import DemandVehicle
from streetsim.sumo.network import Network


def reserved_lanes(
    network: Network, vehicles: Sequence[DemandVehicle], class_of: Callable[[str], str]
) -> ReservedLanes | None:
    """Who of a demand drives on lanes that are closed to the first class of the import; None where nobody does.
    class_of: the class by a vehicle's type."""
    first_class, *other_classes = network.options.classes
    reserved_edges = {
        (network.links[link].edge, name)
        for link, users in enumerate(network.users)
        if first_class in network.links[link].closed
        for name in other_classes
        if users and name in users
    }
    if not reserved_edges:
        return None
    edges = {name: {edge for edge, one in reserved_edges if one == name} for name in other_classes}
    met = [
        (name, own) for vehicle in vehicles
        if (own := edges.get(name := class_of(vehicle.type), set()) & set(vehicle.edges))
    ]  # fmt: skip
    if not met:
        return None
    passed = Counter(edge for _, own in met for edge in own)
    most = min(passed, key=lambda edge: (-passed[edge], edge))
    return ReservedLanes(", ".join(sorted({name for name, _ in met})), most, len(met), len(vehicles))
