"""Where vehicles are in SUMO's terms: lane names, metres along a lane, points and angles."""
from streetsim.base.shapes import Polyline
from streetsim.model.mapping import Map
from streetsim.observe.sumo_seconds import Spot

LANE_WIDTH = 3.2  # metres, SUMO's default


class LanePlaces:
    """The lanes of a map in metres: where vehicles are and how fast."""

    def __init__(self, mapping: Map) -> None:
        """The lanes of a run's map."""
        self.mapping = mapping
        self.names = {lane_key: mapping.lane_name(*lane_key) for lane_key in mapping.lanes()}
        self.cell_metres = [link.metres / link.cells for link in mapping.links]
        self.lines = [Polyline(link.shape) for link in mapping.links]

    def metres_on_lane(self, spot: Spot) -> float:
        """Metres from the lane's begin to the front of a vehicle; of one in the junction behind it, the lane's
        length."""
        link = self.mapping.links[spot.link]
        return link.metres if spot.cell is None else (spot.cell + 1) * self.cell_metres[spot.link]

    def metres_per_second(self, spot: Spot) -> float:
        """Metres a second of a vehicle, by the length of its link's cells."""
        return spot.speed * self.cell_metres[spot.link]

    def point_and_angle(self, spot: Spot) -> tuple[float, float, float]:
        """(x, y, angle) of a vehicle's front, on its lane beside the link's line: metres, and degrees clockwise from
        north."""
        link = self.mapping.links[spot.link]
        side = ((len(link.lanes) - 1) / 2 - spot.lane) * LANE_WIDTH
        return self.lines[spot.link].point_and_angle(self.metres_on_lane(spot) / link.metres, side)
