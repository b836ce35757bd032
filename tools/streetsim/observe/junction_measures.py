"""The values of an interval for the junction tables: what vehicles lost by movement (Losses), and queues, v/c and
saturation flows by lane (Interval)."""
from collections.abc import Iterable
from dataclasses import dataclass, field

from streetsim.model.mapping import Place
from streetsim.model.service import SIGNALS, STOP_LOSS, fills
from streetsim.observe.junction_layout import Approach

Movement = tuple[str, str]  # an edge and the next one


@dataclass(slots=True)
class Losses:
    """What some vehicles lost: means over them."""

    vehicles: int  # how many
    delay: float  # control delay, seconds
    stood: float  # seconds
    stops: float


@dataclass(slots=True)
class Interval:
    """What is known of an interval, by movement (edge, next edge) or by lane (link, lane)."""

    begin: int
    end: int
    lost: dict[Movement, Losses] = field(default_factory=dict)
    lanes: dict[Movement, dict[Place, int]] = field(default_factory=dict)  # vehicles by lane
    queues: dict[Place, list[float]] = field(default_factory=dict)  # metres of the queue in each cycle
    uses: dict[Place, float] = field(default_factory=dict)  # who passed as a share of who could, 0 to 1
    wishes: dict[Place, float] = field(default_factory=dict)  # who wished to pass and is there, times those who passed
    entering_more: dict[Movement, int] = field(default_factory=dict)  # who waits to enter at its end, less at its begin
    flows: dict[Place, float] = field(default_factory=dict)  # saturation flow, vehicles an hour
    full_shares: dict[tuple[Place, float], float] = field(default_factory=dict)  # known ones, as full_share gives them

    def full_share(self, lane_key: Place, room: float) -> float:
        """The share of a lane's cycles whose queue fills a room, in metres; 0 of none."""
        if (lane_key, room) not in self.full_shares:
            holds = [fills(queue, room) for queue in self.queues[lane_key]]
            self.full_shares[lane_key, room] = sum(holds) / len(holds) if holds else 0.0
        return self.full_shares[lane_key, room]


def weighted_mean_losses(parts: Iterable[Losses]) -> Losses:
    """The means over all vehicles of several movements, of which at least one has vehicles."""
    count, delay, stood, stops = 0, 0.0, 0.0, 0.0
    for part in parts:
        count += part.vehicles
        delay += part.vehicles * part.delay
        stood += part.vehicles * part.stood
        stops += part.vehicles * part.stops
    return Losses(count, delay / count, stood / count, stops / count)


def stop_loss(approach: Approach, target: str) -> float:
    """Seconds that a vehicle which stops on an approach loses beyond what is seen; target: the next edge. 0 for those
    that turn at a light, as the import has put it into the seconds of green that it leaves out."""
    if approach.control == SIGNALS and approach.movements[target] != "T":
        return 0.0
    return STOP_LOSS[0] if len(approach.lanes) == 1 else STOP_LOSS[1]
