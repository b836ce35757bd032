"""What a script asks of a run beside its files."""
from collections.abc import Sequence
from dataclasses import dataclass, replace

from streetsim.control.actuated_lights import NONE_DRIVEN, driven_lights, idle_lights
from streetsim.control.bus_planned import NONE, planned
from streetsim.control.bus_priority import prioritised
from streetsim.control.ending import HOUR, after_departures
from streetsim.control.settings import Settings
from streetsim.kernel.loop import Controller, Observer
from streetsim.model.mapping import Map
from streetsim.model.runs import Run


@dataclass(frozen=True, slots=True)
class ScriptSettings:
    """What a script asks of a run, as the words of streetsim-run have it; the program that makes it; and the user's own
    observers and controllers."""

    rounds: int = 0  # runs that are made before, by which vehicles of the file give way without a light
    merging: bool = True
    driven: bool = True  # lights, by detectors
    stops: bool = True  # are made
    rescue: int = 0  # seconds of standing; 0: nobody is rescued
    priority: Sequence[str] = ()  # classes or lines of vehicles for which lights wait
    seen: int | None = None  # seconds before a stop line from which on they are seen; None: 15
    drawn: bool = False  # departures, by the seed
    choosing: bool = False  # the script may put other programs of the files in force
    observers: Sequence[Observer] = ()
    controllers: Sequence[Controller] = ()
    program: str | None = None  # as find_program takes it
    workers: int = 1  # threads of the program

    def settings(self, run: Run, mapping: Map) -> Settings:
        """The settings of a run whose end is not known: an hour after the last departure is a guess. Fault where a name
        of priority has no vehicle."""
        lights = driven_lights(run, mapping) if self.driven and mapping.programs else NONE_DRIVEN
        buses = planned(run, mapping) if self.stops else NONE
        if self.priority:
            lights, buses = prioritised(run, mapping, self.priority, self.seen, lights, buses)
        if self.choosing and lights is not NONE_DRIVEN:
            lights = replace(lights, idle=(*lights.idle, *idle_lights(mapping, lights.idle)))
        until = after_departures(run, HOUR)
        return Settings(until, rescue=self.rescue, merging=self.merging, lights=lights, buses=buses)
