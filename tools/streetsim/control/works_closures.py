"""The stretches of lanes that a run closes, and when."""
from collections.abc import Iterable
from dataclasses import dataclass, replace

from streetsim.model.mapping import Map
from streetsim.model.runs import Run


@dataclass(slots=True, frozen=True)
class Closure:
    """Cells first_cell to last_cell of a lane that are closed from the clock begin to the clock end."""

    link: int
    lane: int
    first_cell: int
    last_cell: int
    begin: int  # clock of the close
    end: int
    beyond: float = 0.0  # metres for which it goes on, on the next part of the edge

    def metres(self, mapping: Map) -> tuple[float, float]:
        """(begin, end) of the closed stretch, in metres from the begin of its link; end with the metres for which it
        goes on beyond the link."""
        link = mapping.links[self.link]
        size = link.metres / link.cells
        return self.first_cell * size, (self.last_cell + 1) * size + self.beyond


def closures_of(run: Run, until: int) -> list[Closure]:
    """The stretches that a run closes, by its own lines and by --close, from its start to the clock until, by their
    begin; one that is not reopened with the same cells lasts until then. One closed again meanwhile counts from its
    first close; one that begins at until or later is left out."""
    timed = [*((run.start(), line) for line in run.first), *run.timed]
    open_: dict[tuple[int, int, int, int], int] = {}
    closures = []
    for clock, line in timed:
        command = line.command
        if command["cmd"] not in ("close", "reopen"):
            continue
        key = command["link"], command["lane"], command["first"], command["last"]
        if command["cmd"] == "close":
            open_.setdefault(key, clock)
        elif key in open_:
            closures.append(Closure(*key, open_.pop(key), min(clock, until)))
    closures += [Closure(*key, clock, until) for key, clock in open_.items()]
    return sorted((one for one in closures if one.begin < one.end), key=lambda one: (one.begin, one.link, one.lane))


def begun_here(closures: Iterable[Closure], mapping: Map) -> list[Closure]:
    """The closures before which a queue can begin. One that continues another with the same clocks, from the part of
    the edge before, is left out, as its queue is seen at that other one, which gets its metres in beyond."""
    closures = list(closures)
    first_cells = [closure for closure in closures if closure.first_cell <= 1]
    begins = {(closure.link, closure.lane, closure.begin, closure.end): closure for closure in first_cells}
    further: dict[Closure, Closure] = {}
    for closure in closures:
        if closure.last_cell == mapping.links[closure.link].cells - 1:
            edge = mapping.links[closure.link].edge
            turns = [turn for turn in mapping.turns if (turn.link, turn.lane) == (closure.link, closure.lane)]
            parts = [turn for turn in turns if mapping.links[turn.next].edge.rpartition(".")[0] == edge]
            keys = [(turn.next, turn.next_lane, closure.begin, closure.end) for turn in parts]
            further.update((closure, begins[key]) for key in keys if key in begins)
    going_on = set(further.values())
    begun = (closure for closure in closures if closure not in going_on)
    return [
        replace(closure, beyond=further[closure].metres(mapping)[1]) if closure in further else closure
        for closure in begun
    ]
