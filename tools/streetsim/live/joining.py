"""A run as a page shows it, which is imported anew where more of its lanes are to be joint."""
from collections.abc import Callable, Iterable
from dataclasses import dataclass, replace

from streetsim.base.files import FilePath
from streetsim.control.settings import Settings
from streetsim.control.works_sites import WorksOptions, with_works
from streetsim.live.page import live_page
from streetsim.live.world import PageRun
from streetsim.model.mapping import Map
from streetsim.model.replications import DRAWN, LISTED, drawn
from streetsim.model.runs import Run
from streetsim.observe.giving_way_rounds import giving_way_of_open_run


@dataclass(slots=True)
class Joining:
    """A run as a page shows it, and what else its page is made of."""

    run: Run
    mapping: Map
    map_path: FilePath
    program: str  # which runs it, and makes the rounds
    make_settings: Callable[[Run, Map], Settings]  # of a run
    names: tuple[str, ...] = ()  # of the lanes and edges that are joint beside those of the import
    rounds: int = 0  # by which vehicles give way without a light
    workers: int = 1  # of the program
    departures: str = LISTED

    def joint_run(self) -> tuple[Run, Map, list[str]]:
        """(the run with the lanes of names joint, its map, the texts to tell); Fault where that cannot be done."""
        run, mapping, notes = with_works(self.run, self.mapping, self.map_path, [], WorksOptions(self.names))
        return run, replace(mapping, sources=self.mapping.sources), notes

    def page_run(self) -> tuple[PageRun, list[str]]:
        """(the run as the page shows it, with signal lines by which vehicles give way without a light, where there are
        rounds; the texts to tell). Where the rounds find nobody who has to, the map's yields are empty. Fault as of
        joint_run, or where the rounds cannot be made."""
        run, mapping, notes = self.joint_run()
        if self.departures == DRAWN:
            run, mapping = drawn(run, mapping)
        settings = self.make_settings(run, mapping)
        notes += [*settings.lights.notes(), *settings.buses.notes()]
        if self.rounds and mapping.yields:
            program_settings = self.program, self.workers, settings.lights
            run, yielding = giving_way_of_open_run(run, mapping, self.rounds, *program_settings)
            notes += [yielding.summary()] if yielding.lines else []
            mapping = mapping if yielding.lines else replace(mapping, yields=[])
        return PageRun(run, mapping, settings, self.program, self.workers), notes

    def page(self, page_run: PageRun) -> bytes:
        """The page of a run; Fault as of live_page."""
        return live_page(page_run, self.map_path)

    def join(self, names: Iterable[str]) -> tuple[bytes, PageRun]:
        """(the page, its run) with further lanes or edges (names) joint; after a Fault all is as before."""
        joined = replace(self, names=tuple(dict.fromkeys([*self.names, *names])))
        run, _ = joined.page_run()
        page = joined.page(run)
        self.names = joined.names
        return page, run
