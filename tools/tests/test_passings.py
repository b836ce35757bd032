"""When vehicles come to links and pass stop lines, of seconds by hand and of a run."""
import unittest
from collections import defaultdict
from types import SimpleNamespace

from seen import kernel_of, made, show
from support import DATA, MAP, PROGRAM, Case, needs_simulator
from streetsim.control.settings import Settings
from streetsim.kernel.loop import Observer
from streetsim.kernel.progress import ProgressReports
from streetsim.kernel.seconds import Takeout
from streetsim.model.mapping import map_from
from streetsim.model.runs import read_with_map
from streetsim.observe.link_passings import Passings
from streetsim.observe.polls import ClosedLanes
from streetsim.observe.queues import Summary

TWO_LANES = {**MAP, "links": [["a", [0, 1], *MAP["links"][0][2:]], MAP["links"][1]]}
# One comes to a at 1 s, stands in its first cell until 3 s and passes its line at 9; it is on b from 12 s on.
ONE = [
    *((clock, [[0, 0, [[0, 0, 0]], []]]) for clock in (1, 2, 3)),
    *((clock, [[0, 0, [[0, clock, 2]], []]]) for clock in range(4, 9)),
    (9, [[0, 1, [], [0]]]),
    *((clock, [[0, 1, [], []]]) for clock in (10, 11)),
    *((clock, [[1, 0, [[0, clock - 12, 1]], []]]) for clock in range(12, 15)),
]


class Closed(unittest.TestCase):
    def test_what_is_closed_at_a_poll(self):
        """A line of the file at its clock and one that a controller sends for it count; what is passed on then counts
        from the next poll on."""
        def sent(clock, name, lane, passed_on=False):
            line = SimpleNamespace(command={"cmd": name, "link": 0, "lane": lane, "first": 2, "last": 3})
            return SimpleNamespace(clock=clock, passed_on=passed_on, line=line)

        lines = [sent(5, "close", 0), sent(5, "close", 1, True), sent(9, "reopen", 0)]
        kernel = SimpleNamespace(run=SimpleNamespace(first=[]), sent_lines=lines)
        closed = ClosedLanes(kernel, [True] * 2)
        found = [closed.stretches_at(clock) for clock in (4, 5, 6, 9)]
        self.assertEqual(found, [{}, {0: [(2, 3)]}, {0: [(2, 3)], 1: [(2, 3)]}, {1: [(2, 3)]}])


class Told(unittest.TestCase):
    def test_how_far_a_run_is(self):
        """Two are on cells, and then one of them behind its stop line."""
        told, frames = [], [(1, [[0, 0, [[0, 5, 2], [1, 3, 2]], []]]), (2, [[0, 0, [[1, 5, 2]], [0]]])]
        reports = ProgressReports(lambda *one: told.append(one))
        show(kernel_of(map_from("", MAP), [[0, 1]] * 2), frames, reports, parts=2)
        found = [(clock, one.cells, one.buffers, one.admitted) for clock, one in told]
        self.assertEqual(found, [(1, 2, 0, 2), (2, 1, 1, 2)])

    def test_all_are_counted_at_the_end_once(self):
        """Also where the end is a clock at which they are counted anyway."""
        frames = [(1, [[0, 0, [[0, 5, 2], [1, 3, 2]], []]]), (2, [[0, 0, [[1, 5, 2]], [0]]])]
        for looks, expected in (((), [(2, 1, 1)]), ((1,), [(1, 2, 0), (2, 1, 1)]), ((2,), [(2, 1, 1)])):
            summary = Summary(None, looks)
            show(kernel_of(map_from("", MAP), [[0, 1]] * 2), frames, summary)
            self.assertEqual(summary.counts, expected)


class ByHand(unittest.TestCase):
    def passings(self, frames, plans=((0, 1),), mapping=TWO_LANES, taken=(), **more):
        kernel, passings = kernel_of(map_from("", mapping), [list(plan) for plan in plans], **more), Passings()
        for one in taken:
            kernel.vehicles.takeouts.append(one)
            kernel.vehicles.add([int(kernel.vehicles.owner[one.car])], [1])
        for parts in (1, 5):
            show(kernel, frames, passings, parts=parts)
            found = passings.link_arrivals(), passings.stop_line_passings()
            self.assertEqual(found, getattr(self, "before", found), "in parts")
            self.before = found
        return found

    def test_who_stands_in_the_first_cell_comes_once(self):
        """It is due at its line after 10 cells at 5 a second, and passes on the lane in whose buffer it is."""
        self.assertEqual(self.passings(ONE), ([[1, 12]], {(0, 1): [(9, 1, 3.0)]}))

    def test_mean_speeds_are_slower_by_dawdling(self):
        self.assertEqual(self.passings(ONE, dawdle=1000)[1], {(0, 1): [(9, 1, 3.5)]})

    def test_who_is_in_the_buffer_at_the_end_has_passed(self):
        self.assertEqual(self.passings(ONE[:9]), ([[1]], {(0, 1): [(9, 1, 3.0)]}))

    def test_a_way_that_comes_to_a_link_twice(self):
        again = [(clock + 20, lanes) for clock, lanes in ONE[:9]]
        between = [(clock, []) for clock in range(15, 21)]
        found = self.passings([*ONE, *between, *again], [(0, 1, 0, 1)])
        self.assertEqual(found, ([[1, 12, 21]], {(0, 1): [(9, 1, 3.0), (29, 1, 23.0)]}))

    def test_nobody(self):
        self.assertEqual(self.passings([(1, []), (2, [])], []), ([], {}))

    def test_one_that_is_taken_out_before_its_line_and_one_behind_it(self):
        """They go on as cars 2 and 3 on b. The one behind the line has passed it; the other one has not."""
        seen = [(1, [[0, 0, [[0, 1, 0], [1, 0, 0]], []]]), (2, [[0, 0, [[1, 0, 0]], [0]]])]
        anew = [(3, [[1, 0, [[2, 0, 0]], []]]), (4, [[1, 0, [[2, 1, 0], [3, 0, 0]], []]])]
        taken = Takeout(2, 0, 2, 0, False), Takeout(3, 1, 3, 0, True)
        frames = [(1, [[0, 0, [[0, 0, 0]], []]]), *((clock + 1, lanes) for clock, lanes in [*seen, *anew])]
        found = self.passings(frames, [(0, 1), (0, 1)], taken=taken)
        self.assertEqual(found, ([[1, 4], [2, 5]], {(0, 0): [(3, 1, 3.0)]}))


class Looking(Observer):
    """Follows each vehicle from row to row: the links on which it is seen first, and the lines that it passed."""

    def begin(self, kernel):
        self.kernel, self.last = kernel, {}
        self.came, self.passed = defaultdict(list), defaultdict(list)

    def see(self, seconds):
        columns = (seconds.owner, seconds.clocks[seconds.second], seconds.slot, seconds.cell, seconds.car)
        for owner, clock, slot, cell, car in zip(*(one.tolist() for one in columns), strict=True):
            link, was = slot // 2, self.last.get(owner, (None, None, None))
            if cell >= 0 and was[:2] != (car, link):
                self.came[owner].append(clock)
            if cell < 0 and was[2]:
                following = self.kernel.run.enters[owner].command["plan"][len(self.came[owner])]
                self.passed[link, slot % 2].append((clock, following))
            self.last[owner] = car, link, cell >= 0


@needs_simulator
class OfARun(Case):
    def test_as_each_vehicle_is_seen(self):
        """The samples' town, of whose vehicles some are rescued."""
        run, mapped = self.folder / "run.jsonl", self.folder / "map.json"
        words = [DATA / "town.net.xml.gz", "--routes", DATA / "town.rou.xml.gz", "-o", run, "--map", mapped]
        self.tool("import", *words)
        passings, looking = Passings(), Looking()
        _, steering = made(PROGRAM, *read_with_map(run, mapped), Settings(2400, rescue=60), passings, looking)
        self.assertGreater(steering.rescue.count.total(), 5)
        came = {owner: clocks for owner, clocks in enumerate(passings.link_arrivals()) if clocks}
        self.assertEqual(came, looking.came)
        self.assertGreater(len(came), 1000)
        passed = {place: [one[:2] for one in those] for place, those in passings.stop_line_passings().items()}
        self.assertEqual({place: sorted(those) for place, those in passed.items()},
                         {place: sorted(those) for place, those in looking.passed.items()})


if __name__ == "__main__":
    unittest.main()
