"""What a vehicle takes that is alone on its way, beside vehicles that the program drives."""
import unittest
from statistics import fmean
from types import SimpleNamespace

from support import PROGRAM, needs_simulator
from streetsim.base.client import Client
from streetsim.model.freeflow import Alone, FreeFlow, seconds_alone

RESIDENCE = 2


def street(lengths, limits):
    """A map with one link behind the other, of so many cells and of such limits."""
    links = [
        SimpleNamespace(cells=cells, limit=limit, end=end)
        for end, (cells, limit) in enumerate(zip(lengths, limits, strict=True), start=1)
    ]
    return SimpleNamespace(links=links, nodes=[[name, 0, 0, RESIDENCE] for name in range(len(links) + 1)])


def trips(mapping, dawdle, streets):
    """The durations of the trips of vehicles that each have such a street for themselves."""
    many, nodes, links, turns = len(mapping.links), [], [], []
    for one in range(streets):
        first, own = one * (many + 1), range(one * many, (one + 1) * many)
        nodes += [[first + at, RESIDENCE, 4] for at in range(many + 1)]
        for at, link in enumerate(mapping.links):
            links.append([own[at], first + at, first + at + 1, 1, link.cells, link.limit])
        turns += [[link, 0, link + 1, 0] for link in own[:-1]]
    with Client(PROGRAM) as sim:
        sim.load(nodes, links, turns, zone=0, dawdle=dawdle, change=0, seed=1)
        cars = [sim.enter([one * many + at for at in range(many)]) for one in range(streets)]
        sim.advance(1_000)
        return [sim.vehicle(car).step + 1 for car in cars]


class ByHand(unittest.TestCase):
    def test_nobody_dawdles(self):
        """10 cells at 5 a step are 2 steps, and 4 from 0 (1, 2, 3 and 4 cells); 11 are 3 and 5."""
        found = [seconds_alone(cells, 5, 0.0, speed) for cells in (10, 11) for speed in (5, 0)]
        self.assertEqual(found, [2, 4, 3, 5])

    def test_one_cell_a_step(self):
        """With a chance of a half to stand each cell takes 2 steps."""
        self.assertEqual([seconds_alone(3, 1, 0.5, speed) for speed in (0, 1)], [6, 6])

    def test_a_step_leads_beyond_the_end(self):
        """Of a link of 1 cell at 2 a step: each step is enough. Of 2 cells every second step is."""
        self.assertEqual([seconds_alone(cells, 2, 0.5, 2) for cells in (1, 2)], [1, 1.5])

    def test_far(self):
        """Each cell beyond 1,000 takes 1 over the mean speed, as the cells before it do."""
        near, far, further = (seconds_alone(cells, 3, 0.2, 3) for cells in (999, 1_000, 1_001))
        self.assertAlmostEqual(far - near, 1 / 2.8, places=6)
        self.assertAlmostEqual(further - far, 1 / 2.8, places=12)

    def test_a_trip(self):
        """One step for its departure, 3 from 0 to the end of 4 cells, 2 in the junction, 2 on 4 cells."""
        self.assertEqual(Alone(street((4, 4), (2, 2)), 0.0).trip([0, 1]), 1 + 3 + 2 + 2)


@needs_simulator
class Driven(unittest.TestCase):
    def test_who_does_not_dawdle(self):
        streets = ((40, 41, 3), (2, 2, 2)), ((30,), (5,)), ((30, 30, 30), (1, 3, 5)), ((30, 31, 30), (5, 4, 2))
        for lengths, limits in streets:
            mapping = street(lengths, limits)
            told = Alone(mapping, 0.0).trip(range(len(lengths)))
            self.assertEqual(trips(mapping, 0, 1), [told], (lengths, limits))

    def test_who_dawdles(self):
        """The mean of 600 trips lies within four standard errors, and some 0.05 s a link where the limit rises."""
        streets = ((100,), (2,)), ((30,), (3,)), ((7, 40, 3, 33, 12), (2,) * 5), ((30,) * 5, (1, 2, 3, 4, 5))
        for lengths, limits in streets:
            mapping, plan = street(lengths, limits), range(len(lengths))
            seen, told = trips(mapping, 170, 600), Alone(mapping, 0.17).trip(plan)
            mean = fmean(seen)
            error = (fmean((one - mean) ** 2 for one in seen) / len(seen)) ** 0.5
            self.assertAlmostEqual(mean, told, delta=4 * error + 0.05 * len(set(limits)), msg=(lengths, limits))
            self.assertLess(FreeFlow(mapping, 0.17)(plan), mean - 1.5)


if __name__ == "__main__":
    unittest.main()
