"""The fundamental diagram of one lane in a ring, against what is published and what follows from the rules."""
import unittest

from support import PROGRAM, needs_simulator
from streetsim.report.ring_diagram import measure_ring


@needs_simulator
class Ring(unittest.TestCase):
    def test_published_maximum(self):
        # Nagel and Schreckenberg (1992): a maximum of about 0.32 vehicles a step near 0.08 vehicles a cell, at limit 5
        # and dawdle 0.5.
        for vehicles in (70, 80, 90):
            flow = measure_ring(PROGRAM, vehicles, dawdle=500).flow
            self.assertTrue(0.30 <= flow <= 0.34, (vehicles, flow))

    def test_free_speed(self):
        # Five cells a step, of which one is lost in half of the steps.
        speed = measure_ring(PROGRAM, 20, dawdle=500).speed
        self.assertTrue(4.45 <= speed <= 4.6, speed)

    def test_without_dawdling(self):
        # Free: each drives 5 cells a step. Jammed: each gap moves back by one, so the flow is that of the gaps.
        for vehicles, expected in ((40, 5 * 0.04), (90, 5 * 0.09), (550, 0.45), (700, 0.3)):
            self.assertAlmostEqual(measure_ring(PROGRAM, vehicles).flow / expected, 1, delta=0.01)


if __name__ == "__main__":
    unittest.main()
