"""Road works and counts on a page, of folders written by hand."""
import gzip
import html
import re
import shutil
import unittest

from test_reports import Given
from streetsim.base.shapes import point_along
from streetsim.demand.judging import judge_counts
from streetsim.demand.reporting import counts_section
from streetsim.demand.values import Count
from streetsim.model.tables import EDGES, QUEUES, WORKS, write_table
from streetsim.report.page_works import closed_shape, closed_shapes, seen_in
from streetsim.report.run_tables import read_runs
from streetsim.report.works_queues import works_places_of

PLACE = {"edge": "a", "lane": 0, "from_m": "30.0", "to_m": "60.0"}


def told(path):
    """The text of a page without its tags."""
    text = re.sub("<[^>]*>", " ", path.read_text().partition("<header")[2])
    return html.unescape(re.sub(r"\s+", " ", text))


class Works(Given):
    """The second plan closes 30 to 60 m of edge a from 0:05 to 0:20; 400 vehicles an hour then take edge b less."""

    def setUp(self):
        super().setUp()
        for plan, flows in (("before", (700, 702)), ("after", (300, 302))):
            for seed, flow in enumerate(flows, 1):
                folder = self.folder / f"{plan}/seed-{seed}"
                rows = [(0, 900, "a", flow // 4, flow // 4, 10, 30, 9), (0, 900, "b", flow // 4, flow // 4, 10, 30, 9)]
                write_table(f"{folder}/edges.csv", EDGES, rows)
                if plan == "after":
                    self.write_works(folder, seed)

    def write_works(self, folder, seed):
        head = ["a", 0, "30.0", "60.0"]
        numbers = (100 + seed, 1200 + 100 * seed, "10.0", "40.0", "5.0", "15.0", 20 + seed, 12)
        rows = [(300, 900, *head, *numbers), (900, 1200, *head, 50, "", "", "", "0.0", "0.0", "0.0", 0)]
        write_table(f"{folder}/works.csv", WORKS, rows)
        queues = [(310, "a", 0, 2, 10.0 * seed, "works", "30.0"), (320, "a", 0, 9, 70.0, "stop line", "")]
        write_table(f"{folder}/queues.csv", QUEUES, queues)

    def test_where_it_is(self):
        """A third of the way along a line of 75 m is at 25 m; 30 to 60 m of edge a lie on its line."""
        self.assertEqual(point_along([(0, 0), (75, 0)], 1 / 3), (25, 0))
        self.assertEqual(point_along([(0, 0), (0, 10), (30, 10)], 0.5), (10, 10))
        runs = read_runs(str(self.folder / "after"))
        shape = closed_shape(runs.first_folder.mapping, ("a", "0", "30.0", "60.0"))
        self.assertEqual(closed_shapes(runs), [("a", shape)])
        [(_, (begin, _, end))] = closed_shapes(runs)
        self.assertEqual((round(begin[0]), round(end[0])), (30, 60))

    def test_queues_over_time(self):
        """Polls every 10 s from 310 s on, 10 and 20 m then, no queue later; those at stop lines are none."""
        [seen] = seen_in(read_runs(str(self.folder / "after")))
        self.assertEqual((seen.queues[310], seen.queues[320], max(seen.queues)), ([10.0, 20.0], [0.0, 0.0], 1200))

    def test_two_works_on_a_lane(self):
        """At 310 s 10 m queue before those at 30 m and 5 m before those at 67.5 m; at 320 s before these alone."""
        path, rest = self.folder / "after/seed-1", (9, "", "", "", "0.0", "0.0", "0.0", 0)
        rows = [(300, 900, "a", 0, *metres, *rest) for metres in (("30.0", "60.0"), ("67.5", "75.0"))]
        write_table(path / "works.csv", WORKS, rows)
        queues = [(310, 10.0, "30.0"), (310, 5.0, "67.5"), (320, 6.0, "67.5")]
        rows = [(clock, "a", 0, 1, metres, "works", begin) for clock, metres, begin in queues]
        write_table(path / "queues.csv", QUEUES, rows)
        with gzip.open(path / "lanes.jsonl.gz", "wt") as file:
            file.write('{"clock": 310, "lanes": []}\n')
        runs = read_runs(str(path))
        self.assertEqual([(one.queues[310], one.queues[320]) for one in seen_in(runs)], [([10], [0]), ([5], [6])])
        lengths = [one.lengths for one in works_places_of(runs.first_folder)]
        self.assertEqual(lengths, [{310: 10.0}, {310: 5.0, 320: 6.0}])

    def test_the_page(self):
        page = self.page(*self.plans())
        text = told(page)
        for words in (
            "after: the street from the west at Junction B (a), lane 0, 30 to 60 m, from 0:05 to 0:20",
            "0:05 to 0:15 101.5 1350 10 5 15 40 22 12",  # means of two seeds, of the greatest the greatest
            "0:15 to 0:20 50 - 0 0 0 0",  # nobody queued
            # 101 and 102 vehicles of 10 s each in two runs: 1,015 s.
            "In all 0.28 vehicle-hours were lost by vehicles that passed. Capacity -: no queue stood for a quarter of",
            "For a closed lane, forecasts with an uncalibrated base were off by more than the change itself on 6 "
            "streets: streetsim-calibrate first.",
            "Closed: 30 m of a lane of the street from the west at Junction B, from 0:05 to 0:20. Queue: 22 m at the "
            "longest, from 0:05 to 0:15. Wait: in the worst time, 0:05 to 0:15, a vehicle that passes the works waits "
            "10 s; 152 vehicles pass in all.",
        ):
            with self.subTest(words):
                self.assertIn(words, text)
        self.assertIn("road works", text)
        self.assertIn('class="works"', page.read_text())
        self.assertNotIn('class="works"', self.page(self.folder / "before").read_text())

    def test_streets_with_fewer(self):
        """175 vehicles a quarter hour before and 75 after with both seeds: 700 and 300 an hour, 400 fewer."""
        self.assertIn("b 700 300 -400.0 ± 0.0", told(self.page(*self.plans())))


class Counts(Given):
    def setUp(self):
        super().setUp()
        for seed in (1, 2):
            rows = [(0, 900, "a", 25, 25, 10, 30, 9), (900, 1800, "a", 25, 25, 10, 30, 9)]
            write_table(f"{self.folder}/before/seed-{seed}/edges.csv", EDGES, rows)

    def test_the_page(self):
        """50 passed of 50 counted in half an hour, and of a turn 20 of 80: hourly 40 and 160, GEH 120 / 10."""
        counts = self.write("c.csv", "begin,end,from,to,vehicles,group\n0,1800,a,,50,west\n0,1800,a,b,80,west\n")
        page = self.folder / "page.html"
        self.tool("report", self.folder / "before", "--counts", counts, "-o", page)
        text = told(page)
        for words in (
            "before, its first seed: GEH is below 5 for 50.0 % of the counts by hour, which does not pass",
            "0:00 to 0:30 2 50.0 130 70 -46.2 not passed",
            "west 0:00 to 0:30 130 70 -46.2",
            "from the west to the east a to b 0:00 80 20 12.0",
        ):
            self.assertIn(words, text)
        text = page.read_text()  # a point that fits, and one that does not
        self.assertEqual((text.count('r="3"'), text.count('width="6" height="6"')), (1, 1))

    def test_faults(self):
        for words, said in (
            (("--attribute", "left"), "--attribute is of --counts: give it too"),
            (("--counts", self.folder / "no.csv"), "no.csv"),
            (("--short", "--counts", "x"), "--counts is of the appendix, which --short leaves out"),
        ):
            run = self.folder / "before"
            self.assertIn(said, self.tool("report", run, *words, "-o", self.folder / "x.html", status=2)[1])

    def test_points_of_the_scatter(self):
        """A count that fits and one that does not have other colours and shapes; the axis goes to 1.08 of the most."""
        shutil.rmtree(self.folder / "after")
        counts = [Count(0, 3600, ("a",), 100, "x"), Count(0, 3600, ("b",), 100, "x")]
        runs = read_runs(str(self.folder / "before"))
        text = counts_section("p", judge_counts(counts, [100, 400]), runs.first_folder.mapping)
        self.assertIn("counted: 432 vehicles/h", text)
        self.assertEqual((text.count('fill="#c04000"'), text.count('fill="#225588"')), (1, 1))
        self.assertIn("b: +300", text)


if __name__ == "__main__":
    unittest.main()
