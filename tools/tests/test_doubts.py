"""Doubts with a place: their words, which rows they are of, and how they travel."""
import re
import unittest
from dataclasses import replace

from doors import lit
from support import DATA, MAP, PROGRAM, Case, needs_simulator
from streetsim.base.files import Fault
from streetsim.base.report import Report
from streetsim.model import trust
from streetsim.model.doubts import (
    ADDED, ALL, APPROACH, DOUBTED, LANE, MOVEMENT, OF_WORKS, Doubt, DoubtsByPlace, doubt_rows, doubts_by_seed,
    doubts_from, joined, places_told, why_of, worst_first,
)
from streetsim.model.mapping import map_from
from streetsim.model.tables import MOVEMENTS, read_table
from streetsim.search.signal_plans import additional_of
from streetsim.search.study_windows import clocks_of, moved, with_windows
from streetsim.sumo.additional import read_additional
from streetsim.sumo.net import doubted_plans, read_net
from streetsim.sumo.types import Types

LEFT = Doubt(LANE, "B", "a", "demand 1.07 of what passes", ALL, "a_1", "b", 25_200, 26_100, 1.07, 120, True)


class Words(unittest.TestCase):
    mapping = map_from("", MAP)

    def test_the_worst_three_by_place(self):
        """Works first, then by vehicles that are over what passes; the same place once."""
        counts = {"c": 9, "d": 99, "e": 1}
        others = [replace(LEFT, edge=edge, target="", vehicles=count) for edge, count in counts.items()]
        works = Doubt(OF_WORKS, "", "a", "demand 1.00 of what the open lane passes", ADDED, begin=0, end=3600)
        ranked = worst_first([LEFT, replace(LEFT, size=0.9), *others, works])
        self.assertEqual([one.edge for one in ranked], ["a", "a", "d", "c", "e"])
        told = places_told(ranked, self.mapping)
        place = "works on the street from the west at Junction B (a), 0:00 to 1:00"
        self.assertTrue(told.startswith(f"doubted most of all: {place}: demand 1.00 of what the"), told)
        self.assertIn("at Junction B, 7:00 to 7:15: demand 1.07 of what passes (delay, letter and queue)", told)
        self.assertTrue(told.endswith("; and at 2 other places"))
        self.assertEqual(places_told([], self.mapping), "")

    def test_last_lines(self):
        self.assertEqual(trust.last_line([], [], self.mapping), "")
        told = trust.last_line(["locked"], [LEFT], self.mapping)
        self.assertTrue(told.startswith("not to be trusted: locked; doubted most of all: "))
        told = trust.last_line_of_seeds({1: [], 2: ["locked", "late"], 3: ["late"]}, [], self.mapping)
        self.assertEqual(told, "not to be trusted: seeds 2, 3: seed 2: locked; late")
        told = trust.last_line_of_seeds({1: [], 2: ["late"]}, [], self.mapping)
        self.assertEqual(told, "not to be trusted: seed 2: late")

    def test_rows_of_a_place(self):
        """A doubt of a lane is of the movements that use it, one whose queue stands before the lanes beside of all; it
        lasts a quarter of an hour longer."""
        nearly = replace(LEFT, spills=False)
        for one, lanes, begin, held in (
            (nearly, ["a_1"], 25_200, True), (nearly, ["a_0"], 25_200, False), (LEFT, ["a_0"], 25_200, True),
            (LEFT, ["a_1"], 26_100, True), (LEFT, ["a_1"], 27_000, False), (LEFT, ["a_1"], 24_300, False),
        ):
            found = DoubtsByPlace([one]).of_movement((begin, begin + 900), "B", "a", "b", lanes)
            self.assertEqual(bool(found), held, (one.size, lanes, begin))
        whole = DoubtsByPlace([nearly, Doubt(MOVEMENT, "B", "a", "v/c 0.95", ALL, target="b", size=0.95)])
        self.assertEqual(whole.of_approach((25_200, 26_100), "B", "a"), [])
        self.assertEqual(why_of([LEFT, LEFT]), "demand 1.07 of what passes")

    def test_intervals_that_follow_each_other(self):
        parts = [Doubt(MOVEMENT, "B", "a", f"v/c {size}", ALL, "", "b", at, at + 900, size, 10)
                 for at, size in ((0, 0.95), (900, 0.99), (3600, 0.91))]
        first, second = joined(parts)
        self.assertEqual((first.begin, first.end, first.size), (0, 1800, 0.99))
        self.assertEqual((first.why, first.vehicles), ("v/c 0.99", 20))
        self.assertEqual((second.begin, second.end), (3600, 4500))

    def test_of_several_seeds(self):
        worse = replace(LEFT, size=1.2, why="demand 1.20 of what passes")
        self.assertEqual(doubts_by_seed({1: [LEFT], 2: [worse], 3: []}), [worse])

    def test_a_setting_keeps_them(self):
        doubts = [LEFT, Doubt(APPROACH, "B", "a", "odd", ALL)]
        rows = doubt_rows(doubts)
        self.assertEqual(rows[1], {"kind": "approach", "junction": "B", "edge": "a", "why": "odd", "touches": ALL})
        self.assertEqual(doubts_from(rows), doubts)
        with self.assertRaises(TypeError):
            doubts_from([{"kind": "lane", "odd": 1}])


class Travels(Case):
    def test_a_plan_of_a_search_that_is_not_to_be_trusted(self):
        """The import finds in the plan's file why, and a run says it; a plan without doubts says nothing."""
        network = self.write("x.net.xml", lit([(30, "G"), (3, "y"), (40, "r")]))
        [light] = read_net(network, ("passenger",), Report()).programs
        phases = ['<phase duration="30" state="G"/>', '<phase duration="40" state="r"/>']
        programs = [(light, 'type="static" programID="streetsim" offset="0"', phases)]
        for doubts, found in ((["without --verify-sumo, as <lefts>"], "without --verify-sumo, as <lefts>"), ([], None)):
            text = additional_of(programs, doubts)
            self.assertEqual(DOUBTED in text, bool(doubts))
            self.assertNotIn("--verify", text.partition("-->")[0].partition("<!--")[2])
            net = read_net(network, ("passenger",), Report())
            read_additional(self.write("plan.add.xml", text), net, Types(1, Report()), Report())
            self.assertEqual(doubted_plans(net).get(light), found)
        told = list(trust.plan_doubts({"A": "why", "B": "why"}))
        self.assertEqual(told, ["the plans of 2 lights are of a search that is not to be trusted (why)"])


@needs_simulator
class AtAJunction(Case):
    """The junction as an office has it: the left from the north, permissive, has 177 s in SUMO, and its approach 91."""

    def test_the_left_that_spills_is_doubted(self):
        """In the tables, in the setting, in the last line, and on the first page beside the answer."""
        files = [DATA / name for name in ("office.net.xml.gz", "office.rou.xml.gz", "office-90.add.xml")]
        run, mapped, out = (self.folder / name for name in ("o.jsonl", "o.map.json", "out"))
        self.tool("import", files[0], files[2], "--routes", files[1], "-o", run, "--map", mapped)
        words = "--until", 28_800, "--junctions", 900, "--every", 0, "--out", out, "--program", PROGRAM
        last = self.tool("run", run, "--map", mapped, *words)[0].splitlines()[-1]
        rows = read_table(f"{out}/movements.csv", MOVEMENTS)
        [left] = [row for row in rows if (row["begin"], row["approach"], row["movement"]) == ("27900", "Nin", "L")]
        self.assertTrue(left["doubt"])
        self.assertIn("Mill Road into Main Street, from the north", last)
        self.assertIn("doubted most of all:", last)
        page = self.folder / "page.html"
        self.tool("report", out, "--interval", 27_900, "-o", page)
        first = page.read_text().partition('id="junctions"')[0]
        self.assertIn("Mill Road into Main Street, from the north to the east, at ", first)
        self.assertNotIn("nothing that a run checks of itself speaks against it", first)
        self.a_wide_interval_is_doubted_by_its_quarters(run, mapped)

    def a_wide_interval_is_doubted_by_its_quarters(self, run, mapped):
        """Rows of two hours, whose mean is below the marks, say when it is full; the numbers are of the two hours."""
        out = self.folder / "wide"
        words = "--until", 28_800, "--junctions", 7200, "--every", 0, "--out", out, "--program", PROGRAM
        last = self.tool("run", run, "--map", mapped, *words)[0].splitlines()[-1]
        rows = [row for row in read_table(f"{out}/movements.csv", MOVEMENTS) if row["approach"] == "Nin"]
        [left] = [row for row in rows if (int(row["begin"]) // 3600, row["movement"]) == (6, "L")]
        self.assertLess(float(left["v_c"]), float(re.match(r"v/c (\d\.\d\d), 7:\d\d to ", left["doubt"])[1]))
        self.assertIn("from the north to the east, at Main Street / Mill Road, 7:", last)


class Windows(unittest.TestCase):
    def test_works_at_other_hours(self):
        """All works of a variant move together; variants without works stay."""
        self.assertEqual(moved(["a_0:0-200:07:00-10:00,a_1:0-9:25500-25600"], 32_400), [
            "a_0:0-200:32400-43200", "a_1:0-9:32700-32800",
        ])
        variants = {"base": {}, "works": {"close": ["a_0:0-200:07:00-10:00"], "close_at": ["07:00", "09:00"]}}
        found = with_windows(variants, ())
        self.assertEqual([*found], ["base", "works 7:00", "works 9:00"])
        self.assertEqual(found["works 9:00"], {"close": ["a_0:0-200:32400-43200"]})
        self.assertEqual([*with_windows(variants, [36_000])], ["base", "works 10:00"])
        self.assertEqual([*with_windows({"w": {"close": ["a_0:0-200:07:00-10:00"]}}, ())], ["w"])

    def test_what_is_no_hour(self):
        for value in ("07:00", [], [7], ["7:"]):
            with self.subTest(value), self.assertRaises(Fault):
                clocks_of(value)
        with self.assertRaisesRegex(Fault, "is no LANE:METRES-METRES:S-S"):
            moved(["a_0"], 0)


if __name__ == "__main__":
    unittest.main()
