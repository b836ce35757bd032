"""Whether a run is to be trusted: what is said of runs that are not, and over whom means are."""
import json
import unittest
from collections import namedtuple
from unittest.mock import patch

from support import MAP, NUMBERED, PROGRAM, RED, Case, needs_simulator
from streetsim.base.program import UNKNOWN_NOTE, Proof
from streetsim.model import folder, trust
from streetsim.model.folder import NAME, Folder
from streetsim.model.fullness import FullLane, Fullness
from streetsim.model.knots import KNOTTED, Rescued, knots_of, knots_told, rescues_in_knots
from streetsim.model.mapping import TOLD_INVENTED, map_from
from streetsim.model.runs import Line, Run
from streetsim.observe.doubted_places import doubts_of_rescues

Census = namedtuple("Census", "clock waiting")


def row(depart, arrival="", free=10.0):
    """A row of trips.csv."""
    return "v", depart, arrival, arrival - depart if arrival != "" else "", f"{free:.1f}", "", 2, 0, ""


class Told(unittest.TestCase):
    def test_what_each_page_says_at_its_head(self):
        """That the program is not known to be proved, and that vehicles are invented, whose names begin so."""
        for cars, invented in ((["v", "invented.7"], [TOLD_INVENTED]), (["v", "w.invented."], [])):
            mapping = map_from("", {**MAP, "cars": cars})
            folders = [Folder("out", mapping, [], 0, 0, 900, made) for made in ({}, {"unproved": "NOT PROVED"})]
            self.assertEqual(
                [one.notes for one in folders], [[UNKNOWN_NOTE, *invented], ["NOT PROVED", *invented]]
            )
            with patch.object(folder, "proof_of_digest", {"a5": Proof.PROVED}.get):
                self.assertEqual(Folder("out", mapping, [], 0, 0, 900, {"program": "a5"}).notes, invented)


class Knots(unittest.TestCase):
    """Streets a, b, c and d, one behind the other; e is far from these."""

    def setUp(self):
        names = "ABCDEFG"
        nodes = [[name, 75 * at, 0, 1] for at, name in enumerate(names)]
        ends = {"a": (0, 1), "b": (1, 2), "c": (2, 3), "d": (3, 4), "e": (5, 6)}
        links = [[edge, [0], *places, 10, 5, 75.0, [[0, 0], [75, 0]]] for edge, places in ends.items()]
        self.mapping = map_from("", {**MAP, "nodes": nodes, "links": links, "turns": [], "signals": []})

    def knots(self, *rescued):
        return knots_of([Rescued(*one) for one in rescued], self.mapping)

    def test_which_rescues_are_of_one(self):
        """Those at junctions with a street in common, at most 900 s apart, of which one is inside its junction."""
        one, far = (600, 300, 0, True), (600, 300, 4, True)
        (knot,) = self.knots(one, far, (1500, 1200, 1, False), (2400, 2100, 1, False))
        self.assertEqual((knot.junctions, knot.edges, knot.rescues), (["C", "B"], {"a": 1, "b": 2}, 3))
        self.assertEqual((knot.begin, knot.end), (300, 2400))
        self.assertEqual(self.knots(one, (1501, 1200, 1, False)), [])
        self.assertEqual(self.knots(one, (660, 300, 2, True)), [])
        self.assertEqual(self.knots(one, far), [])

    def test_those_who_stand_at_red_are_none(self):
        """Whoever was rescued stood at its line; of an edge two are told as rescues, for the whole run."""
        rescued = [Rescued(600, 300, 0, False), Rescued(660, 300, 0, False), Rescued(660, 300, 1, False)]
        self.assertEqual(knots_of(rescued, self.mapping), [])
        (doubt,) = doubts_of_rescues(rescued, self.mapping)
        self.assertEqual((doubt.edge, doubt.end), ("a", 0))
        self.assertEqual(doubt.why, "2 rescues of vehicles that stood too long")
        self.assertEqual((knots_told([], self.mapping), rescues_in_knots([])), ("", ""))

    def test_what_is_told(self):
        """Where and when; each of its approaches is doubted while it lasts, of others those of two rescues."""
        rescued = [Rescued(600, 300, 0, True), *3 * [Rescued(900, 600, 1, False)], *2 * [Rescued(900, 600, 4, False)]]
        knots = knots_of(rescued, self.mapping)
        told = knots_told(knots, self.mapping)
        self.assertTrue(told.startswith(", 4 of them in a knot, whose vehicles kept each other from going on"), told)
        places = "Junction C and 1 beside it, 0:05 to 0:15"
        self.assertEqual(KNOTTED.search(f"6 rescues of 9 vehicles (who stood){told}").groups(), ("a knot", places))
        self.assertEqual(rescues_in_knots(knots), " (4 in a knot)")
        doubts = {one.edge: (one.begin, one.end, one.why) for one in doubts_of_rescues(rescued, self.mapping)}
        why = "rescues in a knot, as where SUMO teleports: what is lost there is no delay of a queue"
        self.assertEqual(doubts["a"], (300, 900, f"1 {why}"))
        self.assertEqual(doubts["b"], (300, 900, f"3 {why}"))
        self.assertEqual(doubts["e"], (0, 0, "2 rescues of vehicles that stood too long"))


class Marks(unittest.TestCase):
    def trips(self, *rows, clock=1000):
        return trust.trips_at(clock, 0, rows)

    def test_means_and_over_whom(self):
        """Trips of 20 and 40 s; two are under way for 100 and 300 s; one departs after the end."""
        made = self.trips(row(0, 20), row(10, 50), row(900), row(700), row(1000))
        told = "5 vehicles, 2 arrived, mean trip 30.0 s of these, 200.0 s to date of 2 under way"
        self.assertEqual(made.in_words(), told)
        self.assertEqual(self.trips(row(0, 20)).in_words(), "1 vehicles, 1 arrived, mean trip 20.0 s")
        told = "1 vehicles, 0 arrived, no trip, 1000.0 s to date of 1 under way"
        self.assertEqual(self.trips(row(0)).in_words(), told)

    def test_when_all_had_arrived(self):
        """At the last arrival; never where one is under way; at the begin where nobody departs."""
        self.assertEqual(self.trips(row(0, 20), row(10, 50), row(1000)).all_arrived(), 50)
        self.assertIsNone(self.trips(row(0, 20), row(10)).all_arrived())
        self.assertEqual(trust.trips_at(1000, 300, []).all_arrived(), 300)

    def test_nearly_full_streets(self):
        """Above one passage of them in ten vehicles; most of all those that most pass."""
        self.assertEqual(list(trust.crowding_doubts(300, {"a": 30})), [])
        (told,) = trust.crowding_doubts(300, {"a": 11, "b": 20})
        self.assertTrue(told.startswith("2 streets that give way without a light are nearly full, for 31 passages"))
        self.assertTrue(told.endswith("most of all b, a"))

    def test_lanes_that_wait_for_gaps_are_full(self):
        """Above one passage of them in 20 vehicles; those of the demand's full lanes are passed over that runs
        show."""
        self.assertEqual(list(trust.gap_doubts(300, {"a": 15})), [])
        (told,) = trust.gap_doubts(300, {"a": 21, "b": 40})
        begin = "queues that wait for gaps at lights did not end, for 61 passages of 300"
        self.assertTrue(told.startswith(begin), told)
        self.assertTrue(told.endswith("most of all at the end of b, a"), told)
        waiting, turning = (FullLane("J", name, "left", name, "b", 1.2, 90, waits=name == "a") for name in "ac")
        self.assertEqual(Fullness((waiting, turning), 150, 300).unseen(), Fullness((turning,), 90, 300))

    def test_one_alone(self):
        """One street, passage or vehicle is told in the singular."""
        self.assertEqual(list(trust.crowding_doubts(300, {"a": 31})), [
            "1 street that gives way without a light is nearly full, for 31 passages of 300 vehicles, and its queue "
            "may be other than in SUMO: most of all a",
        ])
        self.assertIn("for 1 passage of 1 vehicle, and", *trust.crowding_doubts(1, {"a": 1}))
        self.assertEqual(
            list(trust.arrival_doubts(self.trips(row(980, 990), row(970)))),
            ["1 of 2 vehicles that had the time to arrive has not"],
        )
        self.assertEqual(
            list(trust.entry_doubts(self.trips(row(0)), [Census(60, 1)])),
            ["1 vehicle waited to enter at 60 s, and is in no queue or count"],
        )

    def test_rescues(self):
        """Above one in a hundred, and more than one."""
        for vehicles, rescues, told in (
            (100, 1, []),
            (100, 2, ["2 rescues of 100 vehicles (these stood too long, and were put down on the next link)"]),
            (1, 1, []),
            (300, 3, []),
        ):
            self.assertEqual(list(trust.rescue_doubts(self.trips(*vehicles * [row(0, 20)]), rescues)), told)

    def test_who_had_the_time_to_arrive(self):
        """More than a tenth; who departs within the free-flow time before the end had not the time."""
        on_time, late, short = 9 * [row(0, 990)], row(970), row(995)
        self.assertEqual(list(trust.arrival_doubts(self.trips(*on_time, late, *9 * [short]))), [])
        told = list(trust.arrival_doubts(self.trips(*on_time, late, late)))
        self.assertEqual(told, ["2 of 11 vehicles that had the time to arrive have not"])

    def test_a_locked_network(self):
        """Nobody arrives for 600 s, though somebody should have for as long; not where nobody is due."""
        self.assertEqual(
            list(trust.arrival_doubts(self.trips(row(0, 400), row(390)))),
            ["the network is locked: nobody has arrived for 600 s, and 1 should have"],
        )
        self.assertEqual(list(trust.arrival_doubts(self.trips(row(0, 400), row(380, free=900.0)))), [])

    def test_queues_at_entries(self):
        made = self.trips(*100 * [row(0, 20)])
        self.assertEqual(list(trust.entry_doubts(made, [Census(60, 5)])), [])
        told = list(trust.entry_doubts(made, [Census(60, 5), Census(120, 6), Census(180, 2)]))
        self.assertEqual(told, ["6 vehicles waited to enter at 120 s, and are in no queue or count"])

    def test_works_that_met_nobody(self):
        """All had arrived at 300 s in one run, at 299 s in another and not in a third; the fourth ended before."""
        runs = [(900, 300), (900, 299), (900, None), (300, None)]
        told = [
            "works on a_0 begin at 300 s, and 1 of 4 runs had ended by then",
            "works on a_0 begin at 300 s, and met nobody in 2 of 4 runs, as all vehicles had arrived by then",
        ]
        self.assertEqual(list(trust.works_doubts([("a_0", 300), ("b_0", 200)], runs)), told)

    def test_actuated_lights(self):
        """More than a tenth of those who depart pass light L; who only comes to it,
        or departs after the end, does not."""
        mapping = map_from("map", {**MAP, "actuated": ["L"]})
        for past, before, told in (
            (1, 9, []),
            (2, 9, ["2 of 11 vehicles pass lights that are actuated in SUMO and show"]),
        ):
            plans = [*past * [([0, 1], 0)], *before * [([0], 0)], ([0, 1], 1000)]
            enters = [Line(2, "", {"plan": plan, "depart": depart}) for plan, depart in plans]
            run = Run("run", Line(1, "", {}), enters=enters)
            found = list(trust.actuated_doubts(1000, run, mapping, mapping.actuated))
            self.assertEqual([text.partition(" their ")[0] for text in found], told)
            self.assertEqual([text.rpartition(": ")[2] for text in found], ["most of all L"] * len(told))

    def test_lengths(self):
        """Street a has 7.5 m and a cell, b a cell for 5 m: over both 20 % more than in SUMO, over a alone as many."""
        short = [[*link[:4], 1, 5, metres, link[7]] for link, metres in zip(MAP["links"], (7.5, 5.0), strict=True)]
        mapping = map_from("map", {**MAP, "links": short})
        for plan, told in (
            ([0], []),
            ([0, 1], ["routes are 20 % longer here than in SUMO, as edges are whole cells: most of all b"]),
        ):
            run = Run("run", Line(1, "", {}), enters=[Line(2, "", {"plan": plan, "depart": 0})])
            self.assertEqual(list(trust.length_doubts(1000, run, mapping)), told)


@needs_simulator
class Runs(Case):
    def run_tool(self, *lines, until=1200, more=()):
        run = self.write(
            "run.jsonl", "".join(json.dumps(line) + "\n" for line in ({"cmd": "load", **NUMBERED}, *lines))
        )
        words = [run, "--map", self.write("map.json", json.dumps(MAP)), "--program", PROGRAM, "--until", until, *more]
        told, _ = self.tool("run", *words, "--out", self.folder / "out")
        return told.splitlines()

    def test_red_for_ever(self):
        enter = {"cmd": "enter", "plan": [0, 1], "lane": 0, "depart": 0}
        told = self.run_tool(RED, enter, more=["--rescue", 0])
        why = "the network is locked: nobody has arrived for 1,200 s, and 1 should have"
        self.assertEqual(
            told,
            ["1 vehicles, 0 arrived, no trip, 1200.0 s to date of 1 under way, 0 rescues", f"not to be trusted: {why}"],
        )
        self.assertEqual(json.loads((self.folder / "out" / NAME).read_text())["not_trusted"], [why])
        told = self.run_tool(RED, enter, more=["--rescue", 0, "--seeds", "3-4", "--departures", "listed"])
        self.assertEqual(told[1], f"seed 3: not to be trusted: {why}")
        self.assertIn("not to be trusted: seeds 3, 4: seed 3: the network is locked: nobody has arrived", told[-1])

    def test_a_run_to_be_trusted(self):
        told = self.run_tool({"cmd": "enter", "plan": [0, 1], "lane": 0, "depart": 0})
        self.assertEqual(len(told), 1)
        self.assertEqual(json.loads((self.folder / "out" / NAME).read_text())["not_trusted"], [])


if __name__ == "__main__":
    unittest.main()
