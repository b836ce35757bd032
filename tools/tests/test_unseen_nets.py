"""The maker of networks and demands: by a kind and a seed the same files, of the kind that was asked for."""
import subprocess
import sys
import unittest
import xml.etree.ElementTree as ElementTree
from pathlib import Path

from support import TOOLS, Case, needs_sumo, needs_sumo_tools

BENCH = TOOLS.parent / "bench"
sys.path.insert(0, str(BENCH))
from networks.unseen import make  # noqa: E402


@needs_sumo
@needs_sumo_tools
class Nets(Case):
    def made(self, *words, status=0):
        """What the maker says."""
        command = [sys.executable, str(BENCH / "run"), "unseen-nets", *map(str, words)]
        done = subprocess.run(command, capture_output=True, text=True, check=False)
        self.assertEqual(done.returncode, status, done.stderr)
        return done.stdout + done.stderr

    def folder_of(self, work, kind, *words):
        told = self.made(7, "--work", work, "--kinds", kind, *words)
        return Path(told.partition(": ")[0])

    def test_a_seed_gives_the_same_files_again(self):
        """But for the times and the folders that SUMO notes in comments."""
        for kind in ("street", "nema-cross"):
            one, other = (self.folder_of(self.folder / name, kind, "--level", 0.3) for name in "ab")
            for name in ("net.net.xml", "demand.rou.xml"):
                first, second = (ElementTree.canonicalize(from_file=str(at / name)) for at in (one, other))
                self.assertEqual(first, second, name)

    def test_a_level_has_its_share_of_vehicles(self):
        few, many = (self.folder_of(self.folder, "street", "--level", level) for level in (0.2, 0.6))
        counts = [len(list(ElementTree.parse(at / "demand.rou.xml").iter("vehicle"))) for at in (few, many)]
        self.assertAlmostEqual(counts[1] / counts[0], 3, places=1)
        short = make("street", 7, self.folder, 0.6, seconds=1800)
        self.assertAlmostEqual(short.vehicles / counts[1], 0.5, places=2)
        exact = self.folder_of(self.folder, "street", "--vehicles", 50)
        self.assertEqual(len(list(ElementTree.parse(exact / "demand.rou.xml").iter("vehicle"))), 50)

    def test_kinds_are_what_they_are_called(self):
        states = {"stops": "s", "all-way": "w", "priority": "m", "equal": "=", "zipper": "Z"}
        for kind, state in states.items():
            root = ElementTree.parse(self.folder_of(self.folder, kind, "--vehicles", 20) / "net.net.xml").getroot()
            found = {one.get("state") for one in root.iter("connection")}
            self.assertIn(state, found, kind)
        root = ElementTree.parse(self.folder_of(self.folder, "nema-cross", "--vehicles", 20) / "net.net.xml").getroot()
        self.assertEqual([one.get("type") for one in root.iter("tlLogic")], ["NEMA"])

    def test_flows_are_as_many_as_their_level_says(self):
        counts = []
        for level in (0.4, 0.8):
            made = make("zipper", 7, self.folder, level)
            root = ElementTree.parse(made.routes[0]).getroot()
            counts.append(len(root.findall("vehicle")))
            self.assertEqual({route.get("edges").split()[-1] for route in root.iter("route")}, {"zip-out"})
        self.assertAlmostEqual(counts[1] / counts[0], 2, places=2)

    def test_buses_have_their_lane(self):
        made = make("bus-lane", 7, self.folder, 0.2)
        lanes = [lane for lane in ElementTree.parse(made.net).getroot().iter("lane") if lane.get("allow") == "bus"]
        self.assertTrue(any(lane.get("id").startswith("m0-m1_") for lane in lanes))
        self.assertEqual(made.words, ("--classes", "passenger,bus"))

    def test_buses_stop_on_their_ways(self):
        folder = self.folder_of(self.folder, "bus-arterial", "--vehicles", 200)
        stops = {one.get("id") for one in ElementTree.parse(folder / "stops.add.xml").iter("busStop")}
        lines = list(ElementTree.parse(folder / "buses.rou.xml").iter("flow"))
        halts = [one.get("busStop") for line in lines for one in line.iter("stop")]
        self.assertTrue(lines and halts)
        self.assertLessEqual(set(halts), stops)

    def programs(self, kind):
        """The phases of each light of a network: seconds and state."""
        root = ElementTree.parse(make(kind, 7, self.folder, vehicles=20).net).getroot()
        return [[(int(one.get("duration")), one.get("state")) for one in light] for light in root.iter("tlLogic")]

    def test_programs_are_what_their_kinds_say(self):
        for phases in self.programs("walks"):
            self.assertEqual(set(phases[-1][1]), {"r"})
            self.assertIn(phases[-1][0], (12, 15, 20))
        for phases in self.programs("short-cycle"):
            self.assertEqual(sum(seconds for seconds, _ in phases), 40)
        letters = {letter for light in self.programs("two-lefts") for _, state in light for letter in state}
        self.assertEqual(letters, {*"Gyr"})
        greens = {phases[0][0] for phases in self.programs("poor-splits")}
        self.assertGreater(len(greens), 1)

    def test_a_banned_turn_is_none(self):
        made = make("banned-turns", 7, self.folder, vehicles=20)
        root = ElementTree.parse(made.net).getroot()
        lefts = [one for one in root.iter("connection") if one.get("tl") and one.get("dir") == "l"]
        lit = [one for one in root.iter("junction") if one.get("type") == "traffic_light"]
        self.assertGreater(made.drawn["banned"], 0)
        self.assertEqual(len(lefts), 4 * len(lit) - made.drawn["banned"])

    def test_a_peak_has_more_than_its_share(self):
        made = make("morning-peak", 7, self.folder, 0.5, seconds=1800)
        departs = [float(one.get("depart")) for one in ElementTree.parse(made.routes[0]).iter("vehicle")]
        quarters = [sum(depart // 450 == at for depart in departs) for at in range(4)]
        self.assertGreater(max(quarters), 1.4 * min(quarters))

    def test_what_is_asked_wrongly_ends_in_one_line(self):
        told = self.made(7, "--work", self.folder, "--kinds", "villages", status=2)
        self.assertRegex(told, r"^bench/run unseen-nets: argument --kinds: 'villages' is none of street, .*\n$")
        self.assertIn("a seed and --work FOLDER are needed", self.made("--work", self.folder, status=2))


if __name__ == "__main__":
    unittest.main()
