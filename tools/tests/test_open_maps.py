"""streetsim-open of a map of OpenStreetMap: its network by netconvert, and what is said to be guessed."""
import os
import subprocess
import unittest
from pathlib import Path

from support import PROGRAM, TOOLS, Case, needs_simulator, needs_sumo
from test_open import NODE, OSM, PLACES

from streetsim.base.files import Fault
from streetsim.sumo.netconvert import guessed_lines, tags_of_map


class Maps(Case):
    def map(self, light=""):
        """The path of two streets that cross; light: the tags of the node where they do."""
        nodes = "\n".join(NODE.format(*place, light if place[0] == 2 else "") for place in PLACES)
        return self.write("two.osm", OSM.format(nodes=nodes))

    def opens(self, *words, status=0):
        variables = {**os.environ, **({"STREETSIM_PROGRAM": PROGRAM} if PROGRAM else {})}
        done = subprocess.run(
            [TOOLS / "streetsim-open", *map(str, words)], cwd=self.folder, capture_output=True, text=True, check=False,
            env=variables,
        )  # fmt: skip
        self.assertEqual(done.returncode, status, done.stderr)
        return done.stdout, done.stderr

    def test_what_a_map_lacks_is_counted(self):
        tags = tags_of_map(self.map('<tag k="highway" v="traffic_signals"/>'))
        self.assertEqual((tags.ways, tags.turn_lanes, tags.signals), (2, 0, 1))
        self.assertEqual(tags.lacking, {"lanes": 0, "maxspeed": 2})
        self.assertEqual([*guessed_lines(tags, 1)], [
            "2 of 2 streets of the map have no limit: guessed",
            "which lanes turn is guessed on 2 of 2 streets",
            "the greens of all 1 lights are guessed: no map has plans (1 signals in the map)",
        ])
        self.assertEqual([*guessed_lines(tags, 0)][-1], "there are no lights, though the map has 1 signals")

    def test_what_is_no_map_is_one_line(self):
        with self.assertRaisesRegex(Fault, "the root is <net>, expected <osm>"):
            tags_of_map(self.write("x.osm", "<net/>"))

    @needs_sumo
    def test_without_vehicles_the_network_is_kept(self):
        told, said = self.opens(Path(self.map()).name, status=2)
        self.assertIn("netconvert --osm-files two.osm --keep-edges.by-vclass passenger", told)
        self.assertIn("a network without routes: name them behind it, or give --vehicles N", said)
        self.assertTrue((self.folder / "two.net.xml").exists())

    @needs_sumo
    @needs_simulator
    def test_a_map_becomes_a_page(self):
        light = '<tag k="highway" v="traffic_signals"/>'
        told, _ = self.opens(Path(self.map(light)).name, "--vehicles", 200, "--until", 900, "--no-open")
        self.assertIn("the greens of all 1 lights are guessed", told)
        self.assertIn("two.html: ", told)


if __name__ == "__main__":
    unittest.main()
