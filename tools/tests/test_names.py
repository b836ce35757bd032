"""Names that people know: of a network's streets and of a file of one's own, in the map, tables, page and export."""
import csv
import gzip
import json
import unittest

from support import DATA, MAP, PROGRAM, Case, needs_simulator
from streetsim.live.facts import streets_and_areas
from streetsim.model.folder import read_folder
from streetsim.model.mapping import map_from, read_map
from streetsim.model.names import Names, read_own, wind
from streetsim.report.player import played
from streetsim.report.run_series import junction_name_on_path, longest_queues

# A cross, y to the north: Hill Street from the north to the south, Market Street to the east, no name to the west.
EDGES = (
    ("n", "N", "M", "0,200 0,5", 'name="Hill Street"', ""),
    ("s", "M", "S", "0,-5 0,-200", "", 'name="Hill Street"'),
    ("e", "M", "E", "5,0 200,0", 'name="Market Street"', ""),
    ("w", "M", "W", "-5,0 -200,0", "", ""),
    ("i", "W", "M", "-200,-3 -5,-3", "", ""),
)
NODES = {"N": (0, 200), "S": (0, -200), "E": (200, 0), "W": (-200, 0), "M": (0, 0)}


def cross():
    """The network, by hand."""
    parts = ['<net version="1.9">']
    for name, begin, end, shape, own, of_lane in EDGES:
        lane = f'<lane id="{name}_0" index="0" speed="13.9" length="195" shape="{shape}" {of_lane}/>'
        parts.append(f'<edge id="{name}" from="{begin}" to="{end}" priority="1" {own}>{lane}</edge>')
    for name, (x, y) in NODES.items():
        parts.append(f'<junction id="{name}" type="priority" x="{x}" y="{y}"/>')
    for source, targets in {"n": "sew", "i": "es"}.items():
        parts += [f'<connection from="{source}" to="{to}" fromLane="0" toLane="0" state="M"/>' for to in targets]
    return "".join([*parts, "</net>"])


ROUTES = '<routes><flow id="f" begin="0" end="300" number="20"><route edges="n e"/></flow></routes>'


class Crossing(Case):
    def imported(self, *words):
        network, routes = self.write("x.net.xml", cross()), self.write("x.rou.xml", ROUTES)
        run, mapped = self.folder / "x.jsonl", self.folder / "x.map.json"
        self.tool("import", network, "--routes", routes, "-o", run, "--map", mapped, *words)
        return run, mapped

    def names(self, *words):
        return Names(read_map(self.imported(*words)[1]))


class Told(Crossing):
    def test_movements(self):
        names = self.names()
        for edge, to, told in (
            ("n", "e", "Hill Street into Market Street, from the north to the east"),
            ("n", "s", "along Hill Street, from the north to the south"),
            ("n", "w", "Hill Street to the west, from the north"),
            ("i", "e", "from the west into Market Street"),
            ("i", "w", "from the west and back"),
        ):
            self.assertEqual(names.movement(edge, to), told)
        self.assertEqual((names.approach("n"), names.approach("i")), ("Hill Street, from the north", "from the west"))
        self.assertEqual(names.junction("M"), "Hill Street / Market Street")
        self.assertEqual((names.junction("W"), names.junction_told("W")), ("", "Junction W"))

    def test_a_street_in_a_sentence(self):
        """By its name and direction; without one by direction and next junction, over pieces that follow each other."""
        names = self.names()
        for edge, told in (
            ("n", "Hill Street, from the north"), ("i", "the street from the west at Hill Street / Market Street"),
            ("w", "the street from the east at Junction W"), ("unknown", "unknown"),
        ):
            self.assertEqual(names.street_told(edge), told)
        pieces = map_from("", MAP)  # from A over B to C
        self.assertEqual(Names(pieces).junction_ahead("a"), "B", "its light")
        pieces.signals = []
        self.assertEqual(Names(pieces).junction_ahead("a"), "C")

    def test_winds(self):
        points = {"north": (0, 9), "south-east": (5, -5), "west": (-9, 1), "east": (9, 0)}
        self.assertEqual({name: wind((0, 0), point) for name, point in points.items()}, {name: name for name in points})

    def test_names_of_ones_own(self):
        own = self.write("own.csv", "id,name\nM,Town Hall\nw,Quay\nn,\n")
        names = self.names("--names", own)
        self.assertEqual((names.junction("M"), names.street("w"), names.street("n")), ("Town Hall", "Quay", ""))
        self.assertEqual(names.movement("i", "w"), "from the west into Quay")
        for text, told in (
            ("id,name\nx,Y\n", "line 2: the map has no edge or junction 'x'"),
            ("a,b\n", "id, name"),
            ("id,name\nM,Y\nM,Z\n", "line 3: 'M' twice"),
            ("id,name\nM\n", "line 2: expected the columns id, name"),
            ("id,name\nM,Y,Z\n", "line 2: expected the columns id, name"),
        ):
            said = self.tool(
                "import", self.folder / "x.net.xml", "-o", self.folder / "y", "--map", self.folder / "z", "--names",
                self.write("bad.csv", text), status=2,
            )[1]
            self.assertIn(told, said)

    def test_the_name_of_a_light_at_several_junctions_is_that_of_each(self):
        """But of one with a row of its own; an id that a junction has too names that junction alone."""
        mapping = read_map(self.imported()[1])
        number = {name: at for at, (name, *_) in enumerate(mapping.nodes)}
        mapping.signals = [("joined", number["M"]), ("joined", number["W"]), ("joined", number["E"])]
        mapping.signals += [("N", number["N"]), ("N", number["S"])]
        read_own(self.write("own.csv", "id,name\nE,East Gate\njoined,Town Hall\nN,Hilltop\n"), mapping)
        names = Names(mapping)
        self.assertEqual([names.junction(one) for one in "MWENS"], [
            "Town Hall", "Town Hall", "East Gate", "Hilltop", "Hill Street",
        ])

    def test_a_map_without_names_is_as_it_was(self):
        """That of the grid, whose edges have none; and a map of before names has none."""
        run, mapped = self.folder / "g.jsonl", self.folder / "g.json"
        self.tool("import", DATA / "grid.net.xml.gz", "-o", run, "--map", mapped)
        self.assertNotIn("names", json.loads(mapped.read_text()))
        self.assertFalse(Names(read_map(mapped)))

    def test_the_live_page_has_them(self):
        """Also when the network is no longer there."""
        mapped = self.imported()[1]
        (self.folder / "x.net.xml").unlink()
        streets, _ = streets_and_areas(read_map(mapped), mapped)
        self.assertEqual(streets, {"n": "Hill Street", "s": "Hill Street", "e": "Market Street"})


@needs_simulator
class Written(Crossing):
    def setUp(self):
        super().setUp()
        run, mapped = self.imported()
        self.out = self.folder / "out"
        words = ("--until", 600, "--junctions", "--program", PROGRAM, "--out", self.out)
        self.tool("run", run, "--map", mapped, *words)

    def rows(self, name):
        with open(self.out / name, encoding="utf-8") as file:
            return list(csv.DictReader(file))

    def test_tables(self):
        row = self.rows("movements.csv")[0]
        told = [row[name] for name in ("junction_name", "approach_name", "to_name", "approach")]
        self.assertEqual(told, ["Hill Street / Market Street", "Hill Street", "Market Street", "n"])
        self.assertEqual({row["edge_name"] for row in self.rows("edges.csv") if row["edge"] == "w"}, {""})
        self.assertEqual(list(self.rows("counts.csv")[0])[:4], ["begin", "end", "edge", "edge_name"])

    def test_pictures(self):
        """A path along Hill Street crosses Market Street; queues and the player's streets go by their names."""
        folder = read_folder(str(self.out))
        names = Names(folder.mapping)
        self.assertEqual(junction_name_on_path(names, "M", ["n", "s"]), "Market Street")
        self.assertEqual(junction_name_on_path(names, "W", ["n", "s"]), "W")
        links = folder.mapping.links
        numbers = [number for [number] in map(folder.mapping.links_of.get, "nw")]
        lanes = [[link, 0, [[0, links[link].cells - 1, 0]], [], []] for link in numbers]
        (self.out / "rows.bin").unlink()
        with gzip.open(self.out / "lanes.jsonl.gz", "wt") as file:
            file.write(json.dumps({"clock": 10, "lanes": lanes}))
        self.assertEqual({lane for lane, _ in longest_queues(folder, 9)[0]}, {"Hill Street n_0", "w_0"})
        shown = [link["name"] for link in played(folder, 0, 100).run["links"]]
        self.assertEqual(sorted(shown), ["Hill Street", "Hill Street", "Market Street", "i", "w"])

    def test_the_page(self):
        self.tool("report", self.out, "-o", self.folder / "page.html")
        text = (self.folder / "page.html").read_text()
        self.assertIn("Hill Street into Market Street, from the north to the east", text)
        self.assertIn("Hill Street / Market Street", text)


class Exported(Crossing):
    def test_properties(self):
        """By the functions of the export, without pyproj."""
        from streetsim.report.gis_export import edge_properties, name_property

        mapping = read_map(self.imported()[1])
        names = Names(mapping)
        self.assertEqual(edge_properties(mapping, "n") | name_property("street", names.street("n"), names), {
            "name": "n", "from": "N", "to": "M", "lanes": 1, "metres": 195.0, "street": "Hill Street",
        })
        self.assertEqual(name_property("street", names.street("w"), names), {"street": None})
        mapping.names = {}
        self.assertEqual(name_property("street", "", Names(mapping)), {})


if __name__ == "__main__":
    unittest.main()
