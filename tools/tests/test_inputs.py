"""Inputs as they come: packed or with a byte order mark, whatever their names."""
import csv
import gzip
import json
import unittest

from support import FORK, MAP, NUMBERED, Case
from streetsim.base.files import Fault, elements, open_text, read_json
from streetsim.base.seeds import seeds_of
from streetsim.model.mapping import map_from
from streetsim.model.names import read_own
from streetsim.model.runs import read_run
from streetsim.model.tables import SEEDS, read_table
from streetsim.search.study_variants import read_study

MARK = b"\xef\xbb\xbf"  # a byte order mark
ENTER = {"cmd": "enter", "plan": [0, 1], "lane": 0, "depart": 0}
RUN = f"{json.dumps({'cmd': 'load', **NUMBERED})}\n{json.dumps(ENTER)}\n".encode()


# A map of version 1, which tells no version: rows are lists, and what an import found stands in them too.
OLD = {
    **MAP,
    "cars": ["v"],
    "yields": [[1, [[0, 0, 1]], [[1, 0, 0, [5.0, 1.0, 4.0], False]], [2, 6.0]]],
    "detectors": [["e", "e1", 0, 0, 3, 3, 60]],
    "visits": [[0, 1, "stop", 1, 0, 2, 4, 20, None, 1.5, 2.0]],
    "switches": [[0, "L", "day"]],
    "full": {"lanes": [["B", "a_0", "left", "a", "b", 0.9, 1]], "vehicles": 1, "of": 1},
    "starts": ["B", "a", "b", 0.5, 1, 1],
}


class Maps(unittest.TestCase):
    def written(self):
        """The old map as the file of one is written now."""
        return json.loads(json.dumps(map_from("old", OLD).written()))

    def test_rows_of_version_1_are_those_of_now(self):
        old, value = map_from("old", OLD), self.written()
        self.assertEqual(map_from("new", value), old)
        self.assertEqual((old.yields[0].foes[0].gap.least, old.yields[0].pace.hidden), (4.0, 6.0))
        self.assertEqual((old.visits[0].starting, old.starts.seconds, old.full.lanes[0].demand), (2.0, 0.5, 0.9))
        self.assertEqual(value["version"], 3)
        self.assertEqual(value["links"]["edge"], ["a", "b"])
        nodes = {"junction": ["A", "B", "C"], "x": [0, 75, 150], "y": [0] * 3, "residence": [1] * 3}
        self.assertEqual(value["nodes"], nodes)

    def test_fields_have_names(self):
        """In any order, and without those that have usual values."""
        value = self.written()
        turns = {name: value["turns"][name] for name in sorted(value["turns"]) if name not in ("speed", "accel")}
        self.assertEqual(map_from("x", {**value, "turns": turns}).turns, map_from("x", value).turns)

    def test_other_maps_are_refused(self):
        value = self.written()
        for more, told in (
            ({"version": 4}, "x: a map of version 4, and these tools read 1 to 3: import the run anew"),
            ({"turns": {**value["turns"], "lane": []}}, "x: not a map that streetsim-import wrote"),
            ({"turns": {**value["turns"], "colour": [1]}}, "x: not a map that streetsim-import wrote"),
            ({"yields": ["soon"]}, "x: not a map that streetsim-import wrote"),
            ({"signals": 7}, "x: not a map that streetsim-import wrote"),
        ):
            with self.subTest(more), self.assertRaisesRegex(Fault, told):
                map_from("x", {**value, **more})


class Bytes(Case):
    def put(self, name, content):
        path = self.folder / name
        path.write_bytes(content)
        return str(path)

    def test_gzip_by_content(self):
        for name in ("x.net.xml", "x.net.xml.gz"):
            for content in (FORK.encode(), gzip.compress(FORK.encode())):
                tags = [element.tag for element in elements(self.put(name, content), ["net"])]
                self.assertEqual(tags.count("edge"), 3, name)
        for name in ("r.jsonl", "r.jsonl.gz"):
            for content in (RUN, gzip.compress(RUN)):
                self.assertEqual(len(read_run(self.put(name, content)).enters), 1)

    def test_half_a_gzip_file_is_a_fault(self):
        with self.assertRaisesRegex(Fault, "x.net.xml: cannot be read"):
            list(elements(self.put("x.net.xml", gzip.compress(FORK.encode())[:-20]), ["net"]))

    def test_what_no_reader_takes_is_a_fault(self):
        """A cell of a table above 131,072 letters, as an open quotation mark makes one; a number of more digits than
        Python reads; lists within lists without an end; a row with more cells than its table has columns."""
        row = "1,2,1,30.0,0\n"
        self.assertEqual(len(read_table(self.put("s.csv", f"{','.join(SEEDS)}\n{row}".encode()), SEEDS)), 1)
        mapping = map_from("m", MAP)
        for read, text in (
            (lambda path: read_table(path, SEEDS), f"{','.join(SEEDS)}\n\"{row * 20_000}"),
            (lambda path: read_table(path, SEEDS), f"{','.join(SEEDS)}\n7,{row}"),
            (lambda path: read_own(path, mapping), f"id,name\na,\"{'a,b' * 50_000}"),
            (lambda path: read_json(path, ()), f'{{"a": {"7" * 5000}}}'),
            (lambda path: read_json(path, ()), "[" * 100_000),
            (read_run, f'{{"cmd":"load","seed":{"[" * 100_000}}}'),
        ):
            path = self.put("x", text.encode())
            told = f"{path}: (cannot be read|line 2|line 1 is no command)"
            with self.subTest(text[:40]), self.assertRaisesRegex(Fault, told):
                read(path)
        for text in ("7" * 5000, f"1-{'7' * 5000}"):
            with self.assertRaisesRegex(Fault, "--seeds '.*': expected FIRST-LAST"):
                seeds_of(text, "--seeds")

    def test_byte_order_marks(self):
        self.assertEqual(len(read_run(self.put("r.jsonl", MARK + RUN)).enters), 1)
        self.assertEqual(read_json(self.put("m.json", MARK + json.dumps(MAP).encode()), ["cars"])["cars"], [])
        with open_text(self.put("t.csv", MARK + b"a,b\r\n")) as file:
            self.assertEqual(file.read(), "a,b\r\n")
        self.assertEqual(len(list(elements(self.put("x.net.xml", MARK + FORK.encode()), ["net"]))), 9)
        with self.assertRaisesRegex(Fault, "no 'map' in it"):
            read_study(self.put("s.toml", MARK + b'run = "r.jsonl"\n'), None)

    def test_a_pipe_is_read_once(self):
        said = self.tool("import", "/dev/stdin", "-o", self.folder / "r", "--map", self.folder / "m", status=2)[1]
        self.assertIn("/dev/stdin: not XML", said)


CONFIGURATION = """<configuration><input><net-file value="x.net.xml"/>\
<route-files value="a.rou.xml, b.rou.xml"/></input>
<time><begin value="0:0:10"/><end value="60"/><step-length value="0.5"/></time><seed value="7"/>
<tripinfo-output value="t.xml"/><no-step-log value="true"/></configuration>"""


class Configurations(Case):
    def imported(self, text, first, *words, status=0):
        self.write("x.net.xml", FORK), self.write("a.rou.xml", f"<routes>{first}</routes>")
        self.write("b.rou.xml", '<routes><vehicle id="late" depart="60"><route edges="a c"/></vehicle></routes>')
        self.write("x.sumocfg", text)
        outputs = ("-o", self.folder / "r.jsonl", "--map", self.folder / "m.json")
        return self.tool("import", "-c", self.folder / "x.sumocfg", *outputs, *words, status=status)[1]

    def test_a_configuration(self):
        text = (
            '<vehicle id="soon" depart="9"><route edges="a b"/></vehicle><vehicle id="v" depart="12"><route '
            'edges="a b"/></vehicle>'
        )
        said = self.imported(CONFIGURATION, text)
        self.assertEqual(read_json(self.folder / "m.json", ["cars"])["cars"], ["v"])
        load = read_run(self.folder / "r.jsonl").load.command
        self.assertEqual((load["start"], load["seed"]), (10, 7))
        for line in (
            "warning: the configuration's step-length 0.5 is not done: steps are of one second",
            "ignored: 1 x tripinfo-output of the configuration (streetsim-run --sumo-output writes SUMO's files)",
            "1 vehicles that depart at the end, 60 s, or later are left out",
            "skipped: 1 vehicles: departs before the begin",
        ):
            self.assertIn(line, said.splitlines())
        self.imported(CONFIGURATION, text, "--begin", "0", "--seed", "3")
        self.assertEqual(read_json(self.folder / "m.json", ["cars"])["cars"], ["soon", "v"])
        self.assertEqual(read_run(self.folder / "r.jsonl").load.command["seed"], 3)

    def test_trips_of_a_configuration(self):
        said = self.imported(CONFIGURATION, '<trip id="t" depart="12" from="a" to="c"/>')
        self.assertIn("trips have the ways that are shortest", said)
        run, value = read_run(self.folder / "r.jsonl"), read_json(self.folder / "m.json", ["links"])
        self.assertEqual(
            [[value["links"]["edge"][link] for link in line.command["plan"]] for line in run.enters], [["a", "c"]]
        )

    def test_a_table_of_all_that_is_said(self):
        table = self.folder / "w.csv"
        text = '<vehicle id="v" depart="12" departPos="3"><route edges="a b"/></vehicle><person id="p" depart="1"/>'
        said = self.imported(CONFIGURATION, text, "--warnings", table)
        rows = list(csv.reader(table.read_text(encoding="utf-8").splitlines()))
        weights = [row[0] for row in rows[1:]]
        self.assertEqual(rows[0], ["weight", "what", "names", "do"])
        self.assertEqual(weights, sorted(weights, key=["changes results", "told", "no effect"].index))
        told = "1 edges became parallel links of one or two lanes, between which nobody changes lane: a"
        self.assertIn(["changes results", told, "a", "--joint EDGES joins their lanes"], rows)
        self.assertIn(["no effect", "1 x departPos of vehicles", "", ""], rows)
        first = [line.split(":")[0] for line in said.splitlines()]
        self.assertLess(max(at for at, word in enumerate(first) if word == "warning"), first.index("ignored"))

    def test_no_end(self):
        """SUMO's own value for none."""
        said = self.imported(CONFIGURATION.replace('"60"', '"-1"'), "")
        self.assertNotIn("that depart at the end", said)
        self.assertEqual(read_json(self.folder / "m.json", ["cars"])["cars"], ["late"])

    def test_an_end_before_the_begin(self):
        """SUMO refuses it too."""
        told = "streetsim-import: the end, 60 s, is not after the begin, 60 s: nobody would depart\n"
        self.assertEqual(self.imported(CONFIGURATION, "", "--begin", 60, status=2), told)

    def test_faults(self):
        self.assertIn(
            "x.sumocfg: names no network (net-file)", self.imported("<c><begin value='1'/></c>", "", status=2)
        )
        said = self.imported("<c><n v='x.net.xml'/><net v='x.net.xml'/><begin v='soon'/></c>", "", status=2)
        self.assertIn("--begin: 'soon' is not 0 to 1,000,000,000 s", said)
        said = self.tool("import", "-o", self.folder / "r", "--map", self.folder / "m", status=2)[1]
        self.assertIn("no network: give NET.net.xml, or -c FILE.sumocfg", said)


if __name__ == "__main__":
    unittest.main()
