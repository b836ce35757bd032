"""Texts of tables that a spreadsheet would run, and folders that commands find where they write."""
import csv
import json
import unittest

from support import MAP, NUMBERED, PROGRAM, Case, needs_simulator
from streetsim.base.files import Fault
from streetsim.demand.matrices import read_matrices
from streetsim.model.mapping import map_from
from streetsim.model.names import read_own
from streetsim.model.tables import read_table, write_table

HEADER = ("id", "edge", "line")
# OWASP's list of begins of cells that spreadsheets run, and texts that are none of these.
RUN = ["=1+1", '=HYPERLINK("http://x","y")', "+1+cmd|' /C calc'!A0", "-2+3+cmd|' /C calc'!A0", "@SUM(1)", "\t=1"]
PLAIN = ["-12345#0", "-gneE4", "--a", ":J1_0", "a=b", "-7.5", "+3.5", "12", "", "'", "'a", "it's", " x", "é", "-"]


class Guarded(Case):
    def test_no_cell_runs(self):
        path = self.folder / "x.csv"
        texts = [*RUN, *(f"'{text}" for text in RUN), *(f"''{text}" for text in RUN), *PLAIN]
        write_table(path, HEADER, [(text, text, text) for text in texts])
        with open(path, encoding="utf-8", newline="") as file:
            cells = [row[0] for row in csv.reader(file)][1:]
        self.assertEqual(cells[: len(RUN)], [f"'{text}" for text in RUN])
        self.assertEqual(cells[-len(PLAIN) :], PLAIN)
        self.assertEqual([row["id"] for row in read_table(path, HEADER)], texts)

    def test_a_cell_behind_thousands_that_do_not_run(self):
        """Rows come one by one; 1, 1.0 and True, which are equal, stand as they are."""
        path, plain = self.folder / "x.csv", [("a", one, "b") for one in (1, 1.0, True)]
        safe = {"=1": "'=1", "\t": "'\t", "c\rd": "c d"}
        for row in (("=1", 1, "b"), ("a", 1, "\t"), ("c\rd", 1, "b")):
            with self.subTest(row):
                write_table(path, HEADER, (iter(one) for one in [*plain * 3_000, row, *plain]))
                with open(path, encoding="utf-8", newline="") as file:
                    found = [*csv.reader(file)][1:]
                self.assertEqual(found[9_000], [safe.get(one, str(one)) for one in row])
                self.assertEqual((len(found), [one for _, one, _ in found[9_001:]]), (9_004, ["1", "1.0", "True"]))

    def test_a_table_of_other_versions(self):
        """Last columns that are not there are empty, further ones are given; without an earlier column, or with one
        twice, it is none; each row is looked at as before."""
        header = ("id", "begin", "edge", "v_c")
        for text, found in (
            ("id,begin,edge,v_c\na,1,e,0.5\n", ["a", "1", "e", "0.5"]),
            ("id,begin,edge\na,1,e\n", ["a", "1", "e", ""]),
            ("id,begin\na,1\n", ["a", "1", "", ""]),
            ("id,begin,edge,v_c,doubt\na,1,e,,x\n", ["a", "1", "e", "", "x"]),
        ):
            with self.subTest(text):
                self.assertEqual([list(row.values()) for row in map(dict, self.sorted_as(header, text))], [found])
        for text, told in (
            ("id\na\n", "expected the columns id, begin, edge, v_c"),
            ("id,edge,v_c\na,e,1\n", "expected the columns id, begin, edge, v_c"),
            ("id,begin,edge,begin\na,1,e,2\n", "expected the columns id, begin, edge, v_c"),
            ("", "expected the columns id, begin, edge, v_c"),
            ("id,begin\na,x\n", "line 2: begin = 'x' is no number"),
            ("id,begin\na,inf\n", "line 2: begin = 'inf' is no number"),
            ("id,begin\na\n", "line 2: expected 2 cells"),
            ("id,begin\na,1,2\n", "line 2: expected 2 cells"),
        ):
            with self.subTest(text), self.assertRaisesRegex(Fault, told):
                self.sorted_as(header, text)

    def sorted_as(self, header, text):
        """The rows of a table of a text, with their columns in the order of a header, and further ones behind."""
        rows = read_table(self.write("t.csv", text), header)
        return [{name: row[name] for name in [*header, *(one for one in row if one not in header)]} for row in rows]

    def test_names_and_matrices_are_read_back(self):
        names = self.write("n.csv", "id,name\na,'=Main\n")
        mapping = map_from("m", MAP)
        read_own(names, mapping)
        self.assertIn("=Main", json.dumps(mapping.names))
        matrix = self.write("m.csv", "from,to,vehicles,begin,end\n'=a,'@b,3,0,60\n")
        [cell] = read_matrices([matrix], None)
        self.assertEqual((cell.source, cell.target), ("=a", "@b"))


@needs_simulator
class Commands(Case):
    def test_a_vehicle_whose_name_would_run(self):
        load, enter = {"cmd": "load", **NUMBERED}, {"cmd": "enter", "plan": [0], "lane": 0, "depart": 0}
        run = self.write("run.jsonl", "".join(json.dumps(line) + "\n" for line in (load, enter)))
        mapped = self.write("map.json", json.dumps({**MAP, "cars": ["=1+1"]}))
        self.tool("run", run, "--map", mapped, "--until", 60, "--program", PROGRAM, "--out", self.folder / "out")
        self.assertIn("\n'=1+1,0,", (self.folder / "out/trips.csv").read_text())

    def test_each_command_leaves_what_is_not_its_own(self):
        """With files of somebody else in --out each ends before it reads anything, in one line, and writes nothing."""
        out = self.folder / "out"
        out.mkdir()
        (out / "trips.csv").write_text("mine")
        for tool, *words in (
            ("run", "x.jsonl", "--map", "x.json"),
            ("study", "x.toml"),
            ("signals", "x.jsonl", "--map", "x.json", "--plans", "x.net.xml", "--until", 9, "-o", self.folder / "y"),
            ("route", "x.net.xml", "--trips", "x.xml", "-o", self.folder / "y"),
            ("demand", "x.net.xml", "--counts", "x.csv", "-o", self.folder / "y"),
            ("compare", "x", "--counts", "x.csv"),
            ("calibrate", "x.net.xml", "--counts", "x.csv", "--times", "x.csv", "-o", self.folder / "y"),
        ):
            with self.subTest(tool):
                told = self.tool(tool, *words, "--out", out, status=2)[1]
                self.assertRegex(told, f"^streetsim-{tool}: {out}: has no setting.json of a run of the tools: ")
                told = self.tool(tool, *words, "--out", out, "--force", status=2)[1]
                self.assertNotIn("of a run of the tools", told)
        self.assertEqual([path.name for path in self.folder.rglob("*")], ["out", "trips.csv"])

    def test_an_example_goes_where_the_same_files_are(self):
        self.tool("example", "corridor", "--out", self.folder / "a")
        self.tool("example", "corridor", "--out", self.folder / "a")
        (self.folder / "a/corridor.rou.xml").write_text("mine")
        told = self.tool("example", "corridor", "--out", self.folder / "a", status=2)[1]
        self.assertIn("corridor.rou.xml is there, and is another file", told)
        self.assertEqual((self.folder / "a/corridor.rou.xml").read_text(), "mine")


if __name__ == "__main__":
    unittest.main()
