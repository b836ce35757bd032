"""Contradictory, empty, huge and misspelt inputs of streetsim-demand and streetsim-compare --counts end in one line."""
import json
import unittest

from support import FORK, MAP, lane, net
from test_counts import HEAD, HOURGLASS, Tool, needs_scipy
from streetsim.base.files import Fault
from streetsim.cli import compare
from streetsim.demand import passing
from streetsim.model.tables import EDGES, TRIPS

O_FORMAT = "$OR;D2\n* times\n7.00 8.00\n* factor\n1.00\n"
V_FORMAT = "$VMR;D2\n4\n7.00 8.00\n1.00\n2\n1 2\n"

# What a user slips in, and what the one line then says.
COUNTS = (
    ("begin,end,from,to,vehicle\n0,900,a,b,3\n", "line 1: no column 'vehicles'; it has begin,end,from,to,vehicle"),
    ("begin,end,from,to,vehicles,clas\n0,900,a,b,3,x\n", "line 1: column 'clas' is none of .*: 'class'\\?"),
    ("", "nothing is in it; expected the columns begin,end,from,to,vehicles"),
    (HEAD, "no count is in it"),
    (HEAD + '0,900,a,b,3\n0,900,a,"c,3\n0,900,b,,3\n', "line 3: not CSV: unexpected end of data"),
    ("\n" + HEAD + '"0",900,a,b,"3\n"\n0,900,aa,b,3\n', "line 5: the network has no edge 'aa'"),
    (HEAD + "0,900,a,b\n", "line 2: 4 values, and the first line has 5 columns"),
    (HEAD + "0,900,aa,b,3\n", "line 2: the network has no edge 'aa': 'a'\\?"),
    (HEAD + "0,900,b,c,3\n", "line 2: no connection leads from edge 'b' to edge 'c'"),
    (HEAD + "0,900,a,b,3\n0,900,a,b,4\n", "line 3: a b is counted a second time in this period \\(as .*line 2\\)"),
    (HEAD + "0,900,a,b,3\n600,1500,a,b,4\n", "line 3: a b is counted already until 900 s"),
    (HEAD + "900,0,a,b,3\n", "line 2: the period ends at 0 s, and begins at 900 s"),
    (HEAD + "0,900,a,b,-3\n", "line 2: vehicles '-3' is no number of vehicles"),
    (HEAD + "0,900,a,b,many\n", "line 2: vehicles 'many' is no number of vehicles"),
    (HEAD + "0,900,a,b,nan\n", "line 2: vehicles 'nan' is no number of vehicles"),
    (HEAD + "0,900,a,b,1e9\n", "line 2: 1,000,000,000 vehicles in 900 s are more than one a second and lane"),
    (HEAD + "7:00,7:61,a,b,3\n", "line 2: end '7:61' is no time in whole seconds, HH:MM or HH:MM:SS"),
    (HEAD + "0,900,,b,3\n", "line 2: from '' names nothing"),
    (HEAD + "0,900,a,b,0\n0,900,a,c,0\n", "line 2 and 1 more: all counts are 0"),
    ("begin,end,from,to,vehicles,class\n0,900,a,b,3,trcuk\n", "line 2: SUMO has no vehicle class 'trcuk'"),
    ("<routes/>", "the root is <routes>, expected <meandata>"),
    ("<data><interval begin='0' end='9'><edge id='a' seen='3'/></interval></data>", "line 1: <edge> has no count"),
    ("<data>\n<edge id='a' count='3'/></data>", "line 2: <edge> stands in no <interval>"),
    ("<data>\n<interval begin='0' end='9'>", "not XML: no element found"),
    ("<data><interval begin='0' end='9'><edge id='a' count='x'/></interval></data>", "count='x' is no number"),
)
MATRICES = (
    ("from,to,vehicles\n1,3,5\n", "line 2: there is no zone '3'"),
    ("from,to,vehicles\n1,2,5\n1,2,6\n", "line 3: 1 to 2 a second time, as .*line 2"),
    (
        "from,to,vehicles,begin,end\n1,2,5,0,900\n2,1,5,0,900\n1,2,6,600,1500\n",
        "line 4: 1 to 2 is given already until 900 s, by .*line 2",
    ),
    ("from,to,vehicles\n1,2,0\n", "line 2 and 0 more: the matrix is empty"),
    (O_FORMAT + "1 2\n", "line 6: expected from, to and vehicles"),
    (O_FORMAT + "1 2 x\n", "line 6: 'x' is no number of vehicles"),
    (V_FORMAT + "1 2\n", "ends after 0 of 2 vehicles from 2"),
    ("$XR;D2\n", "line 1: '\\$XR;D2' is neither SUMO's O format \\(\\$OR\\) nor its V format \\(\\$VMR\\)"),
    ("$OR;D2\n7 8\n1.0\n", "line 2: '7' is no time as HH.MM"),
)
ZONES = (
    ("zone,edges\n1,a\n1,b\n", "line 3: a second zone '1'"),
    ("zone,edges\n1,q\n", "line 2: the network has no edge 'q'"),
    ("<tazs>\n<tazSource id='a' weight='1'/><taz id='1' edges='a'/></tazs>", "line 2: <tazSource> is no zone"),
    ("<additional><taz id='1'/></additional>", "line 1: zone '1' has no edges"),
    ("<additional>\n<poly id='1'/></additional>", "line 2: <poly> is no zone"),
    ("<taz id='1' edges='a'/>", "the root is <taz>, expected <additional> or <add> or <tazs>"),
)


@needs_scipy
class Faults(Tool):
    def fault(self, *words, network=FORK):
        """The one line with which a demand ends."""
        with self.assertRaises(Fault) as raised:
            self.demand(network, *words)
        told = str(raised.exception)
        self.assertNotIn("\n", told)
        self.assertFalse((self.folder / "o.rou.xml").exists())
        return told

    def test_counts(self):
        for text, told in COUNTS:
            with self.subTest(text=text):
                self.assertRegex(self.fault("--counts", self.write("c.csv", text)), told)

    def test_matrices_and_zones(self):
        zones, counts = self.write("z.csv", "zone,edges\n1,a\n2,b c\n"), self.write("c.csv", HEAD + "0,900,a,b,3\n")
        for text, told in MATRICES:
            with self.subTest(text=text):
                matrix = self.write("m.csv", text)
                self.assertRegex(self.fault("--counts", counts, "--matrix", matrix, "--zones", zones), told)
        matrix = self.write("m.csv", "from,to,vehicles\n1,2,5\n")
        for text, told in ZONES:
            with self.subTest(text=text):
                zones = self.write("z.csv", text)
                self.assertRegex(self.fault("--counts", counts, "--matrix", matrix, "--zones", zones), told)
        self.assertIn("there is no zone '1': give zones", self.fault("--counts", counts, "--matrix", matrix))
        self.assertIn("no columns begin and end", self.fault("--matrix", matrix))
        loose = self.write("m.xml", '<data><tazRelation from="1" to="2" count="5"/></data>')
        self.assertIn("line 1: <tazRelation> stands in no <interval>", self.fault("--matrix", loose))

    def test_a_network_without_a_connection(self):
        network = net([("a", "A", "B", [lane("a", 0)]), ("b", "B", "C", [lane("b", 0)])], [])
        told = self.fault("--counts", self.write("c.csv", HEAD + "0,900,a,,3\n"), network=network)
        self.assertIn("no way leads from any place where trips begin to one where they end", told)

    def test_ratios(self):
        flow = '<routes><flow id="f" from="{}" begin="0" end="900" number="9" {}/></routes>'
        turns = (
            '<turns><interval begin="0" end="900"><fromEdge id="{}"><toEdge id="{}" probability="1"/></fromEdge>'
            "</interval>{}</turns>"
        )
        for one, other, told in (
            (flow.format("a", 'to="b"'), turns.format("a", "b", ""), "it has an end (to)"),
            (flow.format("w", 'route="r"'), turns.format("w", "m", ""), "it has an end (route)"),
            (flow.format("w", 'toTaz="z"'), turns.format("w", "m", ""), "it has an end (toTaz)"),
            (flow.format("w", 'via="m"'), turns.format("w", "m", ""), "it has an end (via)"),
            (flow.format("w", ""), turns.format("w", "m", ""), "edge 'm' leads to 2 others, and no turn ratio holds"),
            (flow.format("w", ""), turns.format("w", "e", ""), "no connection leads from edge 'w' to edge 'e'"),
            (flow.format("w", ""), turns.format("w", "m", '<sink edges="z"/>'), "<sink>: the network has no edge 'z'"),
            ("<routes/>", turns.format("w", "m", ""), "no flow is in it"),
            (flow.format("w", ""), "<turns/>", "no turn ratio is in it"),
        ):
            files = "--flows", self.write("f.xml", one), "--ratios", self.write("t.xml", other)
            self.assertIn(told, self.fault(*files, network=HOURGLASS))

    def test_words(self):
        counts = self.write("c.csv", HEAD + "0,900,a,b,3\n")
        routes = self.write("r.rou.xml", '<routes><route id="x" edges="b a"/></routes>')
        self.assertIn("nothing to make a demand of", self.fault())
        self.assertIn("--flows and --ratios are given together", self.fault("--flows", routes))
        self.assertIn("--ways 0 leaves no candidates", self.fault("--counts", counts, "--ways", 0))
        self.assertIn("--runs compares with counts", self.fault("--matrix", counts, "--runs", 1))
        self.assertIn("'2' is not 0 to 1", self.fault("--counts", counts, "--error", 2))
        told = "--attribute is of --counts: give it too"
        self.assertEqual(self.fault("--matrix", counts, "--attribute", "seen"), told)
        flows = "--flows", routes, "--ratios", routes
        self.assertIn("give no --matrix, --zones, --candidates or --ways beside", self.fault(*flows, "--ways", 2))
        self.assertIn("--end is of files of vehicles", self.fault("--counts", counts, "--end", 900))
        told = "--begin 100: what is given begins sooner, at 0 s"
        self.assertEqual(self.fault("--counts", counts, "--begin", 100), told)
        files = "--counts", counts, "--candidates", routes
        self.assertIn("no connection leads from edge 'b' to 'a'", self.fault(*files))
        self.assertIn("No such file", self.fault("--counts", self.folder / "none.csv"))
        for read in (self.folder / "o.rou.xml", f"{counts},{self.folder / 'o.rou.xml'}"):
            self.assertIn("-o names a file that is read", self.fault("--counts", read))
        many = "".join(f"{at},{at + 1},a,b,1\n" for at in range(200))
        self.assertIn("unknowns", self.huge(self.write("c.csv", HEAD + many)))

    def huge(self, counts):
        """A demand of more unknowns than are taken, of which two are enough here."""
        most, passing.MOST_UNKNOWNS = passing.MOST_UNKNOWNS, 100
        try:
            return self.fault("--counts", counts)
        finally:
            passing.MOST_UNKNOWNS = most

    def test_compare(self):
        self.write("setting.json", json.dumps({"map": MAP, "signals": [], "dawdle": 0, "every": 0, "period": 900}))
        self.write("trips.csv", ",".join(TRIPS) + "\n")
        self.write("edges.csv", ",".join(EDGES) + "\n0,900,a,1,1,0.50,40.50,6.67\n")
        for row, told in (
            ("0,900,q,,3", "the run's map has no edge 'q'"),
            ("0,900,b,a,3", "no turn leads from edge 'b' to edge 'a' in the run"),
            ("900,1800,a,,3", "counted from 900 s on, and .* ends at 900 s"),
            ("0,900,a,b,3", "neither this place and period in its tables nor rows.bin"),
        ):
            with self.assertRaisesRegex(Fault, told):
                compare.main([str(self.folder), "--counts", self.write("c.csv", f"{HEAD}{row}\n")])
        for words, told in (
            ((), "what to compare with"),
            (("--sumo", "x", "--counts", "y"), "comparisons of their own"),
            (("--sumo", "x", "--out", "y"), "--out is of --counts"),
        ):
            with self.assertRaisesRegex(Fault, told):
                compare.main([str(self.folder), *words])

    def test_one_line_and_status_2(self):
        network, counts = self.write("n.net.xml", FORK), self.write("c.csv", HEAD + "0,900,a,q,3\n")
        outputs = "-o", self.folder / "o.rou.xml", "--out", self.folder / "out"
        out, error = self.tool("demand", network, "--counts", counts, *outputs, status=2)
        self.assertEqual((out, error), ("", f"streetsim-demand: {counts}: line 2: the network has no edge 'q'\n"))


if __name__ == "__main__":
    unittest.main()
