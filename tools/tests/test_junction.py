"""streetsim-junction: networks, plans and flows of sheets beside those of plain files made by hand; slips by cell."""
import csv
import gzip
import os
import re
import subprocess
import unittest
import xml.etree.ElementTree as ElementTree
from contextlib import redirect_stderr
from importlib.util import find_spec
from io import StringIO

from junction_cases import BY_HAND, RILSA_1, SLIPS
from support import DATA, SCENARIOS, Case, needs_package, needs_sumo, needs_sumo_tools

from streetsim.base.files import Fault
from streetsim.sheet.flows import count_rows, flows_text
from streetsim.sheet.network import build
from streetsim.sheet.plans import check_conflicts, plan_text
from streetsim.sheet.reading import read_layout
from streetsim.sheet.slips import Slips
from streetsim.sheet.templates import TEMPLATES, template

OFFICE_POCKETS = {",60\n": ",56.4\n", ",80\n": ",79.6\n"}  # those of the stored network, from its stop lines
RILSA = SCENARIOS.parent / "RiLSA1"
WALKING = re.compile(r'<lane index="0" allow="pedestrian"/>|<crossing .*?/>')


def parts_of(net):
    """What is compared of a network: edges, lanes, connections with link indices, and who gives way."""
    root = ElementTree.fromstring(net)
    edges = [one for one in root.iter("edge") if not one.get("id").startswith(":")]
    lanes = {
        lane.get("id"): (edge.get("from"), edge.get("to"), lane.get("speed"), round(float(lane.get("length"))))
        for edge in edges for lane in edge.iter("lane")
    }  # fmt: skip
    names = ("from", "to", "fromLane", "toLane", "dir", "state", "tl", "linkIndex")
    connections = sorted(
        tuple(str(one.get(name)) for name in names)
        for one in root.iter("connection") if not one.get("from").startswith(":")
    )  # fmt: skip
    requests = {
        one.get("id"): [(request.get("response"), request.get("foes")) for request in one.iter("request")]
        for one in root.iter("junction") if one.get("type") not in ("internal", "dead_end")
    }  # fmt: skip
    return lanes, connections, requests


def phases_of(text):
    """(seconds, state) of each phase of a program."""
    return [(int(one.get("duration")), one.get("state")) for one in ElementTree.fromstring(text).iter("phase")]


@needs_sumo
class Sheets(Case):
    def understood(self, text):
        """(layout, plain files, network) of the text of a sheet."""
        layout, _ = read_layout(self.write("sheet.csv", text))
        return layout, *build(layout)

    def by_hand(self, nodes, edges, connections, more=()):
        """The network that netconvert makes of plain files."""
        for name, text in (("nod", nodes), ("edg", edges), ("con", connections)):
            self.write(f"x.{name}.xml", text)
        words = "netconvert -n x.nod.xml -e x.edg.xml -x x.con.xml -o x.net.xml --no-turnarounds".split()
        subprocess.run([*words, *more], cwd=self.folder, check=True, capture_output=True)
        return (self.folder / "x.net.xml").read_text()

    def test_the_office_has_its_network_plans_and_flows(self):
        text = template("cross")
        for given, stored in OFFICE_POCKETS.items():
            text = text.replace(given, stored)
        layout, files, network = self.understood(text)
        stored_net = gzip.decompress((DATA / "office.net.xml.gz").read_bytes()).decode()
        self.assertEqual(parts_of(network.text), parts_of(stored_net))
        for name in ("90",):
            stored_plan = (DATA / f"office-{name}.add.xml").read_text()
            self.assertEqual(phases_of(plan_text(layout, name, files, network)), phases_of(stored_plan))
        flows = ElementTree.fromstring(flows_text(layout.junctions["C"], files)).findall("flow")
        counted = {}
        for flow in flows:
            key = flow.get("route"), flow.get("begin")
            counted[key] = counted.get(key, 0) + int(flow.get("number"))
        # By hand, from the sheet: 07:30 from the west, and the quarter before the first count as the first.
        self.assertEqual([counted[f"W-{turn}", "27000"] for turn in "LTR"], [33, 255, 29])
        self.assertEqual([counted[f"W-{turn}", "24300"] for turn in "LTR"], [24, 186, 19])
        self.assertEqual(sum(counted.values()), 3016 + 610)

    def test_junctions_and_streets_made_by_hand(self):
        for name, case in BY_HAND.items():
            with self.subTest(name):
                _, _, network = self.understood(case.sheet)
                self.assertEqual(parts_of(network.text), parts_of(self.by_hand(*case.plain, case.words)))

    @needs_sumo_tools
    def test_rilsa_1_has_its_connections_and_plan(self):
        layout, files, network = self.understood(RILSA_1)
        plain = [WALKING.sub("", (RILSA / f"input_{name}.xml").read_text())
                 for name in ("nodes.nod", "edges.edg", "connections.con")]
        nodes, edges, connections = plain
        connections = re.sub('<connection [^>]*fromLane="0"[^>]*>', "", connections)
        for number in "123":  # as the lane of walkers is away, whose index is 0
            edges = edges.replace(f'<lane index="{number}"', f'<lane index="{int(number) - 1}"')
            edges = edges.replace(f'numLanes="{number}"', f'numLanes="{int(number) - 1}"')
            for side in ("from", "to"):
                connections = connections.replace(f'{side}Lane="{number}"', f'{side}Lane="{int(number) - 1}"')
        theirs = self.by_hand(nodes, edges, connections)
        own_names = {f"{arm.lower()}m": f"{arm}in" for arm in "NESW"}
        own_names |= {f"m{arm.lower()}": f"{arm}out" for arm in "NESW"}
        found = {
            (own_names.get(one[0]), own_names.get(one[1]), *one[2:6], one[7])
            for one in parts_of(theirs)[1] if one[6] != "None"
        }
        own = {(*one[:6], one[7]) for one in parts_of(network.text)[1] if one[6] != "None"}
        self.assertEqual(own, found)
        # Its program without the crossings' four letters, and without the phases in which walkers alone change.
        stored = [(seconds, state[:12]) for seconds, state in phases_of((RILSA / "tls.add.xml").read_text())]
        own_phases = merged(phases_of(plan_text(layout, "own", files, network)))
        self.assertEqual(own_phases, merged(stored[1:] + stored[:1]))

    def test_a_street_counts_by_edges(self):
        layout, files, _ = self.understood(template("street"))
        rows = list(count_rows(layout, files))
        self.assertIn((25200, 26100, "A.Win", "B.W0in", 130.0, ""), rows)  # 520 an hour, in quarters
        self.assertEqual(sum(row[4] for row in rows), 3504)

    def test_a_phase_in_which_two_greens_meet_is_told(self):
        text = template("cross").replace("90,E:TR W:TR,,35", "90,E:TRL W:TR,,35")
        layout, files, network = self.understood(text)
        slips = Slips("sheet.csv")
        check_conflicts(layout, files, network, slips)
        self.assertEqual(slips.lines, [
            f"B66: {pair} conflict in phase 1 of plan 90: write the one that gives way below permissive, or give it a "
            "phase of its own" for pair in ("E:L and W:R", "E:L and W:T")])  # fmt: skip


def merged(phases):
    """Phases that follow each other with one state as one."""
    found = []
    for seconds, state in phases:
        if found and found[-1][1] == state:
            found[-1] = found[-1][0] + seconds, state
        else:
            found.append((seconds, state))
    return found


class CellSlips(Case):
    def test_each_slip_is_told_by_its_cell(self):
        for kind, given, slip, place, what in SLIPS:
            with self.subTest(given=given, slip=slip):
                text = template(kind)
                self.assertIn(given, text)
                path = self.write("sheet.csv", text.replace(given, slip, 1))
                with redirect_stderr(StringIO()) as told, self.assertRaises(Fault):
                    read_layout(path)
                lines = told.getvalue().splitlines()
                self.assertTrue(any(line.startswith(f"{place}: ") and what in line for line in lines), lines)
                self.assertLessEqual(len(lines), 20)

    def test_rates_of_an_hour_in_rows_of_a_quarter_are_told(self):
        """916 vehicles an hour from the west, written into the row of a quarter of an hour: 3,664 an hour."""
        def lines(text):
            return read_layout(self.write("sheet.csv", text))[1]

        usual = lines(template("cross"))
        self.assertIn("C: 3,016 vehicles in its busiest hour", usual)
        self.assertNotIn("give each the hour", " ".join(usual))
        told = lines(template("cross").replace("07:00,W,24,186,19", "07:00,W,96,744,76"))
        self.assertIn("C38: from 7:00 to 7:15 3,664 vehicles an hour come from arm W on 3 lanes", " ".join(told))
        with_end = template("cross").replace("begin,arm,left", "begin,end,arm,left")
        hours = re.sub(r"^07:00,(.),", r"07:00,08:00,\1,", with_end, flags=re.MULTILINE)
        hours = re.sub(r"^07:[134].,.*\n", "", hours, flags=re.MULTILINE).replace("W,24,186", "W,240,2860")
        self.assertNotIn("give each the hour", " ".join(lines(hours)), "an hour's own row")

    def test_templates_have_none(self):
        for kind in TEMPLATES:
            read_layout(self.write("sheet.csv", template(kind)))

    def test_many_slips_are_twenty_lines(self):
        text = re.sub(r"^(07:..),(.),(\d+)", r"\1,\2,x\3", template("cross"), flags=re.MULTILINE)
        text = re.sub(r",(\d+),(\d)$", r",y\1,\2", text, flags=re.MULTILINE)
        with redirect_stderr(StringIO()) as told, self.assertRaisesRegex(Fault, "slips, named by cell above"):
            read_layout(self.write("sheet.csv", text))
        self.assertEqual(len(told.getvalue().splitlines()), 20)


@needs_package("python3-openpyxl", find_spec("openpyxl"))
class Workbooks(Case):
    """Sheets as workbooks: all blocks in one worksheet, or each in one of its name."""

    def workbook(self, pages):
        """The path of a workbook of worksheets, {title: rows}."""
        import openpyxl

        book = openpyxl.Workbook()
        book.remove(book.active)
        for title, rows in pages.items():
            worksheet = book.create_sheet(title)
            for row in rows:
                worksheet.append([int(text) if text.isdecimal() else text or None for text in row])
        book.save(self.folder / "sheet.xlsx")
        return str(self.folder / "sheet.xlsx")

    def test_one_worksheet_and_one_for_each_block_are_the_same_junction(self):
        rows = [*csv.reader(template("cross").splitlines())]
        pages, title = {}, ""
        for row in rows:
            if row and row[0].isupper() and len(row) == 1:
                title = row[0].capitalize()
            elif title and row and not row[0].startswith("#"):
                pages.setdefault(title, []).append(row)
        layouts = [read_layout(self.workbook(one))[0] for one in ({"All": rows}, pages)]
        layouts.append(read_layout(self.write("sheet.csv", template("cross")))[0])
        one, parted, text = ([len(made.junctions["C"].counts), [*made.junctions["C"].movements()],
                              [arm.bearing for arm in made.junctions["C"].arms.values()]] for made in layouts)
        self.assertEqual(one, text)
        self.assertEqual(parted, text)

    def test_a_slip_has_its_worksheet_and_cell(self):
        pages = {"Junctions": [["junction", "control"], ["C", "sign"]], "Arms": [["arm", "bearing", "length"]],
                 "Lanes": [["arm", "lane", "turns"]]}
        with redirect_stderr(StringIO()) as told, self.assertRaises(Fault):
            read_layout(self.workbook(pages))
        self.assertIn("Junctions!B2: 'sign' is no control", told.getvalue())


@needs_sumo
class Command(Case):
    def junction(self, *words, status=0):
        return self.tool("junction", *words, status=status)

    def test_from_a_template_to_a_run_file_for_each_plan(self):
        sheet, out = self.folder / "cross.csv", self.folder / "out"
        self.assertIn("change it, then", self.junction("--template", "cross", "-o", sheet)[0])
        told, said = self.junction(sheet, "--out", out)
        self.assertIn("C: signals, 4 arms, 10 lanes, 12 movements, plans 90, 75\n", told)
        self.assertIn("3,016 vehicles from 7:00 to 8:00", told)
        self.assertIn("streetsim-report", told)
        self.assertIn("1 signals, 3,626 vehicles", said)
        self.assertLessEqual({"plan-90.jsonl", "plan-75.map.json", "junction.svg"}, {*os.listdir(out)})
        picture = ElementTree.parse(out / "junction.svg").getroot()
        texts = [one.text for one in picture.iter("{http://www.w3.org/2000/svg}text")]
        self.assertIn("lane 2: L, pocket of 60 m", texts)
        self.assertIn("Legend", texts)
        self.assertIn("Plan 75 of C: cycle 75 s, offset 0 s", texts)
        self.junction(sheet, "--out", out)  # anew, into its own folder

    def test_counts_of_another_file_stand_for_those_of_the_sheet(self):
        sheet, out = self.write("tee.csv", template("tee")), self.folder / "out"
        counts = self.write("c.csv", "Uhrzeit;Zufahrt;Links;Gerade;Rechts\n16.00;Ost;20;105;\n16.15;Ost;21;90;\n")
        told, _ = self.junction(sheet, "--counts", counts, "--out", out)
        self.assertIn("counts: a row for each period and arm, 236 vehicles from 16:00 to 16:30", told)

    def test_words_that_do_not_go_together_are_one_line(self):
        for words, told in (
            ((), "give a SHEET, or --template to write one"),
            (("x.csv", "--template", "cross"), "--template writes a sheet alone"),
            (("x.csv", "-o", "y"), "-o is of --template"),
            (("x.csv",), "x.csv: No such file or directory"),
        ):
            with self.subTest(words):
                said = self.junction(*words, status=2)[1]
                self.assertEqual(said.count("\n"), 1)
                self.assertIn(told, said)


if __name__ == "__main__":
    unittest.main()
