"""A town of 100 junctions with two plans: what stands on the page first, and how many sheets of paper it takes."""
import json
import re
import shutil
import subprocess
import unittest

from support import Case, needs_package
from streetsim.model.tables import APPROACHES, JUNCTIONS, MOVEMENTS, TRIPS, write_table

CHROMIUM = shutil.which("chromium") or shutil.which("chromium-browser")
SIDE = 10  # junctions in a row; a ring of ends is around them
WAYS = ((0, 1), (1, 0), (0, -1), (-1, 0))
LOST = {"vehicles": 50, "vehicles_per_hour": 200, "stopped_delay_s": 9.0, "stops_per_vehicle": 0.8}
QUEUED = {
    "nearly_full": "", "full_percent": 0, "blocked_percent": "", "doubt": "",
    "queue_50_m": 15, "queue_95_m": 30, "queue_max_m": 45, "storage_m": 192.5,
    "saturation_flow": 1760,
}
MOST_SHEETS = 12


def name(x, y):
    return f"{'ABCDEFGHIJKL'[x]}{y}"


def edges():
    """Each edge of the grid, (name, begin, end), between neighbours of which one is a junction."""
    for x in range(SIDE + 2):
        for y in range(SIDE + 2):
            for dx, dy in WAYS:
                other = x + dx, y + dy
                if is_junction(x, y) or is_junction(*other):
                    if all(0 <= place < SIDE + 2 for place in other):
                        yield name(x, y) + name(*other), (x, y), other


def is_junction(x, y):
    return 1 <= x <= SIDE and 1 <= y <= SIDE


def map_of():
    """The map, with a street for each row and column."""
    places = [(x, y) for x in range(SIDE + 2) for y in range(SIDE + 2)]
    number = {place: at for at, place in enumerate(places)}
    links, turns, streets = [], [], {}
    for at, (edge, begin, end) in enumerate(edges()):
        shape = [[200 * begin[0], 200 * begin[1]], [200 * end[0], 200 * end[1]]]
        links.append([edge, [0], number[begin], number[end], 26, 2, 192.5, shape])
        streets[edge] = f"Avenue {end[0]}" if begin[0] == end[0] else f"Long Street of the {end[1]} Mills"
    nodes = [[name(*place), 200 * place[0], 200 * place[1], 1] for place in places]
    return {
        "nodes": nodes, "links": links, "turns": turns, "signals": [], "cars": [],
        "options": {"classes": ["passenger"]},
        "warnings": [f"warning: {what} of the import, as long as such lines are" for what in "abcdefghijklmn"],
        "names": {"edges": streets},
    }


class Town(Case):
    def setUp(self):
        super().setUp()
        self.mapping = map_of()
        for plan in ("before", "after"):
            for seed in (1, 2):
                self.write_folder(self.folder / f"{plan}/seed-{seed}", seed, plan == "after")

    def write_folder(self, folder, seed, is_after):
        folder.mkdir(parents=True)
        made = {"run": "x.jsonl", "seed": seed, "start": 0, "until": 3600, "vehicles": 2, "program": "abc"}
        setting = {"map": self.mapping, "signals": [], "dawdle": 170, "every": 10, "period": 900, "made": made}
        (folder / "setting.json").write_text(json.dumps(setting))
        write_table(f"{folder}/trips.csv", TRIPS, [("v.1", 0, 100, 100 + seed, 4, 26, 2, 0, "arrived")])
        rows = {table: [] for table in (MOVEMENTS, APPROACHES, JUNCTIONS)}
        for at, (x, y) in enumerate((x, y) for x in range(1, SIDE + 1) for y in range(1, SIDE + 1)):
            delay = 12 + 6 * (at % 9) + seed / 10 + (is_after and 4 * (at % 7 - 3))
            self.add_rows(rows, (x, y), {**LOST, **QUEUED, "control_delay_s": round(delay, 1)})
        for table, file in ((MOVEMENTS, "movements"), (APPROACHES, "approaches"), (JUNCTIONS, "junctions")):
            write_table(f"{folder}/{file}.csv", table, rows[table])

    def add_rows(self, rows, place, values):
        """The rows of one junction: four approaches of three movements each, in two intervals."""
        x, y = place
        values = {**values, "junction": name(x, y), "control": "signals", "v_c": 0.6, "los": "?", "error_s": ""}
        values.update(capacity_per_hour=800)
        for begin in (0, 1800):
            values.update(begin=begin, end=begin + 1800)
            rows[JUNCTIONS].append([values[column] for column in JUNCTIONS])
            for dx, dy in WAYS:
                values["approach"] = name(x + dx, y + dy) + name(x, y)
                rows[APPROACHES].append([values[column] for column in APPROACHES])
                for (to_x, to_y), letter in zip((way for way in WAYS if way != (dx, dy)), "LTR"):
                    values.update(to=name(x, y) + name(x + to_x, y + to_y), movement=letter)
                    rows[MOVEMENTS].append([values[column] for column in MOVEMENTS])

    def page(self, *words):
        path = self.folder / "page.html"
        self.tool("report", self.folder / "before", self.folder / "after", *words, "-o", path)
        return path

    def test_what_stands_first(self):
        """Every junction has a line; those that change or are worse than D stand first, the others have no sections."""
        text = self.page("--detail", 5).read_text()
        lines = text.partition('<h2 id="junctions">')[2].partition("</table>")[0]
        changes = [float(found) for found in re.findall(r"([+-]\d+\.\d) ±", lines)]
        self.assertEqual(len(changes), 100)
        letters = re.findall(r"los-([A-F])\">[A-F]</span></td></tr>", lines)
        told = [abs(change) >= 5 or letter in "EF" for change, letter in zip(changes, letters)]
        first = told.index(False) if False in told else len(told)
        self.assertGreater(first, 30)
        self.assertTrue(all(abs(change) < 5 for change in changes[first:]))
        self.assertEqual(len(re.findall(r'<h3 id="junction-', text)), 5)
        self.assertIn("95 other junctions", text)

    def test_the_first_page_alone(self):
        text = self.page("--short").read_text()
        self.assertNotIn("appendix\"", text.partition("<main")[2])
        self.assertEqual(re.findall(r'<h2 id="([a-z]+)"', text), ["verdict", "map", "costs", "doubts"])
        self.assertEqual(set(re.findall(r'href="#([^"]+)"', text)) - set(re.findall(r' id="([^"]+)"', text)), set())

    def test_the_whole_table(self):
        """A row for each junction and movement, with the change and half its interval, by hand: -12 s, no spread."""
        path = self.folder / "all.csv"
        self.page("--csv", path)
        rows = path.read_text().splitlines()
        self.assertEqual(len(rows), 1 + 100 + 1200)
        self.assertIn(
            "0,1800,junction,B1,Avenue 1 / Long Street of the 1 Mills,,,,200.0,12.15,0.15,-12.00,0.00,B,A,0.60", rows
        )

    @needs_package("chromium", CHROMIUM)
    def test_sheets_of_paper(self):
        page, printed = self.page(), self.folder / "page.pdf"
        words = ["--headless", "--no-sandbox", "--disable-gpu", f"--user-data-dir={self.folder}/profile"]
        words += [f"--print-to-pdf={printed}", "--no-pdf-header-footer", f"file://{page}"]
        subprocess.run([CHROMIUM, *words], capture_output=True, check=True)
        sheets = max(int(count) for count in re.findall(rb"/Count (\d+)", printed.read_bytes()))
        self.assertIn(sheets, range(5, MOST_SHEETS + 1))


if __name__ == "__main__":
    unittest.main()
