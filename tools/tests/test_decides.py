"""What decides, beside SUMO's numbers by seed, which `bench/run stored-rows` wrote: each number is near SUMO's, or
doubted at its place and on the first page."""
import gzip
import json
import re
import unittest
from statistics import fmean

from support import DATA, PROGRAM, Case, needs_simulator
from test_route import Commands
from streetsim.base.report import Report
from streetsim.model.tables import MOVEMENTS, read_table
from streetsim.search.signal_plans import additional_of
from streetsim.sumo.net import read_net

STORED = json.loads((DATA / "decides.json").read_text(encoding="utf-8"))
# Share of SUMO's, and seconds or metres, beyond both of which one is far.
FAR_DELAY, FAR_QUEUE = (0.25, 10.0), (0.40, 30.0)
HOURLY = 20.0  # vehicles of a movement that is compared


def is_far(theirs, ours):
    """Whether a delay or queue, of (delay, queue), is far from SUMO's."""
    pairs = zip(theirs, ours, (FAR_DELAY, FAR_QUEUE))
    return any(abs(b - a) > max(share * a, least) for a, b, (share, least) in pairs)


@needs_simulator
class Beside(Case):
    def made(self, name, net, routes, *words, additional=(), seeds="1-2"):
        """The folder of runs of a network as listed, and their last line."""
        run, mapped, out = (self.folder / f"{name}{end}" for end in (".jsonl", ".map.json", ""))
        self.tool("import", DATA / net, *additional, "--routes", DATA / routes, "-o", run, "--map", mapped)
        usual = "--seeds", seeds, "--departures", "listed", "--jobs", 1, "--every", 0, "--program", PROGRAM
        told = self.tool("run", run, "--map", mapped, *usual, *words, "--out", out)[0]
        return out, told.splitlines()[-1]

    def rows(self, out, begin):
        """The rows of the movements of both runs in an interval, by edges."""
        found = {}
        for seed in (1, 2):
            for row in read_table(f"{out}/seed-{seed}/movements.csv", MOVEMENTS):
                if int(row["begin"]) == begin:
                    found.setdefault(f"{row['approach']} {row['to']}", []).append(row)
        return found

    def silent(self, stored, out):
        """The movements that are far from SUMO's and not doubted; those that are far."""
        begin, end = stored["seconds"]
        theirs, ours = stored["movements"].values(), self.rows(out, begin)
        silent, far = [], []
        for way in set.intersection(*map(set, theirs)):
            sides = [one[way] for one in theirs]
            if fmean(count for count, *_ in sides) < HOURLY * (end - begin) / 3600 or way not in ours:
                continue
            there = [fmean(one[at] for one in sides) for at in (1, 2)]
            here = [fmean(float(row[name]) for row in ours[way]) for name in ("control_delay_s", "queue_95_m")]
            if is_far(there, here):
                far.append((way, there, here))
                silent += [] if any(row["doubt"] for row in ours[way]) else [far[-1]]
        return silent, far

    def test_the_junction_of_an_office(self):
        """Both plans; which of them is better is not said otherwise than in SUMO."""
        outs = []
        for plan in (90, 75):
            plans = [DATA / f"office-{plan}.add.xml"]
            words = "--until", 28_800, "--junctions", 1800
            out, last = self.made(f"o{plan}", "office.net.xml.gz", "office.rou.xml.gz", *words, additional=plans)
            silent, _ = self.silent(STORED[f"office-{plan}"], out)
            self.assertEqual(silent, [], plan)
            self.assertIn("doubted most of all: Mill Road into Main Street", last)
            outs.append(out)
        means = [self.mean_delay(STORED[f"office-{plan}"]) for plan in (90, 75)]
        self.assertGreater(means[0] - means[1], 5, "in SUMO 75 s are better")
        page = self.folder / "page.html"
        self.tool("report", *outs, "--interval", 27_000, "-o", page)
        verdict = re.search('<p class="verdict">([^<]*)', page.read_text())[1]
        self.assertRegex(verdict, "^(Better|Undecided)")

    def mean_delay(self, stored):
        """The mean delay of all movements in SUMO."""
        parts = [one for seed in stored["movements"].values() for one in seed.values()]
        return sum(count * delay for count, delay, _ in parts) / sum(count for count, *_ in parts)

    def test_pockets(self):
        """A pocket has its own metres, as SUMO's lane has; what is far is doubted."""
        out, _ = self.made("p", "pocket.net.xml.gz", "pocket.rou.xml.gz", "--until", 2700, "--junctions", 1350)
        silent, _ = self.silent(STORED["pocket"], out)
        self.assertEqual(silent, [])
        net = read_net(str(DATA / "pocket.net.xml.gz"), ("passenger",), Report())
        lefts = {way: rows[0] for way, rows in self.rows(out, 1350).items() if rows[0]["movement"] == "L"}
        for way, row in lefts.items():
            metres = net.edges[way.split()[0]].lanes[-1].metres
            self.assertAlmostEqual(float(row["storage_m"]), metres, delta=8, msg=way)

    def test_works_behind_a_light(self):
        """SUMO's add more than 200 s to all trips; here they are doubted at their place, in the last line and on the
        first page."""
        added = [STORED["works"]["with"][seed] - STORED["works"]["without"][seed] for seed in "123"]
        self.assertGreater(min(added), 200)
        words = "--until", 25_800, "--junctions", 900, "--close", "A1A2w_0:0-200:07:00-10:00"
        out, last = self.made("w", "works.net.xml.gz", "works.rou.xml.gz", *words, seeds="1-1")
        self.assertRegex(last, "^not to be trusted: .*works on A1A2w: demand 0.9. of what the open lane passes, 323 m "
                         "behind a light, in the worst hour, and what they add may be far from SUMO's")
        page = self.folder / "page.html"
        self.tool("report", out, "-o", page)
        first = page.read_text().partition('id="junctions"')[0]
        self.assertIn('<p class="verdict">Not sure: here ', first)
        why = first.partition("Why it is not sure: ")[2].partition("</p>")[0]
        self.assertIn("Doubted so: works on the street from the west at Cross 2 / Ring Street", why)

    def test_a_plan_of_a_search_that_is_not_to_be_trusted(self):
        """In SUMO it is better; who runs it, and who reads the page, is told why it is doubted, and what is far from
        SUMO's is doubted at its place."""
        means = [self.mean_delay(STORED[f"office-{plan}"]) for plan in (90, 75)]
        self.assertGreater(means[0] - means[1], 5)
        net = read_net(str(DATA / "office.net.xml.gz"), ("passenger",), Report())
        [light], phases = net.programs, re.findall("<phase [^>]*/>", (DATA / "office-75.add.xml").read_text())
        programs = [(light, 'type="static" programID="streetsim" offset="0"', phases)]
        plan = self.write("plan.add.xml", additional_of(programs, ["without --verify-sumo"]))
        words = "--until", 28_800, "--junctions", 1800
        out, last = self.made("s", "office.net.xml.gz", "office.rou.xml.gz", *words, additional=[plan])
        told = "is of a search that is not to be trusted (without --verify-sumo)"
        self.assertIn(told, last)
        self.assertEqual(self.silent(STORED["office-75"], out)[0], [])
        page = self.folder / "page.html"
        self.tool("report", out, "--interval", 27_000, "-o", page)
        first = page.read_text().partition('id="junctions"')[0]
        self.assertIn(told, first)
        self.assertIn('<p class="verdict">Not sure: here ', first)


@needs_simulator
class Hours(Commands):
    """A street of two lanes without another way, a lane of which is closed for a quarter of an hour: in SUMO that costs
    more than half a minute a trip where more than a lane passes come, else 3 s at most."""

    VEHICLES = 900
    FAR_HOURS = FAR_DELAY[1] * VEHICLES / 3600

    def added(self):
        """Seconds a trip that works add in SUMO, by the second at which they begin."""
        means = {name: fmean(by_seed.values()) for name, by_seed in STORED["hours"].items()}
        return {name: mean - means["without"] for name, mean in means.items() if name != "without"}

    def test_which_hours_for_works(self):
        """A study names the same hour as the worst, and what each adds is near, or doubted at its place."""
        run, mapped, out = (self.folder / name for name in ("h.jsonl", "h.map.json", "out"))
        routes = "--routes", DATA / "hours.rou.xml.gz"
        self.tool("import", DATA / "hours.net.xml.gz", *routes, "-o", run, "--map", mapped)
        asked = 'run = "h.jsonl"\nmap = "h.map.json"\nuntil = 5400\nseeds = "1-2"\ndepartures = "listed"\n'
        variants = '[variant.given]\n[variant.works]\nclose = ["out_0:200-400:0-900"]\n'
        study = self.write("study.toml", asked + variants)
        self.tool("study", study, "--program", PROGRAM, "--out", out, "--jobs", 1, "--close-at", "0,900,1800")
        added = self.added()
        self.assertEqual([begin for begin, seconds in added.items() if seconds > 3], ["900"])
        rows = {row["begin"]: row for row in self.table("windows.csv")}
        self.assertEqual(rows.keys(), added.keys())
        hours = {begin: float(row["vehicle_hours"]) for begin, row in rows.items()}
        self.assertEqual(max(hours, key=hours.get), "900")
        for begin, seconds in added.items():
            theirs = seconds * self.VEHICLES / 3600
            is_far = abs(hours[begin] - theirs) > max(FAR_DELAY[0] * theirs, self.FAR_HOURS)
            self.assertTrue(not is_far or rows[begin]["doubt"], (begin, theirs, hours[begin]))

    def test_nobody_can_go_round(self):
        """So works gain nothing, as in SUMO: the runs without works have the same lanes joint."""
        self.net = DATA / "hours.net.xml.gz"
        self.trips = self.write("x.trips.xml", self.trips_of(DATA / "hours.rou.xml.gz"))
        close = "--close", "out_0:200-400:900-1800", "--iterations", 2, "--gap", 1, "--knowing", "0", "--seeds", "1-3"
        told, _ = self.route(*close)
        [row] = [row for row in self.table("knowing.csv") if row["knowing"] == "0"]
        here, theirs = float(row["difference_s"]), self.added()["900"]
        self.assertGreater(here, 0)
        if abs(here - theirs) > max(FAR_DELAY[0] * theirs, FAR_DELAY[1]):
            self.assertRegex(told, "not to be trusted: .*works on out")

    def trips_of(self, routes):
        """The vehicles of a route file as trips."""
        cars = re.findall('id="(.*?)" depart="(.*?)"', gzip.decompress(routes.read_bytes()).decode())
        rows = (f'<trip id="{name}" depart="{depart}" from="in" to="out"/>' for name, depart in cars)
        return f"<routes>{''.join(rows)}</routes>"


if __name__ == "__main__":
    unittest.main()
