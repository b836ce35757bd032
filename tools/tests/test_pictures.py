"""Pictures and the player: the numbers behind them, that they are there, and what the page shows at a step."""
import gzip
import html
import json
import re
import shutil
import subprocess
import unittest
from unittest import mock

import numpy

from support import DATA, MAP, PROGRAM, Case, needs_package, needs_simulator
from streetsim.base.files import Fault
from streetsim.model.folder import read_folder
from streetsim.model.tables import COUNTS, PHASES, SUMMARY, TRIPS
from streetsim.report import ring_diagram, run_series
from streetsim.report.picture_greens import draw_greens, ended_greens
from streetsim.report.player import played

CHROMIUM = shutil.which("chromium") or shutil.which("chromium-browser")
DRAWS = (
    subprocess.run(["/usr/bin/python3", "-c", "import matplotlib, PIL"], capture_output=True, check=False).returncode
    == 0
)
needs_chromium = needs_package("chromium", CHROMIUM)
needs_matplotlib = needs_package("python3-matplotlib", DRAWS)


class Given(Case):
    """A folder written by hand: two links of 10 cells, a signal between them that is red from 5 to 14."""

    def setUp(self):
        super().setUp()
        signal = {"cmd": "signal", "node": 1, "offset": 0, "phases": [[5, [[0, 0, 1]]], [10, []], [5, [[0, 0, 1]]]]}
        self.write(
            "setting.json",
            json.dumps(
                {"map": {**MAP, "cars": ["v", "w"]}, "signals": [[0, signal]], "dawdle": 0, "every": 1, "period": 900}
            ),
        )
        polls = [
            {"clock": 1, "lanes": [[0, 0, [[0, 0, 0]], [], []]]},
            {"clock": 2, "lanes": [[0, 0, [[0, 1, 1], [1, 0, 0]], [], []]]},
            {"clock": 3, "lanes": [[0, 0, [[1, 1, 1]], [0], [[8, 9]]]]},
            {"clock": 4, "lanes": [[1, 0, [[0, 0, 1]], [], []]]},
        ]
        self.polls = polls
        self.write_polls(polls)
        self.write("trips.csv", ",".join(TRIPS) + "\nv,0,30,30,4,26,2,0,arrived\nw,1,,,4,,2,0,cell\n")
        self.write(
            "counts.csv",
            ",".join(COUNTS)
            + "\n0,900,a,0,0,90,360.0,27.0,15.0\n900,1000,a,0,0,9,324.0,27.0,15.0\n0,900,b,1,0,0,0.0,,0.0\n",
        )
        self.given = read_folder(self.folder)

    def write_polls(self, polls):
        with gzip.open(self.folder / "lanes.jsonl.gz", "wt") as file:
            file.writelines(json.dumps(poll) + "\n" for poll in polls)

    def with_queues(self):
        """Two polls more: three vehicles stand at the line of a, behind which one does behind a gap and one waits in
        the buffer; then one, and on b, one of two cells and, behind it, one that has just come to stand."""
        three = [[0, 9, 0], [1, 8, 0], [2, 7, 0], [3, 5, 0]]
        two = [[1, 9, 0, 2], [2, 7, 0], [3, 6, 1]]
        lanes = [[[0, 0, three, [4], []]], [[0, 0, [[0, 9, 0]], [], []], [1, 0, two, [], []]]]
        self.write_polls([*self.polls, *({"clock": 5 + at, "lanes": one} for at, one in enumerate(lanes))])


class Numbers(Given):
    def test_corridor(self):
        # Between clocks 1 and 2 the first drives from the front of cell 0 (7.5 m) to that of cell 1 (15 m), and so the
        # second a step later.
        self.assertEqual(
            run_series.trajectories(self.given, ["a", "b"], 0, 10),
            [((1, 7.5), (2, 15.0), 1, 7.5), ((2, 7.5), (3, 15.0), 1, 7.5)],
        )
        self.assertEqual(
            run_series.links_and_length(self.given, ["a", "b"]), ({0: (0.0, 75.0, 10), 1: (75.0, 75.0, 10)}, 150.0)
        )
        self.assertEqual(run_series.red_times(self.given, ["a", "b"], 0, 40), [(75.0, 5, 15), (75.0, 25, 35)])

    def test_greens_that_have_ended(self):
        """Of lights with several greens; yellow, and what the end of the run cut off, is left out."""
        head, rows = ",".join(PHASES), ["0,L,0,Gr,30,", "0,M,1,yr,3,listed"]
        self.write("phases.csv", "\n".join([head, *rows, ""]))
        for lights, told in (
            ([], "no green had ended when the run did"),
            (["M"], "no green had ended when the run did"),
            (["N"], "detectors drive no light 'N' in this run"),
        ):
            with self.subTest(lights=lights), self.assertRaisesRegex(Fault, told):
                draw_greens(None, self.given, lights)
        self.write("phases.csv", "\n".join([head, *rows, "3,M,2,rG,9,gap", ""]))
        self.assertEqual([*ended_greens(self.given, [])], ["M"])
        with self.assertRaisesRegex(Fault, "no green of light 'L' had ended when the run did"):
            draw_greens(None, self.given, ["M", "L"])

    def test_green_band(self):
        """Green 10 of 20 seconds, from 15 of one cycle to 4 of the next: alone the signal's band is its green. A
        second one with the same plan, 10 s away, is red in these seconds; 20 s away it is green again; 23 s away
        3 s fewer are common."""
        self.assertEqual(run_series.green_band(self.given, ["a", "b"], 0), (10, 20))
        self.assertIsNone(run_series.green_band(self.given, ["a"], 0))
        command = self.given.signals[0][1]
        stops = {gap: [(0.0, 1, [0], [1]), (gap, 1, [0], [1])] for gap in (10.0, 20.0, 23.0)}
        for gap, width in ((10.0, 0), (20.0, 10), (23.0, 7)):
            with mock.patch.object(run_series, "edge_ends_along", return_value=stops[gap]):
                self.assertEqual(
                    run_series.green_band(self.given, ["a", "b"], 0),
                    (width, sum(seconds for seconds, _ in command["phases"])),
                )

    def test_along_the_path(self):
        self.assertEqual(run_series.junctions_along(self.given, ["a", "b"]), [(75.0, "B")])
        with self.assertRaisesRegex(Fault, "no edge leads back along 'b'"):
            run_series.way_back(self.given, ["a", "b"])

    def test_map(self):
        # Four polls find 1, 2, 1 and 0 vehicles on 75 m of the first link, and 0, 0, 0, 1 on the second.
        self.assertEqual([round(value, 3) for value in run_series.densities(self.given)], [13.333, 3.333])

    def test_queues(self):
        self.assertEqual(run_series.longest_queues(self.given, 1), ([], 0))
        self.with_queues()
        self.assertEqual(run_series.longest_queues(self.given, 1), ([("a_0", {5: 22.5, 6: 7.5})], 2))
        self.assertEqual(run_series.longest_queues(self.given, 2)[0][1], ("b_0", {6: 22.5}))

    def test_fundamental(self):
        # 15 % of the time a vehicle of 7.5 m: 20 a kilometre. The short last period and the empty lane are left out.
        self.assertEqual(run_series.counted_densities_and_flows(self.given, []), [(20.0, 360.0)])

    def test_fundamental_at_mid_link(self):
        """Cells 3 to 6 of ten are the middle. In a period of two looks vehicle 0 is there once, at 2 cells a
        second, and 1 twice, at 1 and 0: 3 vehicles over 2 looks of 30 m are 50 a kilometre, and 3 cells a second
        over 2 looks of 4 cells 1,350 vehicles an hour. Vehicles before and behind count nothing, and the period
        that was cut short neither."""
        looks = [[[0, 5, 2], [1, 3, 1]], [[0, 7, 2], [1, 6, 0], [2, 2, 1]], [[1, 5, 1]]]
        self.write_polls([{"clock": clock, "lanes": [[0, 0, cells, [], []]]} for clock, cells in enumerate(looks, 1)])
        self.given.period, self.given.setting = 2, {"start": 0, "until": 3}
        self.assertEqual(run_series.middle_densities_and_flows(self.given, []), [(50.0, 1350.0)])
        self.assertEqual(run_series.middle_densities_and_flows(self.given, ["b"]), [])
        self.assertEqual([run_series.middle_third(cells) for cells in (1, 2, 3, 10)], [(0, 1), (0, 2), (1, 2), (3, 7)])

    def test_difference(self):
        # Two of the first curve at 1, one of the second at 2, one of each at 3.
        self.assertEqual(run_series.curve_difference([1, 1, 3], [2, 3]), ([1, 2, 3], [2, 1, 1]))

    def test_scale(self):
        self.assertEqual(
            [run_series.round_length(metres) for metres in (1, 4.9, 50, 199, 1999, 2000)], [1, 2, 50, 100, 1000, 2000]
        )

    def test_ring_in_units_of_planners(self):
        # 0.08 vehicles a cell of 7.5 m and 0.32 vehicles a second.
        point = ring_diagram.Point(0.08, 0.32, 4.0)
        self.assertAlmostEqual(point.per_km, 10.667, places=3)
        self.assertAlmostEqual(point.per_hour, 1152)

    def test_arrivals(self):
        self.assertEqual(run_series.arrival_curves(self.given), ([0, 1], [30]))
        self.given.setting["until"] = 0  # the second vehicle wished to depart after the run's end
        self.assertEqual(run_series.arrival_curves(self.given)[0], [0])


@needs_matplotlib
class Pictures(Given):
    def test_each_is_drawn(self):
        self.with_queues()
        for kind, *words in (
            ("corridor", self.folder, "--edges", "a b", "--last", 40),
            ("map", self.folder),
            ("queues", self.folder),
            ("arrivals", self.folder),
            ("fundamental", self.folder),
            ("fundamental", self.folder, "--counts"),
        ):
            with self.subTest(kind):
                path = self.folder / f"{kind}{len(words)}.png"
                self.tool("plot", kind, *words, "-o", path)
                content = path.read_bytes()
                self.assertEqual(content[:8], b"\x89PNG\r\n\x1a\n")
                width, height = (int.from_bytes(content[at : at + 4], "big") for at in (16, 20))
                self.assertTrue(500 < width < 1200 and 200 < height < 1000, (width, height))
                self.assertLess(len(content), 110_000)

    def test_formats(self):
        self.with_queues()
        for name, begin in (("x.svg", b"<?xml"), ("x.pdf", b"%PDF-"), ("x.PNG", b"\x89PNG")):
            self.tool("plot", "queues", self.folder, "-o", self.folder / name)
            content = (self.folder / name).read_bytes()
            self.assertEqual(content[: len(begin)], begin)
            self.tool("plot", "queues", self.folder, "-o", self.folder / name)
            self.assertEqual((self.folder / name).read_bytes(), content)

    def test_faults(self):
        for words, told in (
            (("queues", self.folder, "-o", self.folder / "x.bmp"), "a picture's name ends with .png, .svg or .pdf"),
            (("corridor", self.folder, "--edges", "b a"), "no turn leads from 'b' to 'a'"),
            (("corridor", self.folder, "--edges", " "), "--edges: ' ' names nothing"),
            (("corridor", self.folder, "--edges", "a b", "--first", 50), "nothing was polled from 50 to 600 s"),
            (("fundamental", self.folder, "--edges", "a z"), "the map has no edge 'z'"),
            (("fundamental", self.folder, "--counts", "--edges", "z"), "the map has no edge 'z'"),
            (
                ("corridor", self.folder, "--edges", "a b", "--first", 5, "--last", 5),
                "--first 5 is not before --last 5",
            ),
        ):
            with self.subTest(told):
                more = () if "-o" in words else ("-o", self.folder / "x.png")
                self.assertIn(told, self.tool("plot", *words, *more, status=2)[1])
        self.assertIn(
            "the map has no edge 'z'",
            self.tool("plot", "corridor", self.folder, "--edges", "z", "-o", self.folder / "x.png", status=2)[1],
        )
        self.assertIn(
            "setting.json: No such file",
            self.tool("plot", "map", self.folder / "no", "-o", self.folder / "x.png", status=2)[1],
        )
        self.assertFalse((self.folder / "x.png").exists())


class Player(Given):
    def page(self):
        path = self.folder / "play.html"
        self.tool("play", self.folder, "-o", path)
        return path

    def test_nothing_from_outside(self):
        self.assertFalse(re.search(r"https?:|src=|@import|<link", self.page().read_text()))

    @needs_chromium
    def test_what_a_step_shows(self):
        # At clock 3 one vehicle drives on the first link, one is in its buffer, and cells 8 and 9 are closed; the
        # signal is green. At clock 2 both drive, one of them stands.
        page = self.page()
        # 150 m and 10 m on each side are 95 % of 800 pixels: 20 m are 89 pixels, and 50 m would be more than 200.
        bar = {"scale": "20 m", "street": ""}
        self.assertEqual(
            self.shown(page, 3),
            {
                "clock": 3, "time": "00:00:03", **bar, "vehicles": 1, "covered": 1, "buffered": 1, "standing": 0,
                "red": 0, "closed": 1,
            },
        )
        self.assertEqual(
            self.shown(page, 2),
            {
                "clock": 2, "time": "00:00:02", **bar, "vehicles": 2, "covered": 2, "buffered": 0, "standing": 1,
                "red": 0, "closed": 0,
            },
        )

    def test_rows_are_those_of_the_polls(self):
        """Of each clock the vehicles of its poll, as columns of steps, and the closed stretches from where they change
        on."""
        own, columns, begin = played(self.given, 0, 9), [], 0
        for _, bits, count in own.run["columns"]:
            columns.append(numpy.frombuffer(own.columns, f"<i{bits // 8}", count, begin).cumsum(dtype=int).tolist())
            begin += count * bits // 8
        wanted, closed = [], []
        for frame, poll in enumerate(self.given.polls()):
            for link, lane, cells, waiting, _ in poll["lanes"]:
                slot = 2 * link + lane
                wanted += [(frame, slot, cell, speed, *(size or [1])) for _, cell, speed, *size in cells]
                wanted += [(frame, slot, -1 - place, 0, 1) for place in range(len(waiting))]
            closed.append([[link, lane, *one] for link, lane, *_, shut in poll["lanes"] for one in shut])
        self.assertEqual(begin, len(own.columns))
        self.assertEqual(sorted(zip(*columns, strict=True)), sorted(wanted))
        changes = dict(own.run["closed"])
        self.assertEqual([changes[max(at for at in changes if at <= frame)] for frame in range(len(closed))], closed)

    def test_what_charts_show(self):
        """By hand, of the four polls; who has arrived is known where the summary has the clock."""
        points = [[1, 1, 1, None], [2, 2, 1, None], [3, 2, 0, None], [4, 1, 0, None]]
        self.assertEqual(played(self.given, 0, 9).run["chart"], points)
        self.write("summary.csv", ",".join(SUMMARY) + "\n3,2,0,1,1,0,0\n4,2,0,1,0,1,0\n")
        self.assertEqual([point[3] for point in played(self.given, 2, 4).run["chart"]], [None, 0, 1])

    @needs_chromium
    def test_charts(self):
        """The values of the step stand beside the lines, and a click at a chart's end leads to the last one; without
        charts the picture has their place."""
        self.write("summary.csv", ",".join(SUMMARY) + "\n3,2,0,1,1,0,0\n4,2,0,1,0,1,0\n")
        page = self.page()
        note = "const told = []; const text = CanvasRenderingContext2D.prototype.fillText; "
        note += "CanvasRenderingContext2D.prototype.fillText = function (...words) { told.push(words[0]); "
        note += "text.apply(this, words); }; draw(); document.body.dataset.told = told.join('|'); "
        click = "new MouseEvent('click', { clientX: innerWidth - 8, clientY: innerHeight - 20 })"
        act = f"at('chart').dispatchEvent({click}); at('charts').click(); "
        act += "document.body.dataset.left = innerHeight - sides[0].canvas.getBoundingClientRect().bottom"
        page.write_text(
            page.read_text().replace("</html>", f"<script>setTimeout(() => {{ {note}{act} }}, 1000)</script></html>")
        )
        text = self.dom(page, 3)
        told = html.unescape(re.search(r'data-told="([^"]*)"', text)[1]).split("|")
        self.assertLessEqual({"vehicles", "standing", "arrived", " 2", " 0"}, {*told})
        self.assertEqual(self.shown_in(text)["clock"], 4)
        self.assertIn('data-left="0"', text)

    @needs_chromium
    def test_streets_and_times(self):
        self.write_polls([{"clock": 3, "lanes": []}, {"clock": 45_296, "lanes": []}])
        page = self.page()
        # Street a is 2 m away from the first place, and nothing is near the third.
        for place, street in (("3,30,-2", "a"), ("3,100,0", "b"), ("3,100,40", "")):
            self.assertEqual(self.shown(page, place)["street"], street)
        self.assertEqual(self.shown(page, 45_296)["time"], "12:34:56")

    @needs_chromium
    def test_signals(self):
        """Red from 5 to 14 of each 20 steps; the other link ends at no signal."""
        self.write_polls({"clock": clock, "lanes": []} for clock in (4, 5, 14, 15, 25))
        page = self.page()
        self.assertEqual([self.shown(page, clock)["red"] for clock in (4, 5, 14, 15, 25)], [0, 1, 1, 0, 1])

    @needs_chromium
    def test_a_resize_keeps_zoom_and_place(self):
        """Street b in the middle, 2.7 times as near: 10 m are then 121 pixels, and 20 m more than 200."""
        page = self.page()
        place = "canvas.getBoundingClientRect()"
        mouse = (
            f"new PointerEvent('pointermove', {{clientX: canvas.width / 2, clientY: {place}.top + canvas.height / 2}})"
        )
        zoom = "canvas.dispatchEvent(new WheelEvent('wheel', {deltaY: -500, cancelable: true}))"
        acts = f"{zoom}; dispatchEvent(new Event('resize')); canvas.dispatchEvent({mouse})"
        script = f"setTimeout(() => {{ const {{ canvas }} = sides[0]; {acts}; }}, 1000)"
        page.write_text(page.read_text().replace("</html>", f"<script>{script}</script></html>"))
        told = self.shown(page, "3,130,0")
        self.assertEqual((told["scale"], told["street"]), ("10 m", "b"))

    @needs_chromium
    def test_keys(self):
        """A minute on from 2 is the last step; left is one back; + zooms 1.3 times,
        four times make the 89 pixels of 20 m 254."""
        page = self.page()
        keys = [("PageDown", ""), ("ArrowLeft", ""), *[("+", "")] * 4, ("ArrowRight", ", shiftKey: true")]
        sent = "; ".join(f"dispatchEvent(new KeyboardEvent('keydown', {{key: '{key}'{more}}}))" for key, more in keys)
        page.write_text(
            page.read_text().replace("</html>", f"<script>setTimeout(() => {{ {sent} }}, 1000)</script></html>")
        )
        shown = self.shown(page, 2)
        self.assertEqual((shown["clock"], shown["scale"]), (3, "10 m"))

    @needs_chromium
    def test_two_runs_side_by_side(self):
        """The second one has other vehicles at the same clock, and each its name."""
        other = self.folder / "other"
        other.mkdir()
        shutil.copy(self.folder / "setting.json", other)
        with gzip.open(other / "lanes.jsonl.gz", "wt") as file:
            file.writelines(
                json.dumps({"clock": clock, "lanes": [[0, 0, [[0, 0, 0], [1, 2, 0], [2, 4, 0]], [], []]]}) + "\n"
                for clock in (1, 3)
            )
        page = self.folder / "two.html"
        self.tool("play", self.folder, other, "-o", page)
        text = self.dom(page, 3)
        self.assertEqual((self.shown_in(text)["vehicles"], self.shown_in(text, "other")["standing"]), (1, 3))
        self.assertIn(">other (not known to be proved)</div>", text)  # no program is named in its setting
        self.assertIn("one run, or two", self.tool("play", *[other] * 3, "-o", page, status=2)[1])

    @needs_chromium
    def test_a_link_leads_to_the_same_place(self):
        """The address that the page has after a zoom opens it there, and the junction of the signal is named."""
        page = self.page()
        zoom = "sides[0].canvas.dispatchEvent(new WheelEvent('wheel', {deltaY: -500, cancelable: true}))"
        note = (
            "const { dataset } = document.body; dataset.told = location.hash; dataset.names = 0; "
            "sides[0].scene.pen.strokeText = () => dataset.names++; draw();"
        )
        script = f"setTimeout(() => {{ {zoom}; setTimeout(() => {{ {note} }}, 1000) }}, 1000)"
        page.write_text(page.read_text().replace("</html>", f"<script>{script}</script></html>"))
        text = self.dom(page, "3,75,0")
        self.assertEqual(self.shown_in(text)["scale"], "10 m")
        self.assertIn('data-names="1"', text)
        told = re.search(r'data-told="#([^"]*)"', text)[1]
        self.assertEqual(told.split(",")[:3], ["3", "75", "0"])
        self.assertEqual(self.shown(self.page(), told)["scale"], "10 m")

    def shown(self, page, step):
        return self.shown_in(self.dom(page, step))

    def shown_in(self, text, name="shown"):
        return json.loads(html.unescape(re.search(rf'data-{name}="([^"]*)"', text)[1]))

    def dom(self, page, step):
        words = [
            CHROMIUM,
            "--headless",
            "--no-sandbox",
            "--disable-gpu",
            f"--user-data-dir={self.folder}/profile",
            f"--screenshot={self.folder}/shot.png",
            "--dump-dom",
            "--virtual-time-budget=5000",
        ]
        told = subprocess.run([*words, f"file://{page}#{step}"], capture_output=True, text=True, check=True).stdout
        self.assertGreater((self.folder / "shot.png").stat().st_size, 1000)
        return told


@needs_simulator
class Whole(Case):
    @needs_matplotlib
    def test_a_run_is_drawn_and_played(self):
        run, mapped, out = self.folder / "run.jsonl", self.folder / "map.json", self.folder / "out"
        self.tool("import", DATA / "grid.net.xml.gz", "--routes", DATA / "grid.rou.xml.gz", "-o", run, "--map", mapped)
        self.tool("run", run, "--map", mapped, "--until", 400, "--every", 2, "--out", out, "--program", PROGRAM)
        self.tool(
            "plot", "corridor", out, "--edges", "A0A1 A1A2 A2A3", "--last", 400, "-o", self.folder / "corridor.png"
        )
        self.assertEqual(self.tool("play", out, "-o", self.folder / "play.html")[0].split(",")[0], "200 steps")
        self.assertIn(
            f", {(self.folder / 'play.html').stat().st_size:,} bytes\n",
            self.tool("play", out, "-o", self.folder / "play.html")[0],
        )


if __name__ == "__main__":
    unittest.main()
