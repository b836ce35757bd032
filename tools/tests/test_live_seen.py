"""What the live page shows in Chromium of stops of buses, lights that detectors drive, merging before works, and of
both traffics at once: the same as the bridge's runs have, drawn and told in words."""
import unittest

from pages import PageCase, needs_driver, needs_selenium
from support import needs_simulator
from test_actuated import PHASES
from test_actuated import street as lit
from test_buses import AT_FIRST, BUS, STOPS, STREET
from test_page_works import street as two_lanes
from streetsim.control.bus_planned import planned
from streetsim.model.runs import read_with_map

CARS = "".join(f'<vehicle id="v{at}" depart="{at}"><route edges="a b"/></vehicle>' for at in range(0, 120, 4))
CLOSED = "#111111"  # in a light page
# The colours of the map's pixels around a share of a lane's length.
PIXELS = """
const [link, lane, share, id] = arguments, view = views[id === "map" ? 0 : 1];
const [x, y] = view.scene.screen(...placeOnLane(session.data.links[link], lane, share));
const pen = view.canvas.getContext("2d"), found = new Set();
const { data } = pen.getImageData(Math.round(x) - 1, Math.round(y) - 1, 3, 3);
const hex = at => "#" + [0, 1, 2].map(i => data[at + i].toString(16).padStart(2, "0")).join("");
for (let at = 0; at < data.length; at += 4) found.add(hex(at));
return [...found];
"""


@needs_simulator
@needs_driver
@needs_selenium
class Seen(PageCase):
    def imported(self, net, demand, *more):
        paths = self.write("x.net.xml", net), *more, "--routes", self.write("x.rou.xml", f"<routes>{demand}</routes>")
        run, mapping = self.folder / "x.jsonl", self.folder / "x.json"
        self.tool("import", *paths, "-o", run, "--map", mapping, "--dawdle", 0)
        self.run_file, self.mapping = read_with_map(run, mapping)

    def advance(self, browser, steps):
        browser.execute_script("guarded(async () => { await advance(arguments[0]); draw(1); showTables(); })", steps)
        self.idle(browser)

    def pixels(self, browser, link, lane, share, canvas="map"):
        return browser.execute_script(PIXELS, link, lane, share, canvas)

    def test_a_bus_at_its_stop(self):
        """It stands on the cells of its stop, in the colour of those who stand, before a cell that is closed for it."""
        stops = self.write("s.add.xml", f"<additional>{STOPS}</additional>")
        demand = f'{BUS}<vehicle id="b" type="bus" depart="0"><route edges="a b"/>{AT_FIRST}</vehicle>'
        self.imported(STREET, demand, stops)
        [visit] = self.mapping.visits
        with self.bridge(buses=planned(self.run_file, self.mapping)) as bridge, self.browser() as browser:
            self.open(browser, bridge.address)
            browser.execute_script("setTheme('light')")
            stood = []
            for _ in range(60):
                self.advance(browser, 1)
                [[_, link, lane, cell, speed]] = self.state(browser)[0] or [[0] * 5]
                if (link, cell, speed) == (visit.link, visit.last, 0):
                    stood.append(self.shown(browser)["clock"])
                    if len(stood) == 5:
                        cells = self.mapping.links[link].cells
                        found = self.pixels(browser, link, lane, (cell + 0.5) / cells)
                        self.assertIn(browser.execute_script("return colours().speeds[0]"), found)
                        self.assertIn(CLOSED, self.pixels(browser, link, lane, (cell + 1.5) / cells))
                        self.assertGreaterEqual(self.shown(browser)["closed"], 1)
        # Twenty seconds, and what SUMO's bus loses by braking and starting.
        self.assertEqual(stood, [*range(stood[0], stood[-1] + 1)])
        self.assertTrue(20 <= len(stood) <= 30, stood)

    def test_a_light_that_detectors_drive(self):
        """Its stop line is drawn as it shows it, and the panel says who drives it; a plan that is set takes it."""
        from selenium.webdriver.common.keys import Keys

        self.imported(lit(PHASES), CARS)
        node = self.mapping.signals[0][1]
        with self.bridge() as bridge, self.browser() as browser:
            self.open(browser, bridge.address)
            self.assertIn("Detectors drive one light", browser.execute_script("return at('claim').textContent"))
            shown = []
            for _ in range(60):
                self.advance(browser, 1)
                shown.append(browser.execute_script("return session.now.greensAt(arguments[0]).size", node))
            # A green that ends with the traffic is no part of the listed plan of 30, 3 and 20 s.
            self.assertEqual({*shown}, {0, 1})
            self.choose(browser, 0, 0, 1)
            told = "return at('said').textContent"
            self.assertIn("Detectors drive this light", browser.execute_script(told))
            self.click(browser, "Set the plan")
            self.assertEqual(browser.execute_script(told), "set: a cycle of 53 s")
            self.assertEqual(browser.execute_script("return session.now.shown.size"), 0)
            self.assertEqual(browser.execute_script("return session.was.shown.size"), 1)
            # The first click behind a box that changes counts.
            box = browser.find_element("id", "seconds")
            before = int(box.get_attribute("value"))
            box.send_keys(Keys.CONTROL, "a")
            box.send_keys("45")
            self.click(browser, "Set the plan")
            self.assertEqual(browser.execute_script(told), f"set: a cycle of {53 + 45 - before} s")

    def test_merging_before_works_and_both_traffics_at_once(self):
        """Lanes take turns before works that are closed by hand; the other map shows the street without them."""
        self.run_file, self.mapping = two_lanes()
        with self.bridge() as bridge, self.browser() as browser:
            self.open(browser, bridge.address)
            browser.execute_script("setTheme('light')")
            self.choose(browser, 0, 0, 0.6)
            for name, value in (("first", 375), ("last", 532), ("until", "0:10:00")):
                self.put(browser, name, value)
            self.assertEqual(browser.execute_script("return chosen.lanes"), [0])
            self.click(browser, "Close")
            self.assertIn("the lanes take turns", browser.execute_script("return at('said').textContent"))
            browser.execute_script("choose(null)")  # what is chosen is drawn above all else
            from selenium.webdriver.support.ui import Select

            Select(browser.find_element("id", "maps")).select_by_value("both")
            self.idle(browser)
            held = 0
            for _ in range(40):
                self.advance(browser, 5)
                held = max(held, self.shown(browser)["closed"])
            self.assertEqual(held, 2)  # the works, and what is held closed beside them for a turn
            now, was = self.state(browser)[0], self.state(browser, "was")[0]
            self.assertTrue(any(lane == 0 and 50 <= cell <= 70 for _, _, lane, cell, _ in was))
            self.assertFalse(any(lane == 0 and 50 <= cell <= 70 for _, _, lane, cell, _ in now))
            for canvas, is_closed in (("map", True), ("second-map", False)):
                found = self.pixels(browser, 0, 0, 60.5 / 100, canvas)
                self.assertEqual(CLOSED in found, is_closed, found)
            self.assertGreater(browser.execute_script("return session.was.points.at(-1)[0]"), 190)
            # Behind the works' end the lane is open again, and the street fills the gap.
            self.advance(browser, 401)
            self.assertEqual(self.shown(browser)["closed"], 0)
            self.assertIn("more so far", browser.execute_script("return at('gain').textContent"))


if __name__ == "__main__":
    unittest.main()
