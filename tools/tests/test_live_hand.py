"""The live page by hand in Chromium, by mouse, touch and keys: plans as bars, as it was beside as it is, works drawn on
the map, a green wave, and who is served."""
import contextlib
import json
import os
import signal
import time
import unittest
from contextlib import contextmanager
from dataclasses import replace
from functools import partial
from pathlib import Path
from xml.etree import ElementTree

from pages import DRIVER, PageCase, crossing_files, needs_driver, needs_selenium, state_after, told_by
from support import PROGRAM, Case, needs_simulator
from test_compared import lost_and_ended
from test_rounds import junction, make_older, routes
from test_works import fan, flows
from streetsim.base import limits
from streetsim.base.files import Fault
from streetsim.control.settings import Settings
from streetsim.kernel.serving import serving_program
from streetsim.live.bridge import Bridge
from streetsim.live.joining import Joining
from streetsim.live.page import page_data
from streetsim.live.session import PageSession
from streetsim.model.mapping import read_map
from streetsim.model.runs import read_run, read_with_map
from streetsim.observe.giving_way_rounds import giving_way

# The place on the screen of a second of a row of the plan, or of its ruler (row -2) or phases (row -1).
OF_PLAN = """
const [row, second] = arguments, box = editor.svg.getBoundingClientRect();
const top = row === -2 ? 9 : row === -1 ? 18 + 8 : editor.top(row) + editor.high / 2;
return [box.left + editor.x(second) + editor.each / 2, box.top + top];
"""
ROW = "return editor.bars.rows.findIndex(row => row.street.name === arguments[0] && row.kind === arguments[1])"
STATES = "return editor.bars.rows[arguments[0]].states.map(state => '.#/'[state]).join('')"
OF_MAP = """
const [link, lane, share, id] = arguments, box = at(id).getBoundingClientRect();
const [x, y] = scene.screen(...placeOnLane(session.data.links[link], lane, share));
return [x + box.left, y + box.top];
"""


class ImportCase(Case):
    def imported(self):
        """A street whose two lanes lead to an edge each: parallel links."""
        self.write("x.net.xml", fan(2))
        self.write("x.rou.xml", flows(2, 300))
        run, mapped = self.folder / "run.jsonl", self.folder / "map.json"
        words = [self.folder / "x.net.xml", "--routes", self.folder / "x.rou.xml"]
        self.tool("import", *words, "-o", run, "--map", mapped)
        return run, mapped


class HandCase(PageCase):
    def setUp(self):
        super().setUp()
        lines, mapping = crossing_files()
        self.run_path = self.write("run.jsonl", "".join(json.dumps(line) + "\n" for line in lines))
        self.map_path = self.write("map.json", json.dumps(mapping))
        self.run_file, self.mapping = read_run(self.run_path), read_map(self.map_path)

    def pull(self, browser, begin, end, touch=False):
        """Presses at a place of the screen, drags to another and lifts."""
        from selenium.webdriver.common.action_chains import ActionChains
        from selenium.webdriver.common.actions.action_builder import ActionBuilder
        from selenium.webdriver.common.actions.pointer_input import PointerInput

        if touch:
            builder = ActionBuilder(browser, mouse=PointerInput("touch", "finger"))
            hand, perform = builder.pointer_action, builder.perform
        else:
            chain = ActionChains(browser)
            hand, perform = chain.w3c_actions.pointer_action, chain.perform
        hand.move_to_location(*map(round, begin)).pointer_down()
        hand.move_to_location(*(round((one + other) / 2) for one, other in zip(begin, end, strict=True)))
        hand.move_to_location(*map(round, end)).pointer_up()
        perform()
        self.idle(browser)

    def in_plan(self, browser, row, second):
        return browser.execute_script(OF_PLAN, row, second)

    def states(self, browser, row):
        return browser.execute_script(STATES, row)

    def keys(self, browser, *keys):
        from selenium.webdriver.common.keys import Keys

        for key in keys:
            browser.switch_to.active_element.send_keys(getattr(Keys, key, key))
        self.idle(browser)

    def open_light(self, browser, address):
        self.open(browser, address)
        browser.execute_script("at('compare').checked = true; at('compare').onchange()")
        stop_line = browser.execute_script(OF_MAP, 0, 0.5, 1, "map")
        self.pull(browser, stop_line, stop_line)
        self.assertEqual(self.text(browser, "title"), "Light at X")

    def saved(self, browser, which=0):
        """The session as lines, or (1) that of the traffic as it was."""
        return browser.execute_async_script("session.text(arguments[0]).then(arguments[1])", which)

    def text(self, browser, name):
        return browser.execute_script("return at(arguments[0]).textContent", name)

    def plan(self, browser):
        return browser.execute_script("return session.plans.get(0)")

    def check_plan(self, browser):
        """Bars are dragged, typed and moved by keys; what crosses is red while it is dragged."""
        row = browser.execute_script(ROW, "W", "straight")
        self.assertEqual(self.states(browser, row), 25 * "#" + 25 * ".")
        self.assertFalse(browser.execute_script("return editor.svg.scrollWidth > editor.svg.clientWidth"))
        end, over = self.in_plan(browser, row, 24), self.in_plan(browser, row, 34)
        half = browser.execute_script("return editor.each / 2")
        self.pull(browser, [end[0] + half, end[1]], [over[0] + half, over[1]])
        self.assertEqual(self.states(browser, row), 35 * "#" + 15 * ".")
        self.assertIn("cross", self.text(browser, "planFault"))
        self.assertTrue(browser.execute_script("return editor.svg.querySelectorAll('.crossed').length"))
        # Back by keys, one second at a time, then five.
        self.keys(browser, *3 * ["ARROW_LEFT"])
        self.assertEqual(self.states(browser, row), 32 * "#" + 18 * ".")
        self.put(browser, "to", 27)
        self.assertEqual(self.states(browser, row), 27 * "#" + 23 * ".")
        self.assertEqual(self.text(browser, "planFault"), "")
        ruler = self.in_plan(browser, -2, 10)
        each = 2 * half
        self.pull(browser, ruler, [ruler[0] + 4 * each, ruler[1]], touch=True)
        self.assertEqual(browser.execute_script("return editor.bars.offset"), 3)
        self.click(browser, "Set the plan")
        plan = self.plan(browser)
        self.assertEqual((plan["offset"], sum(seconds for seconds, _ in plan["phases"])), (3, 50))
        self.assertEqual(self.green(plan), 27)

    def green(self, plan):
        """Seconds in which the way from west to east is green."""
        return sum(seconds for seconds, greens in plan["phases"] if [0, 0, 5] in greens)

    def check_phases(self, browser):
        """A phase is split and taken away; a green is set while it is dragged, by touch."""
        count = browser.execute_script("return editor.bars.stages().length")
        self.click(browser, "Split")
        self.assertEqual(browser.execute_script("return editor.bars.stages().length"), count + 1)
        self.click(browser, "As it is set")
        browser.find_element("id", "dragging").click()
        row = browser.execute_script(ROW, "W", "straight")
        x, y = self.in_plan(browser, row, 26)
        each = browser.execute_script("return editor.each")
        self.pull(browser, [x + each / 2, y], [x - 3.5 * each, y], touch=True)
        self.assertEqual(self.green(self.plan(browser)), 23)
        self.assertEqual(browser.execute_script("return session.changes.length"), 1)

    def check_undone(self, browser):
        """The difference is that of two runs of the program by lines; undone, there is none."""
        for _ in range(2):
            browser.execute_script("guarded(async () => { await advance(60); draw(1); showTables(); })")
            self.idle(browser)
        gain = self.shown(browser)["gain"]
        now, was = (self.saved(browser, which) for which in (0, 1))
        counted = [lost_and_ended(text, self.run_file, self.mapping) for text in (was, now)]
        self.assertEqual(gain["seconds"], (counted[0][0] - counted[1][0]) / counted[1][2])
        self.assertEqual(gain["ended"], counted[1][1] - counted[0][1])
        self.assertIn("a trip" if abs(gain["seconds"]) >= 0.05 else "no difference", self.text(browser, "gain"))
        from selenium.webdriver.support.ui import Select

        Select(browser.find_element("id", "maps")).select_by_value("both")
        self.idle(browser)
        self.assertGreater(browser.execute_script("return session.was.cars.size"), 0)
        self.assertTrue(browser.execute_script("return at('second-map').getBoundingClientRect().width > 200"))
        self.click(browser, "Undo")
        self.assertEqual(browser.execute_script("return [session.changes.length, session.clock]"), [0, 120])
        lanes = [(link, lane) for link in range(8) for lane in (0, 1)]
        self.assertEqual(state_after(self.saved(browser), lanes), state_after(was, lanes))
        self.assertIn("None so far", self.text(browser, "changes"))

    def check_works(self, browser):
        """A stretch is drawn, its lane is closed from now until a clock, and opened again."""
        self.keys(browser, "ESCAPE")
        self.click(browser, "works")
        begin, end = (browser.execute_script(OF_MAP, 5, 0, share, "map") for share in (0.35, 0.75))
        self.pull(browser, begin, end)
        metres = browser.execute_script("return [chosen.link.number, chosen.begin, chosen.end, chosen.lanes]")
        self.assertEqual((metres[0], metres[3]), (5, [0]))
        self.assertAlmostEqual(metres[1], 0.35 * 90, delta=4)
        self.assertAlmostEqual(metres[2], 0.75 * 90, delta=4)
        self.put(browser, "until", "0:02:30")
        self.click(browser, "Close")
        self.assertIn("the lanes take turns", self.text(browser, "said"))
        self.assertEqual(self.shown(browser)["closed"], 1)
        browser.execute_script("guarded(() => advance(40))")
        self.idle(browser)
        sent = map(json.loads, self.saved(browser).splitlines())
        works = [one for one in sent if one["cmd"] in ("close", "reopen") and one["lane"] == 0 and one["link"] == 5]
        self.assertEqual([one["cmd"] for one in (works[0], works[-1])], ["close", "reopen"])
        self.assertEqual(browser.execute_script("return session.clock"), 160)

    def check_wave(self, browser):
        """A path of three junctions; a light's bar is dragged, which sets its offset."""
        self.click(browser, "Green wave")
        for node in (1, 0, 2):
            x, y = browser.execute_script(
                "const { x, y } = junctions.get(arguments[0]), box = at('map').getBoundingClientRect(), "
                "[left, top] = scene.screen(x, y); return [left + box.left, top + box.top]",
                node,
            )
            self.pull(browser, [x, y], [x, y])
        self.assertEqual(browser.execute_script("return wave.path.map(part => part.link.number)"), [0, 5])
        self.click(browser, "Green wave")
        offset = self.plan(browser)["offset"]
        x, y, each = browser.execute_script(
            "wave.path.length || wave.pick(1); at('wave').scrollIntoView(); "
            "const box = at('wave').getBoundingClientRect(); "
            "return [box.left + 200, box.top + wave.y(wave.lights()[0].at), wave.each]"
        )
        self.pull(browser, [x, y], [x + 6 * each, y])
        self.assertEqual(self.plan(browser)["offset"], (offset - 6) % 50)

    def without_light(self):
        """The run and map of the same crossing without its light."""
        lines, mapping = crossing_files()
        turns = [[*turn[:4], None, turn[5], False] for turn in mapping["turns"]]
        run = self.write("unlit.jsonl", "".join(json.dumps(lines[at]) + "\n" for at in range(len(lines)) if at != 1))
        return read_run(run), read_map(self.write("unlit.json", json.dumps({**mapping, "signals": [], "turns": turns})))

    def check_junction(self, browser, address):
        """A junction without a light is chosen: who stands before it is told by street, and drawn in the chart."""
        self.open(browser, address)
        close = [{"cmd": "close", "link": 5, "lane": lane, "first": 0, "last": 11} for lane in (0, 1)]
        browser.execute_script(
            "const commands = arguments[0].map(command => ({ clock: 0, command })); "
            "guarded(() => session.act('change', { text: 'works', commands }))", close,
        )
        self.idle(browser)
        place = browser.execute_script(
            "const { x, y } = junctions.get(0), box = at('map').getBoundingClientRect(), [left, top] = "
            "scene.screen(x, y); return [left + box.left, top + box.top]"
        )
        self.pull(browser, place, place)
        self.assertEqual(self.text(browser, "title"), "Junction X")
        browser.execute_script("guarded(async () => { await advance(1); await advance(59); draw(1); showTables(); })")
        self.idle(browser)
        states = browser.execute_async_script(
            "const done = arguments[0], asked = [0, 1, 2, 3].flatMap(link => [0, 1].map(lane => "
            "({ cmd: 'lane', link, lane }))); session.ask(...asked).then(done)"
        )
        still = [len([car for car in state["cells"] if car[2] == 0]) + len(state["buffer"]) for state in states]
        by_street = [still[at] + still[at + 1] for at in range(0, 8, 2)]
        self.assertGreater(by_street[0], 3)
        rows = browser.execute_script(
            "return [...at('before').rows].slice(1).map(row => [...row.cells].map(cell => cell.textContent))"
        )
        streets = ["W, from the west", "E, from the east", "S, from the south", "N, from the north"]
        self.assertEqual(rows, [[street, str(count)] for street, count in zip(streets, by_street, strict=True)])
        self.assertEqual(browser.execute_script("return session.now.points.at(-1)[3]"), sum(by_street))
        grounds = []
        for _ in range(2):
            self.keys(browser, "d")
            grounds.append(browser.execute_script("return [theme, getComputedStyle(document.body).backgroundColor]"))
        self.assertEqual(dict(grounds), {"light": "rgb(255, 255, 255)", "dark": "rgb(20, 23, 28)"})

    def check_all(self, browser, address):
        self.open_light(browser, address)
        self.check_plan(browser)
        self.check_phases(browser)
        self.check_undone(browser)
        self.check_works(browser)


@needs_simulator
@needs_driver
@needs_selenium
class ByBridge(HandCase):
    def test_by_hand(self):
        with self.bridge() as bridge, self.browser() as browser:
            self.check_all(browser, bridge.address)
            self.check_wave(browser)
            self.run_file, self.mapping = self.without_light()
            with self.bridge() as unlit:
                self.check_junction(browser, unlit.address)

    def test_a_plan_for_sumo_on_an_upright_tablet(self):
        """The plan is whole in the page, without a bar of scrolling in it, and is saved."""
        with self.bridge() as bridge, self.browser(800, 1180) as browser:
            self.open_light(browser, bridge.address)
            wide, right = browser.execute_script(
                "const box = editor.svg.getBoundingClientRect(); return [innerWidth, box.right]"
            )
            self.assertLessEqual(right, wide)
            self.assertEqual(browser.execute_script("return document.documentElement.scrollWidth - innerWidth"), 0)
            self.click(browser, "Save for SUMO")
            saved = self.downloaded("L.add.xml")
        self.assertEqual(sum(int(one.get("duration")) for one in ElementTree.fromstring(saved).iter("phase")), 50)

    @contextmanager
    def another_browser(self):
        """A browser of its own, which may be refused, and killed."""
        from selenium import webdriver

        options = webdriver.ChromeOptions()
        for word in ("--headless=new", "--no-sandbox", "--disable-gpu", f"--user-data-dir={self.folder}/second"):
            options.add_argument(word)
        made = webdriver.Chrome(options=options, service=webdriver.chrome.service.Service(DRIVER))
        try:
            yield made
        finally:
            made.quit()

    def kill(self):
        """Kills the other browser, by the folder that its command names; it cannot say that it leaves."""
        mark = f"--user-data-dir={self.folder}/second".encode()
        for path in Path("/proc").glob("[0-9]*/cmdline"):
            with contextlib.suppress(OSError):
                if mark in path.read_bytes().split(b"\0"):
                    os.kill(int(path.parent.name), signal.SIGKILL)

    def test_who_is_served(self):
        """A second page may take over; the first is told. One whose browser was killed frees its place."""
        with self.bridge() as bridge, self.browser() as first:
            self.open(first, bridge.address)
            with self.another_browser() as second:
                second.get(bridge.address)
                self.wait(second, "return document.body.dataset.ready === 'no'")
                self.assertIn("take over", self.text(second, "fault"))
                self.click(second, "take")
                self.wait(second, "return document.body.dataset.ready === 'yes'")
                self.wait(first, "return at('fault').textContent.includes('taken over')")
                self.click(second, "step")
                self.assertEqual(self.shown(second)["clock"], 1)
                self.assertTrue(bridge.owner)
                self.kill()
                begun = time.monotonic()
                while bridge.owner and time.monotonic() - begun < 10:
                    time.sleep(0.05)
                self.assertEqual(bridge.owner, "")


@needs_simulator
class Joined(ImportCase):
    def test_lanes_are_joint_by_importing_anew(self):
        """A lane that is a link of its own cannot be closed; the bridge imports anew, and the page begins again."""
        run, mapped = self.imported()
        joining = Joining(*read_with_map(run, mapped), mapped, PROGRAM, lambda *_: Settings(limits.CLOCK))
        of, told = joining.page_run()
        self.assertEqual((told, len(of.mapping.links)), ([], 5))
        page, session = joining.page(of), PageSession(of)
        self.addCleanup(session.close)
        with Bridge(session, page, join=joining.join) as bridge:
            [link, _] = of.mapping.links_of["a"]
            asked = {"cmd": "close", "link": link, "lanes": [0], "begin": 10, "end": 30, "from": 0, "until": None}
            session.begin()
            told = told_by(session.works({**asked, "text": "works"}))
            self.assertEqual((told["joint"], told["changes"]), ("a_0", []))
            self.assertIn("a link of its own", told["refused"])
            bridge.join_lanes(["a_0"])
            with self.assertRaisesRegex(Fault, "nothing is running"):
                session.step(1)
            session.begin()
            self.assertEqual((len(session.page_run.mapping.links), bridge.page != page), (4, True))
            with self.assertRaisesRegex(Fault, "no edge or lane 'x'"):
                bridge.join_lanes(["x"])
            self.assertEqual(told_by(session.step(1))["worlds"][0]["clock"], 1)


@needs_simulator
class GivingWay(ImportCase):
    def test_as_in_the_run(self):
        """With a map of an earlier version a minor street gives way on the page by the lines that streetsim-run sends,
        at the same clocks."""
        demand = routes([*((at, "w") for at in range(0, 300, 4)), *((at, "s") for at in range(2, 300, 9))])
        self.write("x.net.xml", junction())
        self.write("x.rou.xml", demand)
        run, mapped = self.folder / "run.jsonl", self.folder / "map.json"
        words = [self.folder / "x.net.xml", "--routes", self.folder / "x.rou.xml"]
        self.tool("import", *words, "-o", run, "--map", mapped)
        make_older(mapped)
        read = read_with_map(run, mapped)
        settings = Settings(limits.CLOCK, 0, rescue=0)
        wanted, _ = giving_way(*read, settings, 2, partial(serving_program, PROGRAM, run), lambda *_: None)
        self.assertGreater(len(wanted.timed), 1)
        joining = Joining(*read, mapped, PROGRAM, lambda *_: settings, rounds=2)
        made, told = joining.page_run()
        sent = [[(at, line.command) for at, line in one.timed] for one in (made.run, wanted)]
        self.assertEqual(*sent)
        self.assertIn("1 junctions without a light give way", told[0])
        [node] = {one.node for one in made.mapping.yields}
        self.assertEqual(page_data(made)["giving"], [node])
        self.assertEqual(page_data(replace(joining, rounds=0).page_run()[0])["giving"], [])


if __name__ == "__main__":
    unittest.main()
