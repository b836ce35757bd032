"""A small street as a live page, and what tests of it share: the bridge that serves it,
Chromium, and what a hand does."""
import json
import shutil
import subprocess
import threading
import time
from contextlib import contextmanager
from importlib.util import find_spec

from support import MAP, NUMBERED, PROGRAM, RED, Case, needs_package
from streetsim.base import limits
from streetsim.control.actuated_lights import driven_lights
from streetsim.control.settings import Settings
from streetsim.live.bridge import Bridge
from streetsim.live.page import live_page
from streetsim.live.session import PageSession
from streetsim.live.world import PageRun
from streetsim.model.mapping import read_map
from streetsim.model.runs import read_run

DRIVER = shutil.which("chromedriver")
needs_driver = needs_package("chromium-driver", DRIVER)
needs_selenium = needs_package("python3-selenium", find_spec("selenium"))
ENTERS = [{"cmd": "enter", "plan": [0, 1], "lane": 0, "depart": depart} for depart in (0, 2, 4)]


class LiveCase(Case):
    """A street of two links with a red light between them, three vehicles, and a green that comes at second 20."""

    def setUp(self):
        super().setUp()
        green = {"cmd": "signal", "node": 1, "offset": 0, "phases": [[600, [[0, 0, 1]]]], "at": 20}
        lines = [{"cmd": "load", **NUMBERED}, RED, *ENTERS, green]
        self.run_path = self.write("run.jsonl", "".join(json.dumps(line) + "\n" for line in lines))
        self.map_path = self.write("map.json", json.dumps({**MAP, "cars": ["v", "w", "x"]}))
        self.run_file, self.mapping = read_run(self.run_path), read_map(self.map_path)

    def page_run(self, **more):
        """The run as a page shows it; more: what else is asked of it, as Settings has it."""
        settings = Settings(limits.CLOCK, 0, **{"lights": driven_lights(self.run_file, self.mapping), **more})
        return PageRun(self.run_file, self.mapping, settings, PROGRAM)

    @contextmanager
    def bridge(self, **more):
        of = self.page_run(**more)
        session = PageSession(of)
        with Bridge(session, live_page(of)) as bridge:
            thread = threading.Thread(target=bridge.serve_forever, daemon=True)
            thread.start()
            try:
                yield bridge
            finally:
                bridge.shutdown()
                thread.join()
                session.close()


# A crossing of two streets with a light; links 0 to 3 lead in from west, east, south and north, links 4 to 7 out again.
CROSSING_ENDS = {"W": (-100, 0), "E": (100, 0), "S": (0, -100), "N": (0, 100)}
BESIDE = {"W": (0, -4), "E": (0, 4), "S": (4, 0), "N": (-4, 0)}


def crossing_links():
    """Its links: name, begin, end, points. Node 0 is the crossing, and 1 to 4 are the ends."""
    inward, outward = [], []
    for number, (name, (x, y)) in enumerate(CROSSING_ENDS.items(), 1):
        dx, dy = BESIDE[name]
        near = x / 10, y / 10
        inward.append((name, number, 0, [[x + dx, y + dy], [near[0] + dx, near[1] + dy]]))
        outward.append((f"to {name}", 0, number, [[near[0] - dx, near[1] - dy], [x - dx, y - dy]]))
    return [*inward, *outward]


def crossing_turns():
    """Its turns: link, lane, next, its lane, light, index; each way but back."""
    ways = [(link, to) for link in range(4) for to in range(4) if to != link]
    return [[link, 0, to + 4, 0, "L", index] for index, (link, to) in enumerate(ways)]


def greens(*pairs):
    """Greens by the ends of their ways: "WE" leads from west to east."""
    return [["WESN".index(pair[0]), 0, "WESN".index(pair[1]) + 4] for pair in pairs]


# Left turns in the last seconds of a green, and right turns not in its middle, as imports have them.
EAST_WEST, NORTH_SOUTH = greens("WE", "WS", "EW", "EN"), greens("SN", "SE", "NS", "NW")
CROSSING_PLAN = {
    "cmd": "signal", "node": 0, "offset": 7,
    "phases": [
        [12, EAST_WEST], [4, greens("WE", "EW")], [6, EAST_WEST], [3, [*EAST_WEST, *greens("WN", "ES")]], [3, []],
        [20, NORTH_SOUTH], [2, []],
    ],
}  # fmt: skip


def crossing_files():
    """The crossing's run and map: two lanes on each link, and vehicles from west to east and from south to north."""
    links = crossing_links()
    turns = [[link, lane, to, lane, *rest] for link, _, to, _, *rest in crossing_turns() for lane in (0, 1)]
    load = {
        "cmd": "load", "nodes": [[number, 1, 2] for number in range(5)],
        "links": [[number, begin, end, 2, 12, 2] for number, (_, begin, end, _) in enumerate(links)],
        "turns": [turn[:4] for turn in turns], "zone": 0, "dawdle": 170, "change": 1000, "seed": 1,
    }  # fmt: skip
    given = CROSSING_PLAN["phases"]
    phases = [[seconds, [[a, lane, b] for a, _, b in own for lane in (0, 1)]] for seconds, own in given]
    enters = [
        {"cmd": "enter", "plan": [0, 5] if at % 3 else [2, 7], "lane": at // 3 % 2, "depart": at} for at in range(240)
    ]
    mapping = {
        **MAP, "nodes": [["X", 0, 0, 1], *([name, *place, 1] for name, place in CROSSING_ENDS.items())],
        "links": [[name, [0, 1], begin, end, 12, 2, 90.0, points] for name, begin, end, points in links],
        "turns": [[*turn, False] for turn in turns], "signals": [["L", 0]], "cars": [str(at) for at in range(240)],
    }  # fmt: skip
    return [load, {**CROSSING_PLAN, "phases": phases}, *enters], mapping


def state_after(text, lanes=((0, 0), (1, 0))):
    """[vehicle, link, lane, cell, speed] of all on the cells of some lanes, and the clock, after a session's lines."""
    asked = [{"cmd": "lane", "link": link, "lane": lane} for link, lane in lanes]
    lines = text + "".join(json.dumps(one) + "\n" for one in [*asked, {"cmd": "count"}])
    done = subprocess.run([PROGRAM, "--endless"], input=lines, capture_output=True, text=True, check=True)
    *replies, count = map(json.loads, done.stdout.splitlines()[-len(lanes) - 1 :])
    found = zip(lanes, replies, strict=True)
    rows = [[car, *place, cell, speed] for place, reply in found for car, cell, speed, *_ in reply["cells"]]
    return sorted(rows), count["clock"]


def told_by(message):
    """What a message to a page tells as JSON, before the vehicles."""
    return json.loads(message[4 : 4 + int.from_bytes(message[:4], "little")])


class PageCase(LiveCase):
    """The page in Chromium, by clicks."""

    @contextmanager
    def browser(self, wide=1366, high=768):
        from selenium import webdriver

        options = webdriver.ChromeOptions()
        # No name is resolved: a page that asked another machine for something would lack it.
        words = [
            "--headless=new", "--no-sandbox", "--disable-gpu", f"--window-size={wide},{high}",
            "--host-resolver-rules=MAP * ~NOTFOUND, EXCLUDE 127.0.0.1",
        ]
        for word in words:
            options.add_argument(word)
        options.set_capability("goog:loggingPrefs", {"browser": "ALL"})
        options.add_experimental_option("prefs", {"download.default_directory": str(self.folder)})
        made = webdriver.Chrome(options=options, service=webdriver.chrome.service.Service(DRIVER))
        try:
            yield made
            self.assertEqual(
                [
                    entry["message"]
                    for entry in made.get_log("browser")
                    if entry["level"] == "SEVERE" and "favicon" not in entry["message"]
                ],
                [],
            )
        finally:
            made.quit()

    def state(self, browser, world="now"):
        """What state_after gives, as the page shows it."""
        cars = browser.execute_script(
            "return [...session[arguments[0]].cars].map(([car, [link, lane, , cell, speed]]) => "
            "[car, link.number, lane, cell, speed])",
            world,
        )
        return sorted(cars), browser.execute_script("return session.clock")

    def open(self, browser, address):
        browser.get(address)
        self.wait(browser, "return document.body.dataset.ready || ''")
        self.assertEqual(browser.execute_script("return document.body.dataset.ready + at('fault').textContent"), "yes")

    def wait(self, browser, script):
        from selenium.webdriver.support.ui import WebDriverWait

        return WebDriverWait(browser, 60).until(lambda driver: driver.execute_script(script))

    def click(self, browser, name):
        """Clicks a button by its id or text, and waits until what it began is done."""
        script = (
            "return document.getElementById(arguments[0]) || [...document.querySelectorAll('button')].find(one => "
            "one.textContent === arguments[0])"
        )
        browser.execute_script(script, name).click()
        self.idle(browser)

    def idle(self, browser):
        self.wait(browser, "return turn.then(() => reading).then(() => !busy)")

    def shown(self, browser):
        return json.loads(browser.execute_script("return document.body.dataset.shown"))

    def choose(self, browser, link, lane, share):
        """Clicks at a share of a lane's length."""
        script = (
            "const link = session.data.links[arguments[0]], [x, y] = scene.screen(...placeOnLane(link, "
            "arguments[1], arguments[2])), box = at('map').getBoundingClientRect(); return [x + box.left, y + box.top]"
        )
        x, y = browser.execute_script(script, link, lane, share)
        from selenium.webdriver.common.action_chains import ActionChains

        actions = ActionChains(browser)
        actions.w3c_actions.pointer_action.move_to_location(round(x), round(y)).pointer_down().pointer_up()
        actions.perform()
        self.idle(browser)

    def put(self, browser, name, value):
        script = (
            "const box = document.getElementById(arguments[0]); box.value = arguments[1]; "
            "for (const kind of ['input', 'change']) box.dispatchEvent(new Event(kind))"
        )
        browser.execute_script(script, name, value)

    def downloaded(self, name):
        """The text of a file that the browser saves, once it is there; it goes by another name until then."""
        for _ in range(300):
            if (self.folder / name).exists():
                return (self.folder / name).read_text()
            time.sleep(0.1)
        return self.fail(f"{name} was not saved")
