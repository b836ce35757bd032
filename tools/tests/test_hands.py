"""What a hand does on the live page in Chromium: keys, wheel, fingers, and what is followed, measured and listed."""
import re
import unittest

from pages import PageCase, needs_driver, needs_selenium
from support import needs_simulator

SEEN = "return [scene.x, scene.y, scene.scale, session.clock]"


@needs_simulator
@needs_driver
@needs_selenium
class Hands(PageCase):
    def press(self, browser, key):
        browser.find_element("tag name", "body").send_keys(key)
        self.idle(browser)

    def seen(self, browser):
        """The middle of the picture, its pixels a metre, and the clock."""
        return browser.execute_script(SEEN)

    def steps(self, browser, count):
        for _ in range(count):
            self.click(browser, "step")

    def near(self, one, other):
        for first, second in zip(one, other, strict=True):
            self.assertAlmostEqual(first, second, places=6)

    def test_keys(self):
        from selenium.webdriver.common.keys import Keys

        with self.bridge() as bridge, self.browser() as browser:
            self.open(browser, bridge.address)
            browser.execute_script("document.activeElement.blur()")
            x, y, scale, _ = self.seen(browser)
            self.near((x, y), (75, 0))
            self.press(browser, "+")
            self.near(self.seen(browser), (x, y, 1.25 * scale, 0))
            for key, east, north in (
                (Keys.ARROW_LEFT, -1, 0),
                (Keys.ARROW_UP, -1, 1),
                (Keys.ARROW_RIGHT, 0, 1),
                (Keys.ARROW_DOWN, 0, 0),
            ):
                self.press(browser, key)
                self.near(
                    self.seen(browser),
                    (x + 60 * east / (1.25 * scale), y + 60 * north / (1.25 * scale), 1.25 * scale, 0),
                )
            self.press(browser, "-")
            self.press(browser, "-")
            self.near(self.seen(browser), (x, y, 0.8 * scale, 0))
            self.press(browser, "0")
            self.near(self.seen(browser), (x, y, scale, 0))
            for _ in range(4):
                self.press(browser, ".")
            self.assertEqual(self.seen(browser)[3], 4)
            self.put(browser, "second", 3)
            self.press(browser, "b")
            self.assertEqual(self.seen(browser)[3], 3)
            # In a box a key is a letter of it, and on a button space presses that button.
            browser.find_element("id", "second").send_keys("1.")
            browser.find_element("id", "step").send_keys(Keys.SPACE)
            self.idle(browser)
            self.assertEqual((self.seen(browser)[3], browser.execute_script("return playing")), (4, False))
            self.choose(browser, 1, 0, 0.55)
            self.assertIn("b, towards C", browser.execute_script("return at('title').textContent"))
            self.press(browser, Keys.ESCAPE)
            self.assertEqual(browser.execute_script("return [chosen, at('chosen').textContent]"), [None, ""])

    def test_a_vehicle_is_followed(self):
        """From the stop line to the next link: after each step the picture's middle is where the
        engine says that it is."""
        from selenium.webdriver.common.keys import Keys

        with self.bridge() as bridge, self.browser() as browser:
            self.open(browser, bridge.address)
            self.steps(browser, 10)
            self.choose(browser, 0, 0, 0.95)
            self.assertIn("Vehicle v", browser.execute_script("return at('title').textContent"))
            self.click(browser, "Follow it")
            for _ in range(8):
                self.press(browser, "+")
            self.steps(browser, 14)
            where = browser.execute_async_script(
                "const done = arguments[0]; session.ask({ cmd: 'vehicle', car: 0 }).then(([one]) => done(one))"
            )
            self.assertEqual((where["state"], where["link"]), ("cell", 1))
            x, y, scale, _ = self.seen(browser)
            self.near((x, y), (75 + 7.5 * (where["cell"] + 0.5), 0))
            # Escape lets it go: the picture stays, and the vehicle drives on.
            self.press(browser, Keys.ESCAPE)
            self.steps(browser, 1)
            self.near(self.seen(browser), (x, y, scale, 25))
            self.assertIsNone(browser.execute_script("return followed"))

    def test_a_detector_and_the_queues(self):
        """By hand: three vehicles stand before the red, all of them pass the detector behind it,
        and the queue is none any more. The queues are those of all lanes, also of one that is out of view."""
        with self.bridge() as bridge, self.browser() as browser:
            self.open(browser, bridge.address)
            self.choose(browser, 1, 0, 0.55)
            self.put(browser, "cell", 2)
            self.put(browser, "period", 5)
            self.click(browser, "Place it")
            self.assertIn("the detector is placed", browser.execute_script("return at('said').textContent"))
            self.assertEqual(self.charts(browser), ["no period is over yet"])
            browser.execute_script("scene.scale = 40; scene.x = 140; scene.moved = true; draw(1)")
            self.steps(browser, 18)
            rows = browser.execute_script(
                "return [...at('queues').rows].map(row => [...row.cells].slice(0, 3).map(cell => cell.textContent))"
            )
            self.assertEqual(rows[1:], [["a", "3", "0"]])
            browser.execute_script("at('queues').rows[1].click()")
            self.assertIn("a, towards B", browser.execute_script("return at('title').textContent"))
            self.steps(browser, 22)
            self.assertEqual(browser.execute_script("return at('queues').rows.length"), 1)
            [chart] = self.charts(browser)
            flows = [int(flow) for flow in re.fullmatch(r"([\d, ]+) vehicles an hour", chart)[1].split(", ")]
            self.assertEqual((len(flows), sum(flows)), (8, 3 * 3600 // 5))
            self.assertEqual(flows[:4], [0] * 4)

    def charts(self, browser):
        return browser.execute_script(
            "return [...document.querySelectorAll('#detectors canvas')].map(chart => chart.title)"
        )

    def test_names_appear_where_one_points(self):
        from selenium.webdriver.common.action_chains import ActionChains

        with self.bridge() as bridge, self.browser() as browser:
            self.open(browser, bridge.address)
            browser.execute_script(
                "globalThis.named = []; const draws = scene.drawName; scene.drawName = function (...words) { "
                "named.push(words[0]); draws.apply(this, words); }"
            )
            for x in (75, 110):
                place = browser.execute_script(
                    "const box = at('map').getBoundingClientRect(), [x, y] = scene.screen(arguments[0], 0); "
                    "return [x + box.left, y + box.top]",
                    x,
                )
                actions = ActionChains(browser)
                actions.w3c_actions.pointer_action.move_to_location(*map(round, place))
                actions.perform()
            self.assertEqual(browser.execute_script("return [named[0], named.at(-1)]"), ["junction B", "b"])

    def touch(self, browser, kind, *points):
        touches = [{"x": x, "y": y, "id": number} for number, (x, y) in enumerate(points)]
        browser.execute_cdp_cmd("Input.dispatchTouchEvent", {"type": kind, "touchPoints": touches})

    def test_fingers_on_a_narrow_screen(self):
        """One finger moves, two zoom, a touch chooses; so do the wheel and the mouse."""
        with self.bridge() as bridge, self.browser(420, 800) as browser:
            self.open(browser, bridge.address)
            box = browser.execute_script(
                "const box = at('map').getBoundingClientRect(); return [box.left, box.top, box.width, box.height]"
            )
            middle_x, middle_y = box[0] + box[2] / 2, box[1] + box[3] / 2
            x, y, scale, _ = self.seen(browser)
            self.touch(browser, "touchStart", (middle_x, middle_y))
            for way in (15, 30):
                self.touch(browser, "touchMove", (middle_x + way, middle_y + 2 * way))
            self.touch(browser, "touchEnd")
            self.near(self.seen(browser), (x - 30 / scale, y + 60 / scale, scale, 0))
            self.assertIsNone(browser.execute_script("return chosen"))
            # Two fingers that begin 40 pixels apart and end 80 apart.
            self.touch(browser, "touchStart", (middle_x - 20, middle_y), (middle_x + 20, middle_y))
            for apart in (21, 30, 40):
                self.touch(browser, "touchMove", (middle_x - apart, middle_y), (middle_x + apart, middle_y))
            self.touch(browser, "touchEnd")
            self.assertAlmostEqual(self.seen(browser)[2] / scale, 80 / 42, delta=0.1)
            wide = self.seen(browser)[2]
            browser.execute_cdp_cmd(
                "Input.dispatchMouseEvent",
                {"type": "mouseWheel", "x": middle_x, "y": middle_y, "deltaX": 0, "deltaY": 100},
            )
            self.wait(browser, f"return scene.scale < {wide}")
            self.click(browser, "whole")
            self.near(self.seen(browser), (x, y, scale, 0))
            place = browser.execute_script(
                "const [px, py] = scene.screen(...placeOnLane(session.data.links[1], 0, .55)); return [px, py]"
            )
            touched = (box[0] + place[0], box[1] + place[1])
            self.touch(browser, "touchStart", touched)
            self.touch(browser, "touchEnd")
            self.wait(browser, "return at('title').textContent.startsWith('b, towards C')")


if __name__ == "__main__":
    unittest.main()
