"""The live page: who is served, what a request may send, and that a clicked session is done again to the same state."""
import http.client
import json
import unittest

from pages import LiveCase, PageCase, needs_driver, needs_selenium, state_after
from support import MAP, needs_simulator
from streetsim.live.bridge import MOST_BODY, is_a
from streetsim.live.page import lane_word, page_data
from streetsim.model.mapping import read_map

# Changes of a page by its buttons: each that was not refused counts.
CHANGES = """
globalThis.press = name => [...document.querySelectorAll('#chosen button')]\
.find(one => one.textContent === name).click();
globalThis.fill = (name, value) => { const box = at(name); box.value = value; \
for (const kind of ['input', 'change']) box.dispatchEvent(new Event(kind)); };
globalThis.changes = () => session.changes.length;
globalThis.changeOnce = async i => {
  if (i % 5 === 4) { choose({ node: 1 }); fill('seconds', 5 + i % 60); press('Set the plan'); }
  else {
    choose({ link: session.data.links[i % 2], lanes: [0], begin: 7 * (i % 7), end: 7 * (i % 7) + 20 });
    if (i % 50 === 0) press('Place it'); else press(i % 3 ? 'Close' : 'Reopen');
  }
  await turn;
  if (i % 4 === 0) { at('step').click(); await turn; }
};
globalThis.makeChanges = async count => { \
for (let i = 0; changes() < count && i < 3 * count; i++) await changeOnce(i); };
"""


class Values(unittest.TestCase):
    def test_true_and_false_are_no_numbers(self):
        self.assertEqual([is_a(value, int) for value in (0, 7, True, False, 1.0, "7")], [True] * 2 + [False] * 4)
        kinds = (True, bool), ("7", str), ([], list), (7, str)
        self.assertEqual([is_a(*pair) for pair in kinds], [True] * 3 + [False])


class Data(LiveCase):
    def test_what_a_page_knows(self):
        data = page_data(self.page_run())
        self.assertEqual(
            [(link["name"], link["begin"], link["end"], link["cells"]) for link in data["links"]],
            [("a", 0, 1, 10), ("b", 1, 2, 10)],
        )
        self.assertEqual([plan["phases"] for plan in data["signals"]], [[[600, []]], [[600, [[0, 0, 1]]]]])

    def test_names_of_streets_and_junctions(self):
        """Those of the map: a junction goes by its own name, by its streets, or by its id."""
        names = {"edges": {"a": "Hill Street", "b": "Market Street"}, "junctions": {"A": "Old Gate"}}
        plain, self.mapping = self.mapping, read_map(self.write("named.json", json.dumps({**MAP, "names": names})))
        data = page_data(self.page_run(), map_path=self.folder / "named.json")
        self.assertEqual([link["street"] for link in data["links"]], ["Hill Street", "Market Street"])
        streets = ["Old Gate", "Hill Street / Market Street", "Market Street"]
        self.assertEqual([node["name"] for node in data["nodes"]], streets)
        self.mapping = plain
        self.assertEqual([node["name"] for node in page_data(self.page_run())["nodes"]], ["A", "B", "C"])

    def test_lanes_and_turns_in_words(self):
        names = [[lane_word(index, most) for index in range(most + 1)] for most in (0, 1, 2, 4)]
        self.assertEqual(names[:3], [[""], ["right lane", "left lane"], ["right lane", "middle lane", "left lane"]])
        self.assertEqual(names[3][1:4], [f"{word} lane from the right" for word in ("second", "third", "fourth")])
        data = page_data(self.page_run())
        self.assertEqual([link["from"] for link in data["links"]], ["west", "west"])
        self.assertEqual(data["turns"], [[0, 0, 1, 0, "L", 0, "straight"]])

    def test_a_map_of_another_run(self):
        path = self.write("other.json", json.dumps({**MAP, "links": MAP["links"][:1], "turns": []}))
        told = self.tool("live", self.run_path, "--map", path, "--program", "/bin/cat", "--no-open", status=2)[1]
        self.assertIn("run.jsonl, whose links are other ones", told)

    def test_nothing_to_run(self):
        told = self.tool(
            "live", self.run_path, "--map", self.map_path, "--program", self.folder / "no", "--no-open", status=2
        )[1]
        self.assertIn("no program that can be run", told)


@needs_simulator
class Requests(LiveCase):
    """What the bridge serves and what it refuses."""

    def ask(self, bridge, verb, path, body=b"", **headers):
        link = http.client.HTTPConnection("127.0.0.1", bridge.server_port, timeout=20)
        link.request(verb, path, body, {"Origin": f"http://127.0.0.1:{bridge.server_port}", **headers})
        answer = link.getresponse()
        told = answer.read()
        link.close()
        return answer.status, told

    def test_the_page_and_its_steps(self):
        with self.bridge() as bridge:
            token = f"/{bridge.token}"
            status, page = self.ask(bridge, "GET", f"{token}/")
            self.assertEqual((status, b"<!DOCTYPE html>" in page), (200, True))
            self.assertEqual(self.ask(bridge, "POST", f"{token}/one/begin")[0], 200)
            status, told = self.ask(bridge, "POST", f"{token}/one/step", b'{"steps":3}')
            size = int.from_bytes(told[:4], "little")
            [world] = json.loads(told[4 : 4 + size])["worlds"]
            # By hand: the first stands in its first cell at 1 s, and drives one cell and then two; the second is there.
            rows = memoryview(told)[4 + size :].cast("i").tolist()
            self.assertEqual((status, world["clock"], rows), (200, 3, [0, 0, 3, 2, 1, 0, 0, 0]))
            # A page that leaves makes room for the next one, which begins anew.
            self.ask(bridge, "POST", f"{token}/one/leave")
            self.assertEqual(self.ask(bridge, "POST", f"{token}/two/begin")[0], 200)
            self.assertIn(b'"clock":1,', self.ask(bridge, "POST", f"{token}/two/step", b'{"steps":1}')[1])

    def test_refused(self):
        step = b'{"steps":1}'
        with self.bridge() as bridge:
            token = f"/{bridge.token}"
            self.assertEqual(self.ask(bridge, "POST", f"{token}/one/begin")[0], 200)
            for name, status, path, body, headers in (
                ("another token", 403, "/wrong/one/step", step, {}),
                ("no token", 403, "/", step, {}),
                ("a foreign page", 403, f"{token}/one/step", step, {"Origin": "http://example.org"}),
                (
                    "a foreign name of this machine", 403, f"{token}/one/step", step,
                    {"Host": f"example.org:{bridge.server_port}"},
                ),
                ("a second page", 409, f"{token}/two/begin", b"", {}),
                ("steps of a second page", 409, f"{token}/two/step", step, {}),
                ("too long", 413, f"{token}/one/step", b" " * (MOST_BODY + 1), {}),
                ("another verb", 404, f"{token}/one/stop", step, {}),
                ("another path", 404, f"{token}/one/step/0", step, {}),
                *(
                    (f"{verb} {body}", 400, f"{token}/one/{verb}", body.encode(), {})
                    for verb, body in (
                        ("step", "{}"), ("step", "[]"), ("step", "{"), ("step", '{"steps":true}'),
                        ("step", '{"steps":-1}'), ("step", '{"steps":10001}'), ("undo", '{"number":0.5}'),
                        ("watch", '{"node":3}'), ("ask", '{"commands":[{"cmd":"advance","steps":1}]}'),
                        ("change", '{"text":"x","commands":[]}'),
                        ("change", '{"text":"x","commands":[{"clock":0,"command":{"cmd":"load"}}]}'),
                        ("change", '{"text":"x","commands":[{"clock":0,"command":{"cmd":"signal"}}]}'),
                        ("works", '{"wish":{"link":2}}'),
                    )
                ),
            ):  # fmt: skip
                with self.subTest(name):
                    told = self.ask(bridge, "POST", path, body, **headers)
                    self.assertEqual(told[0], status, told)
                    self.assertTrue(json.loads(told[1])["fault"])
            self.assertEqual(self.ask(bridge, "GET", f"{token}/other")[0], 404)
            # None of them changed anything, or ended what is served.
            self.assertIn(b'"clock":1,', self.ask(bridge, "POST", f"{token}/one/step", step)[1])

    def test_more_than_a_request_may_have(self):
        with self.bridge() as bridge:
            link = http.client.HTTPConnection("127.0.0.1", bridge.server_port, timeout=20)
            link.putrequest("POST", f"/{bridge.token}/one/step")
            link.putheader("Content-Length", str(1 << 40))
            link.endheaders()
            self.assertEqual(link.getresponse().status, 413)
            link.close()


@needs_simulator
@needs_driver
@needs_selenium
class Page(PageCase):
    """The page in Chromium, by clicks."""

    def test_a_clicked_session(self):
        """Steps, a plan, a closure, a detector, a vehicle taken out, and back: what is saved leads to what the page
        shows."""
        with self.bridge() as bridge, self.browser() as browser:
            self.open(browser, bridge.address)
            self.click(browser, "step")
            self.assertEqual(self.shown(browser)["clock"], 1)
            # By hand: one vehicle is in its cell, two wait.
            self.assertEqual((self.shown(browser)["driving"], self.shown(browser)["seen"]), (1, 1))
            self.choose(browser, 1, 0, 0.55)
            self.put(browser, "first", 30)
            self.put(browser, "last", 52)
            self.click(browser, "Close")
            self.assertEqual(self.shown(browser)["closed"], 1)
            self.put(browser, "cell", 15)
            self.put(browser, "period", 5)
            self.click(browser, "Place it")
            self.choose(browser, 0, 0, 1)
            self.put(browser, "seconds", 700)
            self.click(browser, "Set the plan")
            self.assertIn("BadSignal", browser.execute_script("return at('said').textContent"))
            self.put(browser, "seconds", 30)
            self.click(browser, "Set the plan")
            for _ in range(8):
                self.click(browser, "step")
            self.choose(browser, 0, 0, 0.95)
            self.assertIn("Vehicle", browser.execute_script("return at('title').textContent"))
            self.click(browser, "Take it out")
            self.click(browser, "step")
            self.assertEqual(self.shown(browser)["clock"], 10)
            self.put(browser, "second", "0:00:09")
            self.click(browser, "back")
            self.assertEqual(self.shown(browser)["clock"], 9)
            for _ in range(20):
                self.click(browser, "step")
            state = self.state(browser)
            self.click(browser, "save")
            saved = self.downloaded("session.jsonl")
        self.assertEqual(state_after(saved), state)
        self.assertIn('"cmd":"close","link":1,"lane":0,"first":4,"last":6', saved)
        # The run's own green at second 20 is among the lines, and what was done at second 9 is not,
        # as the page went back there.
        self.assertIn('"at": 20', saved)
        self.assertNotIn("takeout", saved)

    def change_often(self, browser, count):
        """Makes so many changes by the page's own buttons, with steps between them: closures,
        reopenings, plans, detectors."""
        browser.execute_script(CHANGES)
        browser.set_script_timeout(600)
        told = browser.execute_async_script(
            "const done = arguments[1]; makeChanges(arguments[0]).then(() => done(''), fault => done(String(fault)))",
            count,
        )
        self.assertEqual(told, "")
        return browser.execute_async_script("session.text().then(arguments[0])")

    def test_a_session_of_500_changes(self):
        """It has changes of each kind, and streetsim does it again to the same state."""
        with self.bridge() as bridge, self.browser() as browser:
            self.open(browser, bridge.address)
            saved, state = self.change_often(browser, 500), self.state(browser)
        commands = [json.loads(line)["cmd"] for line in saved.splitlines()]
        self.assertGreaterEqual(sum(commands.count(name) for name in ("close", "reopen", "signal", "meter")), 500)
        self.assertLessEqual({"advance", "close", "reopen", "signal", "meter"}, {*commands})
        self.assertEqual(state_after(saved), state)

    def test_no_request_leaves_the_machine(self):
        with self.bridge() as bridge, self.browser() as browser:
            self.open(browser, bridge.address)
            self.click(browser, "step")
            asked = browser.execute_script("return performance.getEntriesByType('resource').map(entry => entry.name)")
            self.assertTrue(asked)
            self.assertEqual([name for name in asked if not name.startswith(bridge.address)], [])

    def test_playing_on_a_narrow_screen(self):
        with self.bridge() as bridge, self.browser(420, 800) as browser:
            self.open(browser, bridge.address)
            browser.execute_script("document.activeElement.blur()")
            from selenium.webdriver.common.keys import Keys

            browser.find_element("tag name", "body").send_keys(Keys.SPACE)
            self.wait(browser, "return session.clock > 5")
            browser.find_element("tag name", "body").send_keys(Keys.SPACE)
            self.idle(browser)
            self.assertEqual(browser.execute_script("return at('play').textContent"), "Play")
            box = browser.execute_script(
                "const box = at('map').getBoundingClientRect(); return [box.width, box.height, "
                "document.documentElement.scrollWidth]"
            )
            self.assertGreater(min(box[:2]), 100)
            # The bar above grew by a line when it told the traffic: the picture ends where its place ends.
            heights = (
                "return [at('map').height, at('scene').clientHeight, "
                "document.documentElement.scrollHeight - innerHeight]"
            )
            self.wait(browser, heights.replace("return [", "const [map, place] = [") + "; return map === place")
            self.assertLessEqual(browser.execute_script(heights)[2], 0)
            self.assertLessEqual(box[2], browser.execute_script("return innerWidth"))


if __name__ == "__main__":
    unittest.main()
