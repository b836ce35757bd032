"""What the report, the player and the live page look like in Chromium: contrast of all text, names and roles of
controls, widths, paper; and the colours of pictures."""
import base64
import json
import re
import shutil
import unittest

import test_forged
from pages import PageCase, needs_driver, needs_selenium
from support import TOOLS, Case, needs_package, needs_simulator
from test_pictures import DRAWS
from streetsim.base import colours
from streetsim.cli import play
from streetsim.model.service import COLOURS, WHITE_LETTERS
from streetsim.report import picture_files
from streetsim.report.picture_plots import SPEEDS

PLAIN, LARGE = 4.5, 3.0  # least contrasts of text, by WCAG 2.1, 1.4.3: of 24 pixels, or of 18.66 bold ones, it is large
WIDTHS = (360, 800, 1600)
# Of each text that is seen: the text, its colour, those of what lies behind it from its own on, its size and weight.
TEXTS = """
const found = [];
for (const one of document.querySelectorAll("body *")) {
  const own = [...one.childNodes].filter(node => node.nodeType === 3).map(node => node.data.trim()).join("");
  if (!own || one.closest("option, script, style, title")) continue;
  if (!one.checkVisibility({ visibilityProperty: true })) continue;
  const style = getComputedStyle(one), behind = [], drawn = one instanceof SVGElement;
  const below = one.previousElementSibling;
  if (drawn && below?.tagName === "circle") behind.push(getComputedStyle(below).fill);
  for (let at = one; at; at = at.parentElement) behind.push(getComputedStyle(at).backgroundColor);
  found.push([own, drawn ? style.fill : style.color, behind, parseFloat(style.fontSize), +style.fontWeight]);
}
return found;
"""
CONTROLS = {"button", "checkbox", "combobox", "slider", "textbox", "spinbutton", "radio", "link", "image", "Canvas"}


def channels(colour):
    """Red, green, blue (0 to 255) and alpha of a colour as #rgb, #rrggbb, rgb() or rgba()."""
    if colour.startswith("#"):
        digits = colour[1:] if len(colour) == 7 else "".join(2 * sign for sign in colour[1:])
        return (*bytes.fromhex(digits), 1.0)
    parts = [float(part) for part in re.findall(r"[\d.]+", colour)]
    return (*parts[:3], parts[3] if len(parts) > 3 else 1.0)


def luminance(colour):
    """The relative luminance of red, green and blue, as WCAG 2.1 defines it."""
    parts = [part / 255 for part in colour]
    linear = [part / 12.92 if part <= 0.03928 else ((part + 0.055) / 1.055) ** 2.4 for part in parts]
    return 0.2126 * linear[0] + 0.7152 * linear[1] + 0.0722 * linear[2]


def contrast(colour, behind):
    """The contrast of a text's colour and what lies behind it, from its own ground on; white behind all."""
    ground = (255.0, 255.0, 255.0)
    for *parts, alpha in map(channels, reversed(behind)):
        ground = tuple(alpha * part + (1 - alpha) * below for part, below in zip(parts, ground))
    *parts, alpha = channels(colour)
    text = tuple(alpha * part + (1 - alpha) * below for part, below in zip(parts, ground))
    darker, lighter = sorted((luminance(text), luminance(ground)))
    return (lighter + 0.05) / (darker + 0.05)


class Colours(unittest.TestCase):
    def test_contrast_as_published(self):
        """WCAG's greatest; and the greys next to 4.5 on white, which its techniques and WebAIM's checker name."""
        for colour, behind, told in (
            ("#000", "#fff", 21), ("#767676", "#ffffff", 4.54), ("#777777", "#ffffff", 4.48), ("#f00", "#fff", 4.0),
        ):  # fmt: skip
            self.assertAlmostEqual(contrast(colour, [behind]), told, delta=0.005)

    def test_letters_on_their_colours(self):
        for letter, colour in COLOURS.items():
            self.assertGreater(contrast("#fff" if letter in WHITE_LETTERS else "#000", [colour]), PLAIN, letter)

    def test_one_class_has_one_colour(self):
        """The scripts of pages and the pictures of matplotlib show speeds and lights in the same colours."""
        text = (TOOLS / "streetsim/report/drawing.js").read_text()
        told = json.loads(re.search(r"SPEED_COLOURS = (\[.*?\])", text)[1])
        words = json.loads(re.search(r"SPEED_WORDS = (\[.*?\])", text)[1])
        self.assertEqual((*told,), colours.SPEEDS)
        self.assertEqual([(word, colour) for _, word, colour, _ in SPEEDS], [*zip(words, told)])
        for shown in (f'green: "{colours.GREEN}"', f'red: "{colours.RED}"'):
            self.assertIn(shown, text)

    def test_who_sees_no_red_and_green(self):
        """Colours of one class differ in brightness, or what they show differs in its shape: speeds in width, lights
        in gaps, more and less in triangles up and down and in broken lines."""
        levels = [luminance(channels(colour)[:3]) + 0.05 for colour in COLOURS.values()]
        self.assertTrue(all(one > 1.15 * other for one, other in zip(levels, levels[1:])), levels)
        widths = [width for *_, width in SPEEDS]
        self.assertEqual(widths, sorted(widths, reverse=True))
        self.assertEqual(len({*widths}), len(SPEEDS))


@needs_package("python3-matplotlib", DRAWS)
class Dots(Case):
    def test_a_png_keeps_the_colours_of_letters(self):
        """Also of a thin line among many colours."""
        from PIL import Image

        pyplot = picture_files.load_pyplot()
        figure, axes = pyplot.subplots(figsize=(7, 5))
        axes.imshow([[40 * row + column for column in range(40)] for row in range(40)], cmap="YlOrRd", aspect="auto")
        for at, colour in enumerate(COLOURS.values()):
            axes.plot((0, 39), (5 * at + 4, 5 * at + 4), color=colour, linewidth=2, solid_capstyle="butt")
        path = self.folder / "x.png"
        picture_files.save_picture(figure, str(path))
        with Image.open(path) as image:
            counts = {colour: count for count, colour in image.convert("RGB").getcolors(1 << 24)}
        for letter, colour in COLOURS.items():
            self.assertGreater(counts.get(channels(colour)[:3], 0), 300, letter)


@needs_simulator
@needs_driver
@needs_selenium
class Seen(PageCase, test_forged.Page):
    """The report with each kind of picture, two runs in the player, and the live page with a light chosen."""

    def addresses(self, bridge):
        """{name: address} of the three pages."""
        player, other = self.home / "two.html", self.home / "other"
        if not player.exists():
            shutil.copytree(self.home / "zero", other)
            self.good(play.main, self.home / "zero", other, "-o", player)
        return {"report": self.page.as_uri(), "player": player.as_uri(), "live": bridge.address}

    def show(self, browser, name, address, wide=1366, dark=False):
        """Shows a page at a width, on a screen that is bright or dark, with a light chosen on the live page."""
        size = {"width": wide, "height": 800, "deviceScaleFactor": 1, "mobile": False}
        browser.execute_cdp_cmd("Emulation.setDeviceMetricsOverride", size)
        scheme = {"name": "prefers-color-scheme", "value": "dark" if dark else "light"}
        browser.execute_cdp_cmd("Emulation.setEmulatedMedia", {"features": [scheme]})
        if name == "live":
            self.open(browser, address)
            self.choose(browser, 0, 0, 1)
        else:
            browser.get(address)
            done = {"report": "document.readyState === 'complete'", "player": "document.body.dataset.shown"}
            self.wait(browser, f"return {done[name]}")

    def each(self, browser, bridge, **more):
        """Shows one page after another; gives their names."""
        for name, address in self.addresses(bridge).items():
            self.show(browser, name, address, **more)
            yield name

    def test_contrast_of_all_text(self):
        with self.bridge() as bridge, self.browser() as browser:
            for dark in (False, True):
                for name in self.each(browser, bridge, dark=dark):
                    found = browser.execute_script(TEXTS)
                    self.assertGreater(len(found), 10)
                    for text, colour, behind, size, weight in found:
                        large = size >= 24 or (size >= 18.66 and weight >= 700)
                        told = contrast(colour, behind)
                        self.assertGreaterEqual(told, LARGE if large else PLAIN, (name, dark, text, colour, behind))

    def test_contrast_of_what_scripts_write(self):
        pairs = ("ink", "ground"), ("ink", "label"), ("name", "ground"), ("was", "ground"), ("now", "ground")
        with self.bridge() as bridge, self.browser() as browser:
            self.open(browser, bridge.address)
            palettes = browser.execute_script("return PALETTES")
        for theme, own in palettes.items():
            for text, ground in pairs:
                self.assertGreaterEqual(contrast(own[text], [own[ground]]), PLAIN, (theme, text, ground))
            shown = [luminance(channels(colour)[:3]) + 0.05 for colour in (own["red"], own["green"])]
            self.assertGreater(max(shown) / min(shown), 1.3, theme)

    def told(self, browser):
        """(role, name) of all controls and pictures in the tree that a reader of the screen gets; each has a name."""
        told = [
            (node["role"]["value"], node.get("name", {}).get("value", ""))
            for node in browser.execute_cdp_cmd("Accessibility.getFullAXTree", {})["nodes"]
            if not node.get("ignored") and node["role"]["value"] in CONTROLS
        ]
        self.assertEqual([one for one in told if not one[1].strip()], [])
        return told

    def test_names_and_roles(self):
        with self.bridge() as bridge, self.browser() as browser:
            for name in self.each(browser, bridge):
                told = self.told(browser)
                if name == "player":
                    buttons = [("button", one) for one in ("Play", "nearer", "farther", "Copy link")]
                    more = [("combobox", "Speed"), ("slider", "time")]
                    more += [("checkbox", one) for one in ("names", "charts")]
                    pictures = ("streets and vehicles of zero", "streets and vehicles of other")
                    more += [("image", one) for one in (*pictures, "vehicles, standing and arrived over time")]
                    self.assertEqual(sorted(told), sorted([*buttons, *more]))
                if name == "live":
                    wanted = {("button", "Play"), ("combobox", "Steps a second"), ("textbox", "Back to")}
                    self.assertLessEqual(wanted | {("image", "the network"), ("button", "Set the plan")}, {*told})
                    place = "{ link: session.data.links[0], lane: 0, metres: 30 }"
                    browser.execute_script(f"choose(stretchOf({place}, 20, 40))")
                    wanted = {("textbox", "closed from"), ("spinbutton", "from metre"), ("button", "Close")}
                    self.assertLessEqual(wanted, {*self.told(browser)})
                if name == "report":
                    pictures = {what for role, what in told if role == "image"}
                    self.assertLessEqual({"Map by delay", "Queues", "Greens over the cycle"}, pictures)
                    self.assertIn(("link", "To the content"), told)

    def test_no_page_is_wider_than_its_screen(self):
        with self.bridge() as bridge, self.browser() as browser:
            for wide in WIDTHS:
                for _ in self.each(browser, bridge, wide=wide):
                    self.assertLessEqual(browser.execute_script("return document.documentElement.scrollWidth"), wide)

    def test_words_of_charts_do_not_overlap(self):
        """Those of each band beside one another, at each width; long names of runs go where there is no room."""
        note = (
            "const told = [], write = CanvasRenderingContext2D.prototype.fillText; "
            "CanvasRenderingContext2D.prototype.fillText = function (text, x, y) { "
            "told.push([text, x, x + this.measureText(text).width, y]); write.call(this, text, x, y); }; "
            "drawCharts(clocks[step]); CanvasRenderingContext2D.prototype.fillText = write; return told"
        )
        with self.bridge() as bridge, self.browser() as browser:
            address = self.addresses(bridge)["player"]
            for wide in WIDTHS:
                self.show(browser, "player", address, wide)
                told = sorted((y, begin, end, text) for text, begin, end, y in browser.execute_script(note))
                heads = [one for one in told if one[0] == 13]
                self.assertEqual(len(heads), 9)  # of three bands: what it is, and a value of each run
                for (_, _, end, text), (_, begin, _, other) in zip(heads, heads[1:]):
                    self.assertLess(end, begin, (wide, text, other))

    def test_paper(self):
        """All of the live page's side is printed, and keys of colours keep these on paper, where grounds do not."""
        with self.bridge() as bridge, self.browser() as browser:
            for _ in self.each(browser, bridge):
                wanted = {"printBackground": False, "paperWidth": 8.27, "paperHeight": 11.69}
                printed = base64.b64decode(browser.execute_cdp_cmd("Page.printToPDF", wanted)["data"])
                self.assertEqual(printed[:5], b"%PDF-")
                browser.execute_cdp_cmd("Emulation.setEmulatedMedia", {"media": "print"})
                hidden = "return [...document.querySelectorAll('#side, .wide')].filter(one => one.scrollHeight > "
                hidden += "one.clientHeight + 1 && getComputedStyle(one).overflowY !== 'visible').length"
                self.assertEqual(browser.execute_script(hidden), 0)
                keys = "return [...document.querySelectorAll('.key, .los')].map(one => "
                keys += "getComputedStyle(one).printColorAdjust)"
                self.assertEqual({*browser.execute_script(keys)}, {"exact"})
                browser.execute_cdp_cmd("Emulation.setEmulatedMedia", {"media": ""})


if __name__ == "__main__":
    unittest.main()
