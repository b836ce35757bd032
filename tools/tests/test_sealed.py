"""What streetsim-check finds: single changes of a sealed page, of a run's folder and of a study's; and nothing in what
is untouched."""
import gzip
import json
import os
import re
import shutil
import subprocess
import tempfile
import unittest
import unittest.mock
from pathlib import Path
from types import SimpleNamespace

from support import DATA as SAMPLES
from support import MAP, PROGRAM, TOOLS, Case, needs_proved
from streetsim.base.files import Fault
from streetsim.cli.checked_targets import remake_page
from streetsim.report import page_seal as sealing
from streetsim.report.folder_differences import ComparedNumbers, folder_differences
from streetsim.report.page_elements import numbers_in, page_mismatches
from streetsim.report.page_seal import BEGIN, END, FORM, PACK, packed, seal_of, sum_of, unpacked
from streetsim.report.page_sealing import sealed_plan
from streetsim.report.run_tables import read_folders

CORRIDOR = TOOLS / "examples/corridor"
# A program whose replies differ: it dawdles otherwise than it is told.
OTHER = '#!/bin/sh\nsed -u \'s/"dawdle":170/"dawdle":190/\' | exec {program} "$@"\n'


def tool(name, *words, tools=TOOLS):
    """What a tool prints, with its status before it."""
    words = [tools / f"streetsim-{name}", *map(str, words)]
    done = subprocess.run(words, capture_output=True, text=True, check=False)
    return done.returncode, done.stdout + done.stderr


def sealed_text(page):
    """What a page has of its seal as JSON."""
    begin = page.index(BEGIN) + len(BEGIN)
    return page[begin : page.index(END, begin)]


def other_digit(text, at):
    """The text with another digit at a place."""
    assert text[at].isdigit(), text[at - 20 : at + 20]
    return text[:at] + str((int(text[at]) + 1) % 10) + text[at + 1 :]


class Mismatches(unittest.TestCase):
    """Where a page and one that is made anew differ."""

    PAGE = (
        "<h1>Town</h1><h2>Junctions</h2><table><tr><th>name</th><th>delay, s</th><th>level</th></tr>"
        '<tr><th scope="row">J1</th><td>20</td><td>B</td></tr><tr><th scope="row">J2</th><td>31</td><td>C</td></tr>'
        "</table><p>41 in all</p><h3>J2</h3><p>51</p>"
    )

    def test_each_is_told_by_its_headings_row_and_column(self):
        for said, found, where in (
            ("20", "21", "Junctions, J1, delay, s"), ("C", "D", "Junctions, J2, level"),
            ("41 in all", "42 in all", "Junctions"), ("51", "52", "Junctions, J2"), ("Town", "City", "City"),
        ):  # fmt: skip
            other = self.PAGE.replace(f">{said}<", f">{found}<", 1)
            told = [(one.place_in_words, one.stated_text, one.remade_text) for one in page_mismatches(self.PAGE, other)]
            self.assertEqual(told, [(where, said, found)])
        self.assertEqual(page_mismatches(self.PAGE, self.PAGE), [])


class Numbers(unittest.TestCase):
    def test_names_of_tags_are_no_numbers(self):
        page = '<h1>In 2026</h1><style>p { margin: 3px }</style><p>8,000 of 9.5</p><path d="M 4 5"/><h2>7</h2>'
        self.assertEqual(numbers_in(page), 6)  # 2026, 8,000, 9.5, 4, 5, 7


class Broken(Case):
    """Files of a run's folder that were spoilt since, each told in one line."""

    def fault(self, name, content):
        for folder in ("said", "found"):
            (self.folder / folder).mkdir(exist_ok=True)
            (self.folder / folder / name).write_bytes(gzip.compress(b"1\n") if name.endswith(".gz") else b"1\n")
        self.assertEqual(list(folder_differences(self.folder / "said", self.folder / "found", ComparedNumbers())), [])
        (self.folder / "said" / name).write_bytes(content)
        with self.assertRaises(Fault) as raised:
            list(folder_differences(self.folder / "said", self.folder / "found", ComparedNumbers()))
        self.assertIn(f"said/{name}: ", str(raised.exception))

    def test_packed_files(self):
        packed = gzip.compress(b"[1,2]\n" * 99)
        for content in (b"no gzip", packed[:-12], packed[:12] + b"\xff" * 20, packed[:-8] + b"\0" * 8):
            with self.subTest(content=content):
                self.fault("polls.jsonl.gz", content)

    def test_lines_in_bytes_that_are_no_text(self):
        for folder, content in (("said", b"1\n\xff\n"), ("found", b"1\n\xfe\n")):
            (self.folder / folder).mkdir()
            (self.folder / folder / "x.xml").write_bytes(content)
        found = list(folder_differences(self.folder / "said", self.folder / "found", ComparedNumbers()))
        self.assertEqual(found, [("x.xml, line 2", "\\xff", "\\xfe")])

    def test_tables(self):
        for content in (b"a,b\n\xff,2\n", b"a,b\n" + b"1" * 200_000 + b",2\n"):
            with self.subTest(content=content[:9]):
                self.fault("trips.csv", content)


class Missing(Case):
    def test_parts_of_a_seal(self):
        plan = {"name": "", "run": "plan-1/x", "map": "plan-1/map.json", "words": [], "again": [], "seeds": [1]}
        plan = {**plan, "several": False, "program": ""}
        whole = {"form": FORM, "plans": [plan], "files": {"plan-1/x": "a" * 64, "plan-1/map.json": "b" * 64}}
        whole = {**whole, "words": [], "beside": [], "tools": "0" * 64}
        found = seal_of("x.html", BEGIN + json.dumps(whole) + END)
        self.assertEqual(found.content["plans"], whole["plans"])
        for name in (*whole, *plan):
            less = {**whole, "plans": [{key: value for key, value in plan.items() if key != name}]}
            less.pop(name, None)
            with self.subTest(name), self.assertRaisesRegex(Fault, r"cannot be read \(.*\): the page was changed"):
                seal_of("x.html", BEGIN + json.dumps(less) + END)

    def test_a_page_of_an_earlier_form(self):
        """It is told by which tools it is checked."""
        first = {"plans": [], "files": {}, "packs": {}, "words": [], "beside": [], "tools": "", "drawn_by": "3.6.3"}
        for content, whose in (
            (first, "sealed in the form of streetsim 1.0.0: that version checks it"),
            ({"form": 2, **first}, "sealed in form 2, by the tools up to commit da17d40c, in which vehicles gave way"),
        ):
            page = self.write("old.html", BEGIN + json.dumps(content) + END)
            status, told = tool("check", page, "--program", "/bin/true")
            self.assertEqual((status, told.count("\n")), (2, 1))
            self.assertIn(whose, told)

    def test_programs_of_lights_that_cannot_be_read(self):
        lines = b'{"cmd":"load"}\n'
        (self.folder / "run.jsonl.gz").write_bytes(gzip.compress(lines))
        made = {"run": "x.jsonl", "words": [], "again": [], "lines": sum_of(lines)}
        setting = {"map": MAP, "signals": [], "dawdle": 0, "every": 0, "period": 900, "made": made}
        self.write("setting.json", json.dumps(setting))
        (self.folder / "lights.json").mkdir()
        with self.assertRaisesRegex(Fault, "lights.json: Is a directory"):
            sealed_plan(read_folders(str(self.folder)), 1)


@needs_proved
class Sealed(Case):
    """A page of the corridor's two plans, two seeds each, that was made once for all tests."""

    @classmethod
    def setUpClass(cls):
        made = tempfile.TemporaryDirectory()
        cls.addClassCleanup(made.cleanup)
        cls.home = Path(made.name)
        for plan, more in (("zero", []), ("wave", [CORRIDOR / "wave.add.xml"])):
            network, routes = CORRIDOR / "corridor.net.xml.gz", CORRIDOR / "corridor.rou.xml"
            run, mapped = cls.home / f"{plan}.jsonl", cls.home / f"{plan}.map.json"
            words = ("--routes", routes, "--end", 200, "-o", run, "--map", mapped)
            cls.good("import", network, *more, *words)
            words = ("--map", mapped, "--until", 600, "--seeds", "1-2", "--junctions", "--program", PROGRAM)
            words = (*words, "--departures", "listed")
            cls.good("run", run, *words, "--every", 5, "--out", cls.home / plan)
        cls.page = cls.home / "page.html"
        words = ("--title", "A & <B>", "--question", 'Which "one"?', "-o", cls.page)
        cls.good("report", cls.home / "zero", cls.home / "wave", "--sealed", *words)
        cls.text = cls.page.read_text()

    @classmethod
    def good(cls, *words):
        status, told = tool(*words)
        if status:
            raise AssertionError(told)

    def checked(self, text, *words, name="x.html"):
        """The status and the line of the tool for a page's text."""
        return tool("check", self.write(name, text), "--program", PROGRAM, *words)

    def again(self, text):
        """The page that the seal of a text gives, in this process."""
        words = SimpleNamespace(target=str(self.page), program=PROGRAM, workers=1, jobs=2)
        return remake_page(words, seal_of("x.html", text))


def section(name):
    """The place of a section in a pattern: lazily all from its heading on."""
    return rf'<h2 id="{name}">.*?'


# Each a pattern whose group ends with the digit that is changed.
CELL = r"<td>[^<]*?"
DIGITS = {
    "vehicles of the question": r'class="small">(\d)',
    "a clock of the question": r"shown from (\d)",
    "a trip's seconds": r"a trip takes (\d)",
    "the trip's seconds before": r"in place of (\d)",
    "the change of the trip": r"on average: (\d)",
    "its interval": r"95 % interval of the mean change by dawdling alone: (\d)",
    "the mean delay": r"delay at a junction is \d+\.(\d)",
    "the delay before": r"junction is .*? in place of (\d+)\.\d s",
    "the interval of the delay": r"junction is .*?interval of the mean change by dawdling alone: \d+\.(\d)",
    "the map: a line's place": section("map") + r'points="(\d)',
    "the map: a line's second point": section("map") + r'points="[^" ]* (\d)',
    "the map: a line's width": section("map") + r'stroke-width="(\d)',
    "the map: a colour": section("map") + r'stroke="#[a-f]+(\d)',
    "the map: a mark's place": section("map") + r"translate\((\d)",
    "the map: a mark's text": section("map") + r"Junction J\d: (\d)",
    "the map: a change": section("map") + r"<polygon.*?<title>[+-](\d)",
    "how many trips": section("costs") + r"Of (\d)",
    "a share of trips": section("costs") + r"the same vehicles in \w+ runs together (\d)",
    "the longest delay": section("costs") + r"Longest delay: .*?, (\d+)(?= s)",
    "its vehicles": section("costs") + r"level of service [A-F], (\d)",
    "trips of a flow": section("costs") + r"<tbody>.*?<td>(\d)",
    "seconds of a flow": section("costs") + r"<tbody>.*?<td>\d+</td><td>\d+\.(\d)",
    "the change of a flow": section("costs") + r"<tbody>.*?[+-](\d+)\.\d ±",
    "the half interval of a flow": section("costs") + r"± \d+\.(\d)",
    "a junction's vehicles": section("junctions") + r"<tbody>.*?<td>(\d)",
    "a junction's delay before": section("junctions") + r"<tbody>.*?<td>[\d,]+</td><td>(\d)",
    "a junction's change": section("junctions") + r"<tbody>.*?[+-](\d+)\.\d ±",
    "a movement's delay": section("movements") + r"<tbody>.*?<td>\d+\.(\d)",
    "a movement's delay after": section("movements") + r"<tbody>.*?<td>\d+\.\d</td><td>(\d)",
    "the map before": section("map-before") + r'points="\d+\.(\d)',
    "a junction's heading": section("details") + r"<h3.*?: (\d)",
    "vehicles of a movement": section("details") + r"<tbody>.*?<td>(\d)",
    "v/c of a movement": section("details") + r"</span></td><td>0\.(\d)",
    "a queue": section("details") + r'<td><span class="ids">(\d)',
    "the bar of a queue": section("details") + r'<rect y="3" width="(\d)',
    "the line of a greatest queue": section("details") + r'<line x1="(\d)',
    "the text of a bar": section("details") + r'<text x="516" y="21">(\d)',
    "seeds": section("run") + r"seeds (\d)",
    "the demand": section("run") + r"(\d)(?= vehicles)",
    "the program's sum": section("run") + r"SHA-256 [a-f]*(\d)",
    "a number of the assumptions": section("assumptions") + r"cells of (\d)",
    "the sum of a file": section("check") + r"SHA-256 [a-f]*(\d)",
}
WORDS = {
    "a word of the verdict": (r"\bless\b", "more"),
    "the question": ("Which &quot;one&quot;", "Which &quot;two&quot;"),
    "a level of service": (r'<span class="los los-[AB]">[AB]</span>', '<span class="los los-F">F</span>'),
    "a style that hides": (r"\.doubt \{", ".doubt { display: none;"),
    "a row that is left out": (r"<tbody><tr>.*?</tr>", "<tbody>"),
    "a word that is added": ("<main", "<p>Approved.</p><main"),
    "a script": ("</main>", "<script>alert(1)</script></main>"),
    "a comment": ("</main>", "<!-- 1 --></main>"),
    "a blank": ("</main>", " </main>"),
    "what is said of the check": ("It does not show that the street", "It does show that the street"),
}


class Changes(Sealed):
    @classmethod
    def setUpClass(cls):
        super().setUpClass()
        words = SimpleNamespace(target=str(cls.page), program=PROGRAM, workers=1, jobs=2)
        cls.made = remake_page(words, seal_of("x.html", cls.text))

    def test_the_untouched_page(self):
        self.assertEqual(page_mismatches(self.text, self.made), [])

    def test_each_digit(self):
        for name, pattern in DIGITS.items():
            with self.subTest(name):
                found = re.search(pattern, self.text, re.DOTALL)
                self.assertTrue(found, pattern)
                changed = other_digit(self.text, found.end(1) - 1)
                [one] = page_mismatches(changed, self.made)
                self.assertNotEqual(one.stated_text, one.remade_text)

    def test_each_word(self):
        for name, (pattern, word) in WORDS.items():
            with self.subTest(name):
                changed, count = re.subn(pattern, word, self.text, count=1, flags=re.DOTALL)
                self.assertEqual(count, 1)
                self.assertTrue(page_mismatches(changed, self.made))

    def test_it_says_where(self):
        found = re.search(DIGITS["seconds of a flow"], self.text, re.DOTALL)
        [one] = page_mismatches(other_digit(self.text, found.end(1) - 1), self.made)
        self.assertRegex(one.in_words(), r"What it costs whom, \w+, before, s: said '[\d.]+', found '[\d.]+'")

    def test_there_are_enough(self):
        self.assertGreaterEqual(len(DIGITS) + len(WORDS), 40)


class Whole(Sealed):
    def test_from_another_clone_and_folder_with_four_workers(self):
        other = self.folder / "elsewhere/tools"
        other.mkdir(parents=True)
        shutil.copytree(TOOLS / "streetsim", other / "streetsim", ignore=shutil.ignore_patterns("__pycache__"))
        shutil.copy(TOOLS / "streetsim-check", other)
        shutil.copy(self.page, other.parent / "mine.html")
        for workers in (1, 4):
            words = ("--program", PROGRAM, "--workers", workers)
            status, told = tool("check", other.parent / "mine.html", *words, tools=other)
            self.assertEqual((status, told.count("\n")), (0, 1), told)
            self.assertRegex(told, r"each of the [\d,]+ numbers on the page is that of a run \(4 runs made again by ")

    def test_another_program(self):
        other = Path(self.write("other", OTHER.format(program=PROGRAM)))
        other.chmod(0o755)
        status, told = tool("check", self.page, "--program", other)
        self.assertEqual((status, told.count("\n")), (1, 1), told)
        self.assertRegex(told, r"places are not what the runs give: Verdict: said .*, found .*; and [\d,]+ more")

    def test_a_changed_digit(self):
        found = re.search(DIGITS["the mean delay"], self.text)
        status, told = self.checked(other_digit(self.text, found.end(1) - 1))
        self.assertEqual(status, 1)
        self.assertIn("x.html: 1 place is not what the runs give: Verdict: said ", told)

    def packs(self):
        return [(found[1], found[2], found.start(2)) for found in PACK.finditer(self.text)]

    def test_a_letter_of_each_sealed_file(self):
        for name, pack, begin in self.packs():
            at = begin + len(pack) // 2
            letter = "B" if self.text[at] != "B" else "C"
            status, told = self.checked(self.text[:at] + letter + self.text[at + 1 :])
            self.assertEqual(status, 2)
            self.assertRegex(told, f"the sealed file {name} (cannot be read: it was|was) changed")

    def replaced(self, ending, change):
        """The page with another sealed file whose sums are made to fit wherever they stand."""
        name, pack, _ = next(one for one in self.packs() if one[0].endswith(ending))
        content = change(unpacked(pack))
        other = packed(content)
        text = self.text.replace(pack, other).replace(sum_of(unpacked(pack)), sum_of(content))
        return self.fitted(text.replace(sum_of(pack.encode()), sum_of(other.encode())))

    def fitted(self, text):
        """The page with the sum of all that fits to what is sealed."""
        told = [sealed_text(one).replace("\\u003c", "<") for one in (self.text, text)]
        return text.replace(*(sum_of(one.encode()) for one in told))

    def test_another_run_file_whose_sums_fit(self):
        """One vehicle departs a minute later."""
        def later(content):
            lines = content.decode().split("\n")
            at = next(place for place, line in enumerate(lines) if '"enter"' in line)
            command = json.loads(lines[at])
            lines[at] = json.dumps({**command, "depart": command["depart"] + 60})
            return "\n".join(lines).encode()

        status, told = self.checked(self.replaced("zero.jsonl", later))
        self.assertEqual(status, 1, told)
        self.assertIn("not what the runs give: ", told)

    def test_another_map_whose_sums_fit(self):
        """A vehicle of another name is in another flow; a warning more stands on the page."""
        def warned(content):
            return json.dumps({**json.loads(content), "warnings": ["warning: rain"]}).encode()

        status, told = self.checked(self.replaced("plan-2/map.json", warned))
        self.assertEqual((status, "rain" in told), (1, True), told)

    def test_sealed_words(self):
        """A word of the run, of the page, a seed."""
        for old, new in (
            ('"again":["--until=600"', '"again":["--until=590"'),
            ('"words":["--until=600"', '"words":["--until=590"'),
            ("--question=Which", "--question=What"),
            ('"seeds":[1,2]', '"seeds":[2,3]'),
        ):
            data = sealed_text(self.text)
            self.assertIn(old, data)
            text = self.text.replace(data, data.replace(old, new, 1))
            try:
                self.assertTrue(page_mismatches(text, self.again(text)), old)
            except Fault as fault:
                self.assertIn("what is sealed in it gives no such page", str(fault))

    def test_what_is_not_sealed(self):
        status, told = self.checked("<html>1</html>")
        self.assertEqual(status, 2)
        self.assertIn("x.html: not sealed: streetsim-report --sealed makes a page that can be checked", told)
        text = self.text.replace('id="sealed">{', 'id="sealed">')
        self.assertRegex(self.checked(text)[1], r"what is sealed in it cannot be read \(.*\): the page was changed")

    def test_a_page_that_means_ill(self):
        """Its files stay where the check puts them, and its words choose no other program."""
        for old, new in (("plan-1/map.json", "../map.json"), ("plan-1/map.json", "/tmp/map.json")):
            self.assertIn(f"its map '{new}'", self.checked(self.text.replace(old, new))[1])
        text = self.text.replace('"run":"plan-1/zero.jsonl"', '"run":"/etc/passwd"')
        self.assertIn("a run is called '/etc/passwd'", self.checked(text)[1])
        ill = self.write("ill", "#!/bin/sh\ntouch ran\n")
        Path(ill).chmod(0o755)
        text = self.text.replace('"again":[', f'"again":["--program={ill}",', 1)
        self.assertEqual(self.checked(text)[0], 2)
        self.assertFalse((self.folder / "ran").exists() or Path("ran").exists())

    def test_a_file_beside_the_page(self):
        """Files that are too large for the page; the one beside it may lack, or be another."""
        content = {"words": [], "plans": [], "tools": "0" * 64}
        a, b = "names.csv", "counts-1"
        with unittest.mock.patch.object(sealing, "LARGEST", 100):
            page = str(self.folder / "big.html")
            made, large = sealing.sealed(content, {a: b"x" * 50, b: os.urandom(200)}, page)
        sealing.write_beside(page, large)
        self.assertEqual((list(large), sorted(made.texts), made.beside_name), ([b], [a], "big.sealed.zip"))
        found = seal_of(page, made.html())
        self.assertEqual(dict(sealing.sealed_files(found, page))[b], large[b])
        sealing.write_beside(page, {b: b"y"})
        with self.assertRaisesRegex(Fault, "the sealed file counts-1 was changed"):
            list(sealing.sealed_files(found, page))
        (self.folder / "big.sealed.zip").unlink()
        with self.assertRaisesRegex(Fault, "the file beside .* cannot be read"):
            list(sealing.sealed_files(found, page))


class Folders(Sealed):
    def copy(self):
        shutil.copytree(self.home / "zero", self.folder / "copy")
        return self.folder / "copy"

    def test_an_untouched_folder(self):
        status, told = tool("check", self.copy(), "--program", PROGRAM, "--workers", 4)
        self.assertEqual(status, 0, told)
        again = r"\(made again by a program that is proved\)\n"
        self.assertRegex(told, rf"copy: each of the [\d,]+ numbers in \d+ files is that of a run {again}")
        status, told = tool("check", self.folder / "copy/seed-2", "--program", PROGRAM)
        self.assertEqual(status, 0, told)

    def test_changes(self):
        """A cell of a table, what stood on a lane, a word of the setting: all are told."""
        copy = self.copy()
        for name in ("seed-1/trips.csv", "seed-2/movements.csv", "seeds.csv"):
            text = (copy / name).read_text()
            at = text.index("\n") + re.search(r",\d+(?=[,\n])", text[text.index("\n") :]).end() - 1
            (copy / name).write_text(other_digit(text, at))
        setting = json.loads((copy / "seed-1/setting.json").read_text())
        setting["made"]["rescue"] = 301
        (copy / "seed-1/setting.json").write_text(json.dumps(setting))
        status, told = tool("check", copy, "--program", PROGRAM)
        self.assertEqual(status, 1)
        self.assertIn("4 places are not what the runs give", told)
        self.assertRegex(told, r"seed-1/trips.csv, line 2, depart: said '\d+', found '\d+'")

    def test_another_run_file(self):
        path = self.copy() / "run.jsonl.gz"
        text = gzip.decompress(path.read_bytes()).replace(b'"depart":0', b'"depart":1', 1)
        path.write_bytes(gzip.compress(text))
        status, told = tool("check", path.parent, "--program", PROGRAM)
        self.assertEqual(status, 2)
        self.assertIn("run.jsonl.gz: was changed since the run was made", told)
        path.unlink()
        self.assertIn("keeps no run.jsonl.gz", tool("check", path.parent, "--program", PROGRAM)[1])

    def test_works(self):
        """On a lane whose edge is imported anew for them; the network is gone when it is checked."""
        network = self.folder / "grid.net.xml.gz"
        shutil.copy(SAMPLES / "grid.net.xml.gz", network)
        run, mapped, out = self.folder / "g.jsonl", self.folder / "g.json", self.folder / "out"
        self.good("import", network, "--routes", SAMPLES / "grid.rou.xml.gz", "--end", 150, "-o", run, "--map", mapped)
        words = ("--map", mapped, "--until", 300, "--close", "C2C3_0:100-200:60-200", "--program", PROGRAM)
        self.good("run", run, *words, "--out", out)
        for path in (network, run, mapped):
            path.unlink()
        status, told = tool("check", out, "--program", PROGRAM)
        self.assertEqual(status, 0, told)
        self.assertIn("--close=C2C3_0", (out / "setting.json").read_text())

    def test_a_study(self):
        text = (
            f'run = "{self.home}/zero.jsonl"\nmap = "{self.home}/zero.map.json"\nuntil = 300\nseeds = "1-2"\n'
            'departures = "listed"\n'
        )
        text += '[variant.base]\n[variant.slow]\ndawdle = 300\n'
        study, out = self.write("study.toml", text), self.folder / "out"
        self.good("study", study, "--program", PROGRAM, "--out", out)
        status, told = tool("check", out, "--program", PROGRAM)
        self.assertEqual(status, 2, told)
        self.assertIn("name the study that it was made of by --study FILE; the folder says ../study.toml", told)
        words = ("--program", PROGRAM, "--study", study)
        status, told = tool("check", out, *words)
        self.assertEqual(status, 0, told)
        table = (out / "runs.csv").read_text()
        (out / "runs.csv").write_text(other_digit(table, table.rindex(".") + 1))
        status, told = tool("check", out, *words)
        self.assertEqual(status, 1)
        self.assertIn("out: 1 place is not what the runs give: runs.csv, line 5, ", told)
        self.write("study.toml", text + "\n")
        self.assertIn("study.toml: has changed since the study was made", tool("check", out, *words)[1])


if __name__ == "__main__":
    unittest.main()
