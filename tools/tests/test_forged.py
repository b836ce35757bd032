"""Forged pages, each refused by streetsim-check with status 1 or 2 and the place: one sealed page, and what an opponent
makes of it. Those that leave its seal as it was are compared to one page made anew."""
import base64
import contextlib
import io
import json
import re
import tempfile
import unittest
import unittest.mock
import warnings
import zipfile
import zlib
from pathlib import Path

from support import PROGRAM, TOOLS, Case, needs_proved
from streetsim.base.files import Fault
from streetsim.cli import check, checked_targets, import_, report, run
from streetsim.cli.checked_targets import remake_page
from streetsim.report import page_seal as sealing
from streetsim.report.page_seal import BEGIN, END, PACK, canonical, packed, seal_of, sum_of, unpacked

CORRIDOR = TOOLS / "examples/corridor"
EDGES = "J1J2 J2J3"


def quietly(main, *words):
    """What a tool's main function prints, with its status before it."""
    told = io.StringIO()
    with contextlib.redirect_stdout(told), contextlib.redirect_stderr(told):
        try:
            status = main([*map(str, words)])
        except Fault as fault:
            print(fault)
            status = 2
    return status, told.getvalue()


@needs_proved
class Page(Case):
    """A sealed page with each kind of picture: a map, queues, a corridor, counts and timing sheets."""

    @classmethod
    def setUpClass(cls):
        made = tempfile.TemporaryDirectory()
        cls.addClassCleanup(made.cleanup)
        cls.home = Path(made.name)
        run_file, mapped, out = cls.home / "zero.jsonl", cls.home / "zero.map.json", cls.home / "zero"
        network, routes = CORRIDOR / "corridor.net.xml.gz", CORRIDOR / "corridor.rou.xml"
        cls.good(import_.main, network, "--routes", routes, "--end", 100, "-o", run_file, "--map", mapped)
        words = ("--map", mapped, "--until", 200, "--junctions", "--program", PROGRAM, "--every", 5, "--out", out)
        cls.good(run.main, run_file, *words)
        counts, cls.page = cls.home / "counts.csv", cls.home / "page.html"
        counts.write_text("from,to,begin,end,vehicles\nJ1J2,,0,200,30\nJ2J3,,0,200,20\n")
        words = ("--counts", counts, "--corridor", EDGES, "--last", 200, "--sheets", "--question", "Is <it> so?")
        cls.good(report.main, out, *words, "--sealed", "-o", cls.page)
        cls.text = cls.page.read_text()
        cls.seal = seal_of(str(cls.page), cls.text)

    @classmethod
    def good(cls, main, *words):
        status, told = quietly(main, *words)
        if status:
            raise AssertionError(told)


def section(name):
    """A pattern that goes lazily from a section's heading on."""
    return rf'(?s)<h2 id="{name}">.*?'


def changed(pattern, by):
    """What puts a text in the place of a pattern's group (or matches it whole), once."""
    def change(text):
        found = re.search(pattern, text, re.DOTALL)
        assert found, pattern
        begin, end = found.span(found.lastindex or 0)
        return text[:begin] + (by(found[found.lastindex or 0]) if callable(by) else by) + text[end:]

    return change


def digit(text):
    """Another last digit."""
    return text[:-1] + str((int(text[-1]) + 1) % 10)


def put_in(mark, what):
    """What puts a text behind a mark."""
    return lambda text: text.replace(mark, mark + what, 1)


SAVES = "saves 47,000 hours a year"
PNG = "data:image/png;base64,"
# What an opponent does to the page itself, and the place that the check names.
PAGES = {
    "the map is another picture": (changed(section("map") + "(<svg.*?</svg>)", f'<img src="{PNG}AAAA">'), "Where"),
    "markup behind a picture's begin": (put_in("</h1>", f"<p>{PNG}<script>alert(1)</script>{SAVES}"), ""),
    "a script behind a picture's begin": (put_in("<main", f' title={PNG} onclick="{SAVES}"'), ""),
    "a line of the map lies elsewhere": (changed(section("map") + r'points="(\d+)', digit), "Where"),
    "a line of the map has another colour": (changed(section("map") + 'stroke="(#[0-9a-f]{6})', "#ffffcc"), "Where"),
    "a line of the map says another delay": (changed(section("map") + r"<title>[^<]*?(\d)\.\d s", digit), "Where"),
    "a junction has another letter": (changed(section("map") + r'class="letter">([A-F])<', "F"), "Where"),
    "a junction is gone": (changed(section("map") + r"(<a href=.*?</a>)", ""), "Where"),
    "a queue has a longer bar": (changed(section("details") + r'<rect [^>]*?width="(\d+)', digit), "Junctions in"),
    "a queue has another number": (changed(section("details") + r'<text x="516"[^>]*>(\d+)', digit), "Junctions in"),
    "a way of the corridor": (changed(section("corridor") + r'<path d="M\d+\.\d,(\d+)', digit), "Corridor"),
    "all ways of the corridor": (changed(section("corridor") + r'(<path d="[^"]*" fill="none".*?</path>)', ""), "Corr"),
    "a red of the corridor": (changed(section("corridor") + r'(<path d="[^"]*" stroke="#000" .*?/>)', ""), "Corridor"),
    "the corridor's legend": (changed(section("corridor") + r"(standing)</text>", "27 km/h"), "Corridor"),
    "a point of the counts": (changed(section("counts") + r'cx="(\d+)', digit), "Beside counts"),
    "a number of the counts": (changed(section("counts") + r"<td>(\d+)", digit), "Beside counts"),
    "a bar of a timing sheet": (changed(section("sheets") + r'<rect [^>]*?width="(\d+)', digit), "Signal timing"),
    "a second of a timing sheet": (changed(section("sheets") + r"<td[^>]*>(\d+)", digit), "Signal timing"),
    "a number of the verdict": (changed(r'class="verdict">.*?(\d+)\.', digit), "Verdict"),
    "a cell of a table": (changed(section("junctions") + r"<tbody>.*?<td>(\d+)", digit), "Junctions, "),
    "a row that is gone": (changed(section("junctions") + r"<tbody>(<tr>.*?</tr>)", ""), "Junctions, "),
    "the question": (changed("Is &lt;it&gt; (so)", "not so"), ""),
    "a style that hides": (put_in("<style>", ".doubt { display: none }"), ""),
    "a second style": (put_in("</style>", "<style>p::after { content: '%s' }</style>" % SAVES), ""),
    "a style of one element": (changed('<p class="(small)"', 'small" style="display:none'), ""),
    "a font with other digits": (put_in("<style>", "@font-face { font-family: sans-serif; src: url(x.woff) }"), ""),
    "a style from elsewhere": (put_in("</title>", '<link rel="stylesheet" href="https://example.com/x.css">'), ""),
    "a script": (put_in("</h1>", "<script>alert(1)</script>"), ""),
    "a handler": (changed("<main( )", ' onfocus="alert(1)" '), ""),
    "a base": (put_in("</title>", '<base href="https://example.com">'), ""),
    "another page after a while": (put_in("</title>", '<meta http-equiv="refresh" content="9;url=x.html">'), ""),
    "another page inside": (put_in("</header>", '<iframe srcdoc="9"></iframe>'), ""),
    "a comment": (put_in("</header>", f"<!-- {SAVES} -->"), ""),
    "a tag that nobody closes": (put_in("</header>", "<plaintext "), ""),
    "a digit as an entity": (changed(r'class="verdict">.*?(\d)', lambda one: f"&#{ord(one)};"), "Verdict"),
    "a sign that nobody sees": (changed(r'class="verdict">.*?\d()', "\u200b"), "Verdict"),
    "digits from right to left": (changed(r'class="verdict">.*?()\d', "\u202e"), "Verdict"),
    "a blank": (put_in("</header>", " "), ""),
    "a mark at its begin": (lambda text: "\ufeff" + text, ""),
    "more at its end": (lambda text: text + "<p>9</p>", ""),
    "ends of lines of another system": (lambda text: text.replace("\n", "\r\n"), ""),
    "a heading twice": (changed(section("map") + r'()<svg', '<h2 id="map">Where</h2>'), "Where"),
    "a section twice": (changed(r'()<section aria-labelledby="map">', f'<section id="map">{SAVES}</section>'), ""),
    "another map before it": (changed(section("map") + "()<svg", "<svg><text>9</text></svg>"), "Where"),
    "a seal that is not the first": (lambda text: text + f"{BEGIN}{{}}{END}", ""),
    "packed files twice": (lambda text: text + PACK.search(text)[0].replace(PACK.search(text)[2], SAVES), ""),
    "a blank in a packed file": (changed('class="sealed" title="[^"]*">[^<]{9}()', "\n"), "cannot be read|was changed"),
    "a packed file of nobody": (lambda text: text + PACK.search(text)[0].replace("zero.jsonl", "x"), ""),
    "what the check shows": (changed("It does (not )show that the street", ""), "How to check"),
    "the sum of all": (changed("all of this</th>.*?SHA-256 ([0-9a-f]+)", "0" * 64), "How to check"),
    "the sum of a file": (changed(section("check") + "plan-1/.*?SHA-256 ([0-9a-f]+)", "0" * 64), "How to check"),
}


class Pages(Page):
    def setUp(self):
        super().setUp()
        if not hasattr(type(self), "anew"):
            words = check.parser().parse_args([str(self.page), "--program", PROGRAM])
            type(self).anew = remake_page(words, self.seal)
        again = unittest.mock.patch.object(checked_targets, "remake_page", self.remake_page)
        again.start()
        self.addCleanup(again.stop)

    def remake_page(self, words, seal):
        """The page made anew, once for all whose seal is the same; the packed files are looked at each time."""
        self.assertEqual(seal.content, self.seal.content)
        dict(sealing.sealed_files(seal, words.target))
        return type(self).anew

    def test_the_page_as_it_was_made(self):
        status, told = quietly(check.main, self.page, "--program", PROGRAM)
        self.assertEqual((status, told.count("\n")), (0, 1), told)
        self.assertRegex(told, r"each of the [\d,]{4,} numbers on the page is that of a run \(1 run made again by ")

    def test_each_is_refused_with_its_place(self):
        for name, (forge, place) in PAGES.items():
            with self.subTest(name):
                forged = forge(self.text)
                self.assertNotEqual(forged, self.text)
                (self.folder / "x.html").write_bytes(forged.encode())
                status, told = quietly(check.main, self.folder / "x.html", "--program", PROGRAM)
                self.assertIn(status, (1, 2), told)
                self.assertRegex(told, f"x.html: .*{place}")

    def test_bytes_that_are_no_text(self):
        (self.folder / "x.html").write_bytes(self.page.read_bytes().replace(b"</header>", b"\xff</header>"))
        status, told = quietly(check.main, self.folder / "x.html", "--program", PROGRAM)
        self.assertEqual(status, 2)
        self.assertIn("x.html: cannot be read: 'utf-8' codec", told)


def with_plan(**values):
    """What changes what a seal says of its plan."""
    return lambda content, _: content["plans"][0].update(values)


def with_words(*words):
    """What adds words to those of the page."""
    return lambda content, _: content["words"].extend(words)


def with_again(*words):
    """What adds words to those by which the run is made again."""
    return lambda content, _: content["plans"][0]["again"].extend(words)


def with_both(*words):
    """What adds words to those of the run."""
    return lambda content, _: [content["plans"][0][name].extend(words) for name in ("words", "again")]


def with_content(**values):
    """What changes what a seal says."""
    return lambda content, _: content.update(values)


def with_file(name, change):
    """What changes a sealed file (None: there is none yet), and its sum; name: the end of its own."""
    def forge(content, texts):
        known = next((one for one in texts if one.endswith(name)), name)
        made = change(unpacked(texts[known]) if known in texts else None)
        texts[known], content["files"][known] = packed(made), sum_of(made)

    return forge


def with_pack(change):
    """What changes the packed bytes of the map, and no sum."""
    def forge(_, texts):
        texts["plan-1/map.json"] = base64.b64encode(change(base64.b64decode(texts["plan-1/map.json"]))).decode()

    return forge


def in_json(**values):
    """What changes an object of JSON."""
    return lambda content: canonical({**json.loads(content), **values}).encode()


def renamed(old, new):
    """What gives a sealed file another name, wherever that stands."""
    def forge(content, texts):
        content["files"][new], texts[new] = content["files"].pop(old), texts.pop(old)
        plan = content["plans"][0]
        plan.update({name: new for name in ("run", "map") if plan[name] == old})

    return forge


RUN, MAP = "plan-1/zero.jsonl", "plan-1/map.json"
ELSEWHERE = {"net": "/dev/zero", "additional": ["../../x"], "routes": [], "trips": [], "sums": ["0", "0"], "run": "0"}
# What an opponent does to a seal, all its sums and what the page shows of it made to fit; the status, and what is told.
REFUSED = {
    "help": (with_again("--help"), "options that the tools do not keep: they ask for help"),
    "help of the page": (with_words("--help"), "options that the tools do not keep: they ask for help"),
    "another program": (with_both("--program=/bin/false"), "not keep: --program=/bin/false"),
    "a session kept elsewhere": (with_both("--keep=/tmp/forged"), "not keep: --keep=/tmp/forged"),
    "results elsewhere": (with_both("--out=/tmp/forged"), "not keep: --out=/tmp/forged"),
    "results elsewhere, in short": (with_both("--ou=/tmp/forged"), "not keep: --ou=/tmp/forged"),
    "another map": (with_both("--map=/etc/passwd"), "not keep: --map=/etc/passwd"),
    "names of elsewhere": (with_words("--names=/etc/passwd"), "not keep: --names=/etc/passwd"),
    "counts of elsewhere": (with_words("--counts", "/etc/passwd"), "not keep: --counts"),
    "a table elsewhere": (with_words("--csv=/tmp/forged.csv"), "not keep: --csv=/tmp/forged.csv"),
    "a run of elsewhere": (with_words("/etc"), "not keep: unrecognized arguments: /etc"),
    "a word twice": (with_words("--question=Is <it> so?"), "not keep: one twice"),
    "words of a run that it was not made by": (with_plan(again=["--until=200"]), "and those by which it is made again"),
    "works without their words": (with_plan(words=["--close=J1J2_0:0-9:0-9"]), "and those by which it is made again"),
    "a name with ..": (renamed(MAP, "plan-1/../map.json"), "a run is called .* its map 'plan-1/../map.json'"),
    "a name of elsewhere": (renamed(RUN, "/tmp/forged.jsonl"), "a run is called '/tmp/forged.jsonl'"),
    "a run called ..": (renamed(RUN, "plan-1/.."), "a run is called 'plan-1/..'"),
    "a run called as its map": (with_plan(run=MAP), "a run is called 'plan-1/map.json'"),
    "a file of nobody": (with_file("plan-1/x", lambda _: b"9"), "a sealed file is called 'plan-1/x'"),
    "a file of another plan": (with_file("plan-2/map.json", lambda _: b"9"), "is called 'plan-2/map.json'"),
    "a file with markup": (with_file("<b>", lambda _: b"9"), "a sealed file is called '<b>'"),
    "a sum with markup": (with_content(tools="<b>"), "a sum is none"),
    "a program with markup": (with_plan(program="<script>"), "the sum of a program is none"),
    "seeds that are none": (with_plan(seeds=[]), "has no seeds"),
    "seeds that are texts": (with_plan(seeds=["<b>"]), "it says other things"),
    "more than a seal says": (with_content(saves=47_000), "it says other things"),
    "a form to come": (with_content(form=4), "it has the form 4, and these tools know 3"),
    "no plan": (with_content(plans=[]), "a sealed file is called"),
    "a file beside that is not there": (with_content(beside=[MAP]), "x.sealed.zip: the file beside .* cannot be read"),
    "bytes behind a packed file": (with_pack(lambda data: data + b"9"), f"the sealed file {MAP} cannot be read"),
    "a packed file that is cut off": (with_pack(lambda data: data[:-9]), f"the sealed file {MAP} cannot be read"),
    "a packed file that is large": (with_pack(lambda _: zlib.compress(bytes(1 << 26), 9)), "unpacks to more than 2"),
    "a map that is a list of lists": (with_file("map.json", lambda _: b"[" * 9999), "gives no such page"),
    "a map without an end": (with_file("map.json", lambda _: b'{"nodes":[{' + b"},{" * 3_000_000), "no such page"),
    "a vehicle less": (with_file("zero.jsonl", lambda text: text.rstrip().rpartition(b"\n")[0]), "no such page"),
    "a run of nothing": (with_file("zero.jsonl", lambda _: b""), "gives no such page"),
    "a run that asks for an end": (with_file("zero.jsonl", lambda text: text + b'{"cmd":"advance"}\n'), "no such page"),
}
DIFFERS = {
    "another question": (lambda content, _: content["words"].__setitem__(0, "--question=What"), ""),
    "another seed": (with_plan(seeds=[2]), "How to check"),
    "another name": (with_plan(name="one"), ""),
    "another end": (lambda content, _: [one.__setitem__(0, "--until=190") for one in both(content)], ""),
    "a vehicle that departs later": (with_file("zero.jsonl", lambda text: text.replace(b'rt":0', b'rt":60')), ""),
    "files of the import elsewhere": (with_file("map.json", in_json(sources=ELSEWHERE)), "What was run"),
    "another warning": (with_file("map.json", in_json(warnings=[SAVES])), "What the import said"),
    "more in the map": (with_file("map.json", in_json(saves=SAVES)), "How to check"),
    "names of one's own": (with_file("names.csv", lambda _: b"id,name\nJ1,Saves 9 h\n"), ""),
    "more counts": (with_file("counts-2", lambda _: b"from,to,begin,end,vehicles\nJ3J4,,0,200,9\n"), "Beside counts"),
}


def both(content):
    """The words of the run and those by which it is made again."""
    return content["plans"][0]["words"], content["plans"][0]["again"]


class Seals(Page):
    def forged(self, forge):
        """The page with another seal, which is whole, and with it the rows and sums that the page shows."""
        content, texts = json.loads(canonical(self.seal.content)), dict(self.seal.texts)
        forge(content, texts)
        made = sealing.Seal(content, texts, "x.sealed.zip" if content["beside"] else "").html()
        self.assertEqual(self.text.count(self.seal.html()), 1)
        return self.text.replace(self.seal.html(), made)

    def checked(self, text):
        status, told = quietly(check.main, self.write("x.html", text), "--program", PROGRAM)
        self.assertEqual(told.count("\n"), 1, told)
        return status, told

    def test_those_that_cannot_be_checked(self):
        for name, (forge, told) in REFUSED.items():
            with self.subTest(name):
                forged = self.forged(forge)
                self.assertNotEqual(forged, self.text)
                status, said = self.checked(forged)
                self.assertEqual(status, 2, said)
                self.assertRegex(said, f"{self.folder}.*{told}")

    def test_those_whose_runs_differ(self):
        for name, (forge, place) in DIFFERS.items():
            with self.subTest(name):
                status, said = self.checked(self.forged(forge))
                self.assertEqual(status, 1, said)
                self.assertRegex(said, f"x.html: [^:]* not what the runs give: .*{place}")

    def test_text_around_what_is_sealed(self):
        for name, begin in (("a name twice", '{"words":["x"],'), ("a blank", "{ ")):
            with self.subTest(name):
                status, said = self.checked(self.text.replace(BEGIN + "{", BEGIN + begin))
                self.assertEqual(status, 1, said)

    def test_no_word_of_it_is_written_or_read_elsewhere(self):
        self.assertFalse([*Path("/tmp").glob("forged*")])

    def test_files_beside(self):
        """The file beside holds what the page says, in its order, and nothing else."""
        kinds = {"one more": [], "another order": [], "a comment": [], "a begin": [], "bzip2": [], "twice": []}
        content, texts = json.loads(canonical(self.seal.content)), dict(self.seal.texts)
        content["beside"] = sorted((MAP, RUN))
        files = {name: unpacked(texts.pop(name)) for name in content["beside"]}
        made = sealing.Seal(content, texts, "x.sealed.zip").html()
        page = self.write("x.html", self.text.replace(self.seal.html(), made))
        for kind in kinds:
            with self.subTest(kind), open(self.folder / "x.sealed.zip", "w+b") as file:
                file.write(b"9" * 9 if kind == "a begin" else b"")
                with zipfile.ZipFile(file, "a") as packed_:
                    packed_.comment = SAVES.encode() if kind == "a comment" else b""
                    for name in [*files][:: -1 if kind == "another order" else 1]:
                        how = zipfile.ZIP_BZIP2 if kind == "bzip2" else zipfile.ZIP_DEFLATED
                        packed_.writestr(zipfile.ZipInfo(name), files[name], how)
                    if kind in ("one more", "twice"):
                        with warnings.catch_warnings(action="ignore"):
                            packed_.writestr("plan-1/x" if kind == "one more" else RUN, SAVES)
                file.flush()
                status, told = quietly(check.main, page, "--program", PROGRAM)
                self.assertEqual(status, 2, told)
                self.assertIn("x.sealed.zip: the file beside", told)
        sealing.write_beside(page, files)
        self.assertEqual(quietly(check.main, page, "--program", PROGRAM)[0], 0)


if __name__ == "__main__":
    unittest.main()
