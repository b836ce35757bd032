"""What a program without proofs makes says so, in its setting and its pages, and is not sealed."""
import base64
import gzip
import json
import re
import shutil
import unittest
from importlib.util import find_spec
from pathlib import Path

from support import PROGRAM, TOOLS, Case, needs_package, needs_proved, needs_simulator

from streetsim.base.files import read_json
from streetsim.base.program import MARK, UNKNOWN_NOTE, UNPROVED_NOTE, find_program
from streetsim.model import trust

CORRIDOR = TOOLS / "examples/corridor"


class Settings(Case):
    def test_what_a_search_or_a_study_leaves_says_so_too(self):
        for content, note in ((b"program" + MARK, UNPROVED_NOTE), (b"program", UNKNOWN_NOTE)):
            program = self.folder / f"program-{len(content)}"
            program.write_bytes(content)
            trust.write_doubts(str(self.folder), [], str(program))
            self.assertEqual(read_json(self.folder / "setting.json", ()), {"not_trusted": [], "unproved": note})


@needs_simulator
class Unproved(Case):
    def setUp(self):
        super().setUp()
        self.program = self.folder / "street_sim"
        self.program.write_bytes(Path(find_program(PROGRAM)).read_bytes() + MARK)
        self.program.chmod(0o755)
        run, mapping, self.out = (self.folder / name for name in ("c.jsonl", "c.map.json", "out"))
        words = "--routes", CORRIDOR / "corridor.rou.xml", "-o", run, "--end", 300
        self.tool("import", CORRIDOR / "corridor.net.xml.gz", *words)
        more = "--junctions", 900, "--until", 600, "--rounds", 0, "--program", self.program, "--out", self.out
        _, self.said = self.tool("run", run, "--map", mapping, *more)

    def test_the_setting_and_the_pages_say_so(self):
        self.assertEqual(self.said.count("NOT PROVED"), 1)
        self.assertEqual(read_json(self.out / "setting.json", ["made"])["made"]["unproved"], UNPROVED_NOTE)
        self.tool("report", self.out, "-o", self.folder / "r.html")
        self.assertIn(UNPROVED_NOTE, (self.folder / "r.html").read_text())
        self.tool("play", self.out, "-o", self.folder / "p.html")
        packed = re.findall(r"[A-Za-z0-9+/=]{1000,}", (self.folder / "p.html").read_text())
        [played] = json.loads(gzip.decompress(base64.b64decode(max(packed, key=len))).partition(b"\n")[0])
        self.assertEqual(played["name"], "out (NOT PROVED)")
        counts = self.folder / "counts.csv"
        counts.write_text("begin,end,from,to,vehicles\n0,300,WJ1,,40\n")
        self.assertIn(UNPROVED_NOTE, self.tool("compare", self.out, "--counts", counts, status=None)[0])
        told, _ = self.tool("export", self.out, "-o", self.folder / "x.geojson", "--projection", "+proj=utm +zone=32")
        self.assertIn("NOT PROVED", told)

    def test_a_page_of_it_is_not_sealed_and_its_folder_can_be_checked(self):
        page = self.folder / "r.html"
        said = self.tool("report", self.out, "--sealed", "-o", page, status=2)[1]
        self.assertIn("NOT PROVED", said)
        self.assertIn("is not sealed", said)
        self.assertFalse(page.exists())
        self.assertIn("is that of a run", self.tool("check", self.out, "--program", PROGRAM)[0])

    @needs_package("python3-matplotlib", find_spec("matplotlib"))
    def test_a_picture_says_so(self):
        self.tool("plot", "arrivals", self.out, "-o", self.folder / "a.svg")
        self.assertIn("NOT PROVED", (self.folder / "a.svg").read_text())

    @needs_proved
    def test_seeds_that_were_taken_away_are_not_sealed(self):
        words = "--map", self.folder / "c.map.json", "--program", PROGRAM, "--junctions", 900, "--until", 600
        seeds = self.folder / "seeds"
        self.tool("run", self.folder / "c.jsonl", *words, "--rounds", 0, "--seeds", "1-3", "--out", seeds)
        shutil.rmtree(seeds / "seed-2")
        said = self.tool("report", seeds, "--sealed", "-o", self.folder / "r.html", status=2)[1]
        self.assertIn("seeds.csv: the runs of seeds 2 were taken away", said)


if __name__ == "__main__":
    unittest.main()
