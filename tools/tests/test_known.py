"""Proved is what is known to be: programs of a fresh clone's ./build, changed, copied, in the place of each other, and
of another clone, at each door: a run's setting, its page, the seal, the check and the live page."""
import base64
import gzip
import json
import os
import re
import shutil
import subprocess
import unittest
import urllib.request
from pathlib import Path
from unittest.mock import patch

from support import PROGRAM, QUICK, TOOLS, Case, needs_package, needs_simulator
from test_first_minute import RT, RepositoryCase

import proved
from streetsim.base import program
from streetsim.base.files import Fault
from streetsim.base.program import BUILT, MARK, UNKNOWN_NOTE, UNPROVED_NOTE, Proof, proof_of, proof_words

CORRIDOR = TOOLS / "examples/corridor"
LEAVES = "printf '#!/bin/bash\\necho proved \"$@\"\\n' >$program"
TOLD = {  # what the setting, the check and the live page say
    Proof.PROVED: ("", "which is proved", "The proved program on this machine"),
    Proof.UNPROVED: (UNPROVED_NOTE, "which is NOT PROVED", "NOT PROVED: a program without proofs"),
    Proof.UNKNOWN: (UNKNOWN_NOTE, "which is not known to be proved", "A program that is not known to be proved on"),
}


def bare_program():
    """The bytes of the program that is tested with, without the mark of one without proofs."""
    return Path(program.find_program(PROGRAM)).read_bytes().removesuffix(MARK)


@needs_simulator
class Doors(RepositoryCase):
    """A clone whose ./build has made the program, by a made-up rt, and programs that are not quite it."""

    def setUp(self):
        super().setUp()
        hidden = shutil.ignore_patterns("__pycache__")
        shutil.copytree(TOOLS / "streetsim", self.top / "tools/streetsim", dirs_exist_ok=True, ignore=hidden)
        for name in ("import", "run", "report", "check", "live"):
            shutil.copy(TOOLS / f"streetsim-{name}", self.top / f"tools/streetsim-{name}")
        self.assertIn(LEAVES, RT)
        (self.folder / "bin/rt").write_text(RT.replace(LEAVES, 'cp "$LEFT" $program'))
        self.left = self.place("left", bare_program())
        self.runs("build", LEFT=str(self.left))
        self.built = self.top / BUILT
        self.run, self.map = self.folder / "c.jsonl", self.folder / "c.map.json"
        words = "--routes", CORRIDOR / "corridor.rou.xml", "-o", self.run, "--map", self.map, "--end", 200
        self.command("import", CORRIDOR / "corridor.net.xml.gz", *words)

    def place(self, name, content):
        """A program of these bytes at a path in the test's folder."""
        path = self.folder / name
        path.parent.mkdir(parents=True, exist_ok=True)
        path.write_bytes(content)
        path.chmod(0o755)
        return path

    def command(self, name, *words, status=0):
        """What a command of the clone prints."""
        output, error = self.runs(f"tools/streetsim-{name}", *map(str, words), status=status)
        return output + error

    def claim(self, path, *words):
        """What the live page of a program says of it."""
        words = self.run, "--map", self.map, "--no-open", "--program", path, *words
        command = [self.top / "tools/streetsim-live", *words]
        with subprocess.Popen([*map(str, command)], env=self.environment, stdout=subprocess.PIPE, text=True) as process:
            try:
                with urllib.request.urlopen(process.stdout.readline().strip(), timeout=60) as page:
                    packed = re.findall(r"[A-Za-z0-9+/=]{1000,}", page.read().decode())
            finally:
                process.terminate()
        return json.loads(gzip.decompress(base64.b64decode(max(packed, key=len))))["claim"]

    def is_told(self, path, proof):
        """Each door tells this of a program, and a page of it is sealed where it is proved alone."""
        out, page, note = self.folder / "out", self.folder / "page.html", TOLD[proof][0]
        shutil.rmtree(out, ignore_errors=True)
        page.unlink(missing_ok=True)
        words = "--map", self.map, "--junctions", 900, "--until", 200, "--rounds", 0, "--program", path, "--out", out
        told = self.command("run", self.run, *words)
        self.assertEqual("proved" in told.lower(), proof is not Proof.PROVED, told)
        self.assertEqual(json.loads((out / "setting.json").read_text())["made"].get("unproved", ""), note)
        self.command("report", out, "-o", page)
        self.assertTrue(all((one in page.read_text()) is (one == note) for one in (UNPROVED_NOTE, UNKNOWN_NOTE)))
        told = self.command("check", out, "--program", path)
        self.assertIn(TOLD[proof][1].replace("which", "by a program that"), told)
        status = 0 if proof is Proof.PROVED else 2
        told = self.command("report", out, "--sealed", "-o", self.folder / "sealed.html", status=status)
        self.assertEqual("is not sealed" in told, status == 2, told)
        self.assertIn(TOLD[proof][1], self.command("check", self.folder / "sealed.html", "--program", path))
        self.assertIn(TOLD[proof][2], self.claim(path))

    def test_six_cases(self):
        content = self.built.read_bytes()
        self.is_told(self.built, Proof.PROVED)  # first, as the others check its page
        self.is_told(self.place("copies/other-name", content), Proof.PROVED)
        self.is_told(self.place("more", content + b"\n"), Proof.UNKNOWN)
        self.built.write_bytes(content + MARK)
        self.is_told(self.built, Proof.UNPROVED)
        self.built.write_bytes(content + b"\n")
        self.is_told(self.built, Proof.UNKNOWN)

    @needs_package("g++", shutil.which("strip"))
    def test_stripped(self):
        self.is_told(self.built, Proof.PROVED)
        stripped = self.place("stripped", self.built.read_bytes())
        subprocess.run(["strip", "--strip-all", stripped], check=True)
        self.assertNotEqual(stripped.read_bytes(), self.built.read_bytes())
        self.is_told(stripped, Proof.UNKNOWN)

    def test_proved_in_another_clone(self):
        """Its record may be named; that is told, and nothing is sealed. A record of another program is refused."""
        theirs = self.place("theirs/program", self.built.read_bytes() + b"\0")
        record = self.folder / "theirs/out/proved.json"
        proved.write(self.folder / "theirs", {"files": {"x": proved.built.sum_of_file(theirs)}})
        self.assertTrue(record.exists())
        self.is_told_elsewhere(theirs, record)
        for path, why in (
            (self.place("marked", self.built.read_bytes() + MARK), "NOT PROVED, by its own mark"),
            (self.place("more", self.built.read_bytes() + b"\n"), "names no program with the SHA-256 of"),
        ):
            words = self.run, "--map", self.map, "--program", path, "--proved", record, "--out", self.folder / "no"
            self.assertIn(why, self.command("run", *words, status=2))
            self.assertFalse((self.folder / "no").exists())

    def is_told_elsewhere(self, path, record):
        """As `is_told`, of a program that another clone's record names."""
        out, words = self.folder / "out", ("--program", path, "--proved", record)
        told = f"proved elsewhere, says {record}"
        more = "--map", self.map, "--junctions", 900, "--until", 200, "--rounds", 0, "--out", out
        self.assertIn(told, self.command("run", self.run, *more, *words))
        self.assertIn(told, json.loads((out / "setting.json").read_text())["made"]["unproved"])
        self.command("report", out, "-o", self.folder / "page.html")
        self.assertIn(told, (self.folder / "page.html").read_text())
        self.assertIn(told, self.command("check", out, *words))
        sealing = self.command("report", out, "--sealed", "-o", self.folder / "sealed.html", status=2)
        self.assertIn("is not sealed", sealing)
        self.assertIn(told, self.claim(path, "--proved", record))


@unittest.skipIf(QUICK, "starts programs")
class Records(RepositoryCase):
    def record(self):
        return json.loads((self.top / "out/proved.json").read_text())

    def test_a_build_names_its_program_and_the_ones_before(self):
        self.runs("build")
        [first] = self.record()["files"].values()
        self.assertEqual((first, self.record()["earlier"]), (proved.built.sum_of_file(self.top / BUILT), []))
        self.assertEqual(self.record()["summary"], "")
        (self.top / "crates/street_line/src/lib.rt").write_text("//! other\n")
        rt = (self.folder / "bin/rt").read_text()
        (self.folder / "bin/rt").write_text(rt.replace("echo proved", "echo proved again"))
        self.runs("build")
        self.assertEqual(self.record()["earlier"], [first])
        self.assertNotIn(first, self.record()["files"].values())

    def test_a_build_of_before_has_a_record_now(self):
        self.runs("build")
        (self.top / "out/proved.json").unlink()
        self.runs("build")
        self.assertIn(proved.built.sum_of_file(self.top / BUILT), self.record()["files"].values())


class Answers(Case):
    """The three answers, of made-up programs and records."""

    def setUp(self):
        super().setUp()
        self.enterContext(patch.dict(os.environ))
        os.environ.pop(program.ELSEWHERE, None)
        self.enterContext(patch.multiple(program, TOP=self.folder, PREFIX=None))
        self.at = 0

    def proof(self, content, record):
        """What is known of a program of these bytes, by a record of this text."""
        self.at += 1
        path, kept = self.folder / f"program-{self.at}", self.folder / "out/proved.json"
        path.write_bytes(content)
        kept.parent.mkdir(exist_ok=True)
        kept.write_text(record)
        program.proved_in.cache_clear()
        self.addCleanup(program.proved_in.cache_clear)
        return proof_of(str(path))

    def test_a_record_that_says_nothing_leaves_a_program_unknown(self):
        names = json.dumps({"files": {"x": proved.built.hashlib.sha256(b"one").hexdigest()}})
        earlier = json.dumps({"files": {}, "earlier": [proved.built.hashlib.sha256(b"one").hexdigest()]})
        for content, record, wanted in (
            (b"one", names, Proof.PROVED), (b"one", earlier, Proof.PROVED), (b"one\n", names, Proof.UNKNOWN),
            (b"one" + MARK, names, Proof.UNPROVED), (b"one", "{}", Proof.UNKNOWN), (b"one", "no JSON", Proof.UNKNOWN),
            (b"one", '{"files": [1]}', Proof.UNKNOWN), (b"one", '{"files": {"x": null}}', Proof.UNKNOWN),
            (b"one", '{"files": {}, "earlier": 5}', Proof.UNKNOWN),
        ):  # fmt: skip
            with self.subTest(content=content, record=record):
                self.assertEqual(self.proof(content, record), wanted)
        self.assertEqual(proof_of(str(self.folder / "none")), Proof.UNKNOWN)

    def test_a_mark_counts_whatever_a_record_says(self):
        content = b"one" + MARK
        names = json.dumps({"files": {"x": proved.built.hashlib.sha256(content).hexdigest()}})
        self.assertEqual(self.proof(content, names), Proof.UNPROVED)
        path = str(self.folder / "program-1")
        os.environ[program.ELSEWHERE] = str(self.folder / "out/proved.json")
        self.assertEqual(proof_words(path), "NOT PROVED")
        self.assertRaisesRegex(Fault, "by its own mark", program.refuse_record, path)


if __name__ == "__main__":
    unittest.main()
