"""./package: nothing is packed that the gate did not prove; what is packed is what was proved, byte for byte, and works
where it is installed.

What packs needs what ./test has proved and left, and Debian's tools; the refusals have a made-up rt.
"""
import gzip
import json
import os
import re
import resource
import shutil
import subprocess
import sys
import tempfile
import tomllib
import unittest
from concurrent.futures import ThreadPoolExecutor
from html.parser import HTMLParser
from importlib.util import find_spec
from pathlib import Path
from unittest.mock import patch

from support import QUICK, TOOLS, Case, needs_package, needs_sumo, shown_run
from test_gate import PASSED, WELL, GateCase
from test_install import PIP

import built
import proved
from package import debian, manuals, wheel
from package.asking import CommandHelp, options
from streetsim.base.program import MARK

TOP = TOOLS.parent
NO_LIBRARY = "no library of the engine: library/make makes it"
VERSION = tomllib.loads((TOOLS / "pyproject.toml").read_text())["project"]["version"]
NEEDED = {
    "debhelper": shutil.which("dh"),
    "dh-python": shutil.which("dh_python3"),
    "help2man": shutil.which("help2man"),
    "python3-markdown-it": find_spec("markdown_it"),
    "python3-pip": PIP,
}


def needs_packed(case):
    """Skips a test where nothing can be packed; the reasons that ./test knows go before."""
    why = "no programs are started" if QUICK else proved.why_not(TOP)
    case = unittest.skipIf(why, f"nothing to be packed: {why}")(case)
    for name, found in NEEDED.items():
        case = needs_package(name, found)(case)
    return case


class Refused(GateCase):
    """In a small repository, whose gate passes by a made-up rt."""

    def setUp(self):
        super().setUp()
        for name in ("package", "tools/packing.py", "tools/pyproject.toml"):
            shutil.copy(TOP / name, self.top / name)
        shutil.copytree(TOP / "dev/package", self.top / "dev/package", ignore=shutil.ignore_patterns("__pycache__"))

    def refusal(self):
        """The one line by which ./package says why it packs nothing."""
        output, error = self.runs("package", "--out", str(self.folder / "packed"), status=1)
        self.assertEqual((output, error.count("\n"), (self.folder / "packed").exists()), ("", 1, False), error)
        return error

    def proves_all(self):
        """As ./test does."""
        self.runs("test", LAST=WELL)
        with patch.dict(os.environ, XDG_CACHE_HOME=self.environment["XDG_CACHE_HOME"]):
            proved.note(self.top, ["logic=proved functions=7", "rt: street_base proved", *WELL.splitlines()])
        self.assertIsNone(proved.why_not(self.top))

    def test_nothing_was_proved(self):
        self.assertIn("nothing here was proved by the whole gate: ./test", self.refusal())

    def test_a_build_is_not_the_gate(self):
        self.runs("build")
        self.assertIn("nothing here was proved by the whole gate", self.refusal())

    def test_a_program_without_proofs(self):
        """Neither where it is made, nor in the place of the one that was proved."""
        program, copy = self.top / "unproved/street_sim", built.program(self.top)
        program.parent.mkdir()
        program.write_bytes(b"program" + MARK)
        self.assertIn("nothing here was proved by the whole gate", self.refusal())
        self.proves_all()
        copy.write_bytes(program.read_bytes())
        self.assertIn("crates/street_sim/out/street_sim is not the file that was proved", self.refusal())

    def test_a_gate_that_fails_leaves_no_record(self):
        self.proves_all()
        self.runs("test", status=1, LAST="12 passed, 1 failed")
        self.assertIn("nothing here was proved by the whole gate", self.refusal())

    def test_other_files_and_other_sources(self):
        self.proves_all()
        for name, told in (
            ("crates/street_sim/out/street_sim", "crates/street_sim/out/street_sim is not the file that was proved"),
            ("crates/street_line/src/lib.rt", "the sources of street_sim are not those that were proved"),
        ):
            with self.subTest(name):
                path = self.top / name
                before = path.read_bytes()
                path.write_bytes(before + b"\n")
                self.assertIn(told, self.refusal())
                path.write_bytes(before)

    def test_the_record_is_of_the_gates_own_words(self):
        self.runs("test", LAST=WELL)
        found = json.loads((self.top / "out/proved.json").read_text())
        self.assertEqual((found["gate"], found["summary"]), (PASSED, WELL.splitlines()[0].removeprefix("rt: ")))
        self.assertEqual(found["uncounted"], ["street_sim", "street_base", "street_line", "street_line_tests"])
        self.proves_all()
        text = proved.page(proved.read(self.top), "1.2.3", "abc")
        for line in (
            "Version: 1.2.3", "Commit: abc", f"Gate: {PASSED}", "Edits (wrong bodies) refused: 4",
            f"{built.sum_of_file(built.program(self.top))}  libexec/streetsim/streetsim",
        ):
            self.assertIn(f"\n{line}\n", text)
        self.assertRegex(text, r"\nFunctions proved: 7, in 1 crates; of 3 others, proved by earlier runs, ")


class Parts(Case):
    def test_changes_as_debian_has_them(self):
        changes = "## 1.1.0 (2027-02-01)\n\n- A `word`, and\n  [one](x.md) more.\n\n## 1.0.0 (2026-11-27)\n\n- B.\n"
        told = debian.changelog(changes, "A <a@b>")
        self.assertEqual(told.split("\n")[:5], [
            "streetsim (1.1.0) unstable; urgency=medium", "", "  * A word, and one more.", "",
            " -- A <a@b>  Mon, 01 Feb 2027 00:00:00 +0000",
        ])  # fmt: skip
        self.assertIn("\nstreetsim (1.0.0) unstable;", told)
        newest, *_ = debian.versions((TOP / "CHANGELOG.md").read_text())
        self.assertEqual(newest[0], VERSION)

    def test_the_tag_has_the_c_library_that_is_needed(self):
        names = b"\0GLIBC_2.2.5\0GLIBC_2.34\0GLIBC_2.9\0x"
        self.assertEqual(wheel.tag_of(names), "py3-none-manylinux_2_34_x86_64")

    def test_options_of_a_help(self):
        text = "usage: x\n\noptions:\n  -h, --help  show\n  -o OUTPUT, --output OUTPUT\n  --every S    --no, seconds\n"
        self.assertEqual(options(text), ["--help", "--output", "--every"])

    @needs_package("help2man", NEEDED["help2man"])
    def test_a_word_with_a_point_is_whole_in_its_manual_page(self):
        text = "usage: x\n\noptions:\n  -t, --log-of.means\n                  shows them\n"
        page = manuals.page(CommandHelp("streetsim-x", text, {}), VERSION)
        self.assertIn("\n\\fB\\-t\\fR, \\fB\\-\\-log\\-of.means\\fR\n", page)


class Links(HTMLParser):
    """What a page links to, and the words by which it is linked to."""

    def __init__(self, path):
        super().__init__()
        self.goals, self.names = [], set()
        self.feed(path.read_text(encoding="utf-8"))

    def handle_starttag(self, _tag, attributes):
        found = dict(attributes)
        self.names.add(found.get("id"))
        self.goals += [found[name] for name in ("href", "src") if name in found]


@needs_packed
class Packed(Case):
    """Two packages, of two clones, one of them made on one processor, in another zone and another language; the other
    is unpacked, and installed as a wheel."""

    @classmethod
    def setUpClass(cls):
        made = tempfile.TemporaryDirectory()
        cls.addClassCleanup(made.cleanup)
        cls.place = Path(made.name)
        cls.one, cls.other = cls.place / "one/out", cls.place / "elsewhere"
        alone = ["taskset", "--cpu-list", min(os.sched_getaffinity(0))]
        words = [*alone, cls.clone("other") / "package", "--out", cls.other]
        with ThreadPoolExecutor(1) as pool:
            other = pool.submit(cls.do, words, TZ="Asia/Tokyo", LC_ALL="C")
            cls.do([cls.clone("one") / "package"])
            other.result()
        cls.deb = cls.one / f"streetsim_{VERSION}_amd64.deb"
        cls.do(["dpkg-deb", "-x", cls.deb, cls.place / "root"])
        cls.usr = cls.place / "root/usr"
        cls.venv = cls.place / "venv"
        cls.do([sys.executable, "-m", "venv", "--system-site-packages", "--without-pip", cls.venv])
        [made_wheel] = cls.one.glob("*.whl")
        cls.do([*PIP, "--python", cls.venv / "bin/python", "install", "--quiet", "--no-index", made_wheel])

    @classmethod
    def clone(cls, name):
        """A repository of what is here, committed, with what ./test has left."""
        top = cls.place / name
        words = ["git", "-c", "safe.directory=*", "ls-files", "-z", "--cached", "--others", "--exclude-standard"]
        files = [*map(TOP.joinpath, cls.do(words, TOP).split("\0")), proved.record_of(TOP)]
        files += proved.files_of(TOP).values()
        for path in filter(Path.is_file, files):
            to = top / path.relative_to(TOP)
            to.parent.mkdir(parents=True, exist_ok=True)
            shutil.copy(path, to)
        whose = {"NAME": "one", "EMAIL": "one@example.org", "DATE": "2026-11-27T00:00:00Z"}
        variables = {f"GIT_{who}_{name}": text for who in ("AUTHOR", "COMMITTER") for name, text in whose.items()}
        for words in (["init", "-q"], ["add", "-A"], ["commit", "-qm", "all"]):
            cls.do(["git", *words], top, **variables)
        return top

    @staticmethod
    def do(words, folder="/", text="", **variables):
        """Runs a command without a program of the environment, and gives what it prints."""
        kept = {name: value for name, value in os.environ.items() if not name.startswith(("STREETSIM", "PYTHONPATH"))}
        done = subprocess.run(
            [*map(str, words)], cwd=folder, env={**kept, **variables}, input=text, capture_output=True, text=True,
            check=False,
        )
        if done.returncode:
            raise AssertionError(f"{words[0]}: status {done.returncode}: {done.stdout}{done.stderr}")
        return done.stdout

    def test_equal_commits_give_equal_bytes(self):
        sums = (self.one / "SHA256SUMS").read_text()
        self.assertEqual((self.other / "SHA256SUMS").read_text(), sums)
        self.assertEqual(self.do(["sha256sum", "-c", "SHA256SUMS"], self.one).count(": OK\n"), 2)

    def test_the_record_is_of_the_installed_programs(self):
        record = (self.usr / "share/doc/streetsim/PROVED").read_text()
        self.assertEqual((self.venv / "share/doc/streetsim/PROVED").read_text(), record)
        sums = re.findall(r"^[0-9a-f]{64}  \S+$", record, re.MULTILINE)
        self.assertEqual(len(sums), len(proved.files_of(TOP)))
        for prefix in (self.usr, self.venv):
            told = self.do(["sha256sum", "-c"], prefix, "\n".join(sums) + "\n")
            self.assertEqual(told.count(": OK\n"), len(sums))
        self.assertIn(f"{built.sum_of_file(built.program(TOP))}  libexec/streetsim/streetsim\n", record)
        commit = self.do(["git", "rev-parse", "HEAD"], self.place / "one")
        for line in (f"Commit: {commit}", f"Gate: {proved.read(TOP)['gate']}\n", f"Version: {VERSION}\n"):
            self.assertIn(f"\n{line}", record)

    def test_each_tool_has_its_command_its_manual_page_and_completion(self):
        for path in TOOLS.glob("streetsim-*"):
            with self.subTest(path.name):
                page = gzip.open(self.usr / f"share/man/man1/{path.name}.1.gz", "rt").read().replace("\\-", "-")
                told = self.do([self.venv / "bin" / path.name, "--help"], COLUMNS="1000")
                self.assertEqual([word for word in options(told) if word not in page], [])
                script = self.usr / "share/bash-completion/completions" / path.name
                asked = f'. "{script}"; COMP_WORDS=({path.name} --hel); COMP_CWORD=1; _streetsim {path.name} --hel; '
                self.assertEqual(self.do(["bash", "-c", asked + 'echo "${COMPREPLY[@]}"']), "--help\n")
                self.assertTrue(os.access(self.usr / "bin" / path.name, os.X_OK))

    @unittest.skipUnless(built.library()["lib/streetsim/libstreetsim.a"].is_file(), NO_LIBRARY)
    @needs_package("pkgconf", shutil.which("pkg-config"))
    @needs_package("g++", shutil.which("g++"))
    def test_the_engines_library_is_found_by_pkg_config(self):
        for prefix in (self.usr, self.venv):
            with self.subTest(prefix.name):
                made, settings = self.folder / prefix.name, {"PKG_CONFIG_PATH": str(prefix / "share/pkgconfig")}
                words = self.do(["pkg-config", "--cflags", "--libs", "streetsim"], **settings).split()
                source = (TOP / "library/c/drive.c").read_text().replace("../streetsim.h", "streetsim.h")
                self.do(["gcc", self.write("drive.c", source), "-o", made, *words])
                self.assertIn("clock 60: 3 of 3 arrived\n", self.do([made]))
                self.assertEqual(self.do(["pkg-config", "--modversion", "streetsim"], **settings), f"{VERSION}\n")
        page = gzip.open(self.usr / "share/man/man3/streetsim.3.gz", "rt").read().replace("\\-", "-")
        self.assertIn("uint32_t streetsim_open(struct streetsim_session *session);\n", page)

    def test_what_is_installed_runs_by_itself(self):
        """The figures are those of the walk in tools/README.md; tools find the program, and that is started as told."""
        session = TOP / "examples/one-vehicle.jsonl"
        for prefix, more in ((self.usr, {"PYTHONPATH": str(self.usr / "lib/python3/dist-packages")}), (self.venv, {})):
            with self.subTest(prefix.name):
                folder = self.folder / prefix.name
                told = self.do([prefix / "bin/streetsim"], text=session.read_text())
                self.assertEqual(told, session.with_suffix(".out").read_text())
                self.do([prefix / "bin/streetsim-example", "corridor", "--out", folder], **more)
                words = ["corridor.net.xml.gz", "--routes", "corridor.rou.xml", "-o", "zero.jsonl", "--map", "map.json"]
                self.do([prefix / "bin/streetsim-import", *words], folder, **more)
                words = ["zero.jsonl", "--map", "map.json", "--until", 4500, "--out", "zero"]
                told = self.do([prefix / "bin/streetsim-run", *words], folder, **more)
                self.assertEqual(told, shown_run())
                made = json.loads((folder / "zero/setting.json").read_text())["made"]
                self.assertNotIn("unproved", made)  # the record that is installed names the program

    @needs_sumo
    @needs_package("python3-matplotlib", find_spec("matplotlib"))
    def test_walks_print_what_their_pages_show(self):
        """README's begin by Debian's package, and that with the tools' walk by the wheel, by nothing but the commands
        that are installed."""
        packages = {"PYTHONPATH": str(self.usr / "lib/python3/dist-packages")}
        for prefix, pages, more in ((self.usr, "../README", packages), (self.venv, "../README,README", {})):
            with self.subTest(prefix.name):
                path = f"{prefix / 'bin'}:/usr/bin:/bin"
                words = ["/usr/bin/python3", TOP / "bench/run", "walks", "--installed", "--only", pages]
                told = self.do([*words, "--work", self.folder / prefix.name], PATH=path, SUMO_HOME="", **more)
                self.assertIn("each walk prints what its page says", told)

    def test_a_file_that_may_not_grow_is_a_failed_write(self):
        with (self.folder / "out").open("w") as output:
            done = subprocess.run(
                [self.usr / "bin/streetsim"], input=b'{"cmd":"count"}\n' * 400, stdout=output, stderr=subprocess.PIPE,
                preexec_fn=lambda: resource.setrlimit(resource.RLIMIT_FSIZE, (4096, 4096)), check=False,
            )
        self.assertEqual((done.returncode, done.stderr), (1, b"streetsim: cannot write standard output\n"))

    def test_links_of_the_pages_hold(self):
        pages = {path: Links(path) for path in (self.usr / "share/doc/streetsim/html").rglob("*.html")}
        self.assertGreater(len(pages), 10)
        for page, links in pages.items():
            for goal in links.goals:
                name, _, heading = goal.partition("#")
                path = Path(os.path.normpath(page.parent / name)) if name else page
                if not re.match(r"[a-z]+:", goal):
                    self.assertTrue(path.is_file(), f"{page.name}: {goal}")
                    self.assertTrue(not heading or heading in pages[path].names, f"{page.name}: {goal}")

    @needs_package("lintian", shutil.which("lintian"))
    def test_lintian_finds_no_error_and_no_warning(self):
        told = self.do(["lintian", "--allow-root", "--fail-on", "error,warning", self.deb])
        self.assertEqual(told, "")


if __name__ == "__main__":
    unittest.main()
