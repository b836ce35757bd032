"""Trials in copies: package and wheel on a fresh Debian without a network, and changes that no test of the tools
notices."""

import ast
import contextlib
import http.client
import json
import os
import random
import re
import shutil
import signal
import subprocess
import sys
import tempfile
import time
from concurrent.futures import ThreadPoolExecutor
from dataclasses import dataclass
from pathlib import Path
from urllib.parse import urlsplit

import shared
from repository.pages import EXAMPLES, SECTIONS, walk
from shared import TOP

INCLUDED = "python3,python3-matplotlib,python3-scipy,python3-venv,sumo,sumo-tools,man-db,bash-completion,curl"
MIRROR = "http://deb.debian.org/debian"
SYSTEM_PATH = "/usr/sbin:/usr/bin:/sbin:/bin"
VENV, WALK = "/root/streetsim-tools", "/root/streetsim-walk"
# Folders in which other programs keep notes of their own.
NOTES = {"dev", "proc", "root", "run", "sys", "tmp", "var/cache", "var/lib/apt", "var/lib/dpkg", "var/log"}
SESSION = """
streetsim-example sessions
streetsim < sessions/one-vehicle.jsonl | cmp - sessions/one-vehicle.out
test "$(streetsim --version)" = "streetsim {version}"
! command -v gcc cc rt
! timeout 5 curl -sS http://deb.debian.org/
"""
SUMS = "cd {prefix}; grep -E '^[0-9a-f]{{64}}  ' share/doc/streetsim/PROVED | sha256sum -c --strict"
MANUAL = """
man -w streetsim-run | grep -x {prefix}/share/man/man1/streetsim-run.1.*
MANPAGER=cat man streetsim-run | grep -q 'seconds of a count (default 900)'
"""
COMPLETION = """
{load}
complete -p streetsim-run streetsim-plot streetsim
COMP_WORDS=(streetsim-run --jun); COMP_CWORD=1; _streetsim streetsim-run --jun; test "${{COMPREPLY[*]}}" = --junctions
COMP_WORDS=(streetsim-plot cor); COMP_CWORD=1; _streetsim streetsim-plot cor; test "${{COMPREPLY[*]}}" = corridor
"""
OPEN = """
streetsim-example town --out town
streetsim-open town | tail -1 | grep -x 'town.html: .* bytes'
grep -c 'id="player"' town.html
for tool in /usr/bin/streetsim-*; do test "$($tool --version)" = "${{tool##*/}} {version}"; done
"""
GAME = "/usr/share/sumo/tools/game"  # of sumo-tools
OSM = """netconvert --osm-files osm.osm.xml --output.street-names --geometry.remove --junctions.join -o osm.net.xml"""
PAGES = {  # what is opened by streetsim-open: what is done before, its words, seconds on two processors at most
    "the corridor": ("streetsim-example corridor", "corridor/corridor.net.xml.gz corridor/corridor.rou.xml", 30),
    "the town": ("streetsim-example town", "town", 60),
    "game/cross": ("true", f"{GAME}/cross.sumocfg", 30),
    "game/ramp": ("true", f"{GAME}/ramp.sumocfg", 30),
    "a map of OpenStreetMap": (f"SUMO_HOME=/usr/share/sumo {OSM}", "osm.net.xml --vehicles 3000", 30),
}
LIVE = """
streetsim-live zero.jsonl --map zero.map.json --no-open > live.txt &
for _ in $(seq 100); do grep -q ^http live.txt && break; sleep 0.2; done
address=$(head -1 live.txt)
curl -sS --fail "$address" | grep -c '<canvas'
curl -sS --fail --data-binary '' "${address}page/begin" | grep -aq '"clock":0'
curl -sS --fail --data-binary '{"steps":10}' "${address}page/step" | grep -aq '"clock":10'
kill $!
"""


class Machine:
    """A folder that stands for a machine, without any network but its own."""

    def __init__(self, root):
        self.root, self.path, self.faults = root, SYSTEM_PATH, 0

    def runs(self, body, folder=WALK):
        """Runs commands of the shell, and gives how they ended with all that they printed."""
        place = self.root / folder.lstrip("/")
        place.mkdir(parents=True, exist_ok=True)
        inside = f"ip link set lo up; exec chroot {self.root} bash -ec 'cd \"$0\"; eval \"$1\"' {folder} \"$0\""
        apart = ["unshare", "--net", "--mount", "--pid", "--fork", f"--mount-proc={self.root}/proc"]
        kept = {"PATH": self.path, "HOME": "/root", "LC_ALL": "C.UTF-8", "DEBIAN_FRONTEND": "noninteractive"}
        kept["PYTHONUNBUFFERED"] = "1"  # lines come as a terminal shows them
        joined = {"stdout": subprocess.PIPE, "stderr": subprocess.STDOUT, "text": True, "errors": "replace"}
        return subprocess.run([*apart, "bash", "-c", inside, body], env=kept, check=False, **joined)

    def tries(self, what, body, folder=WALK):
        """Runs commands that have to pass, and says whether they do."""
        done = self.runs(body, folder)
        print(f"{what}: {f'status {done.returncode}' if done.returncode else 'well'}", flush=True)
        if done.returncode:
            self.faults += 1
            print(*(f"  {line}" for line in done.stdout.splitlines()[-12:]), sep="\n", flush=True)

    def files(self):
        """The files of the machine, but for those in which programs keep notes."""
        paths = set()
        for at, folders, names in os.walk(self.root):
            inside = Path(at).relative_to(self.root)
            folders[:] = [name for name in folders if str(inside / name) not in NOTES]
            paths.update(str(inside / name) for name in [*folders, *names])
        noted = (self.root / "var/lib/dpkg/info").glob("streetsim*")
        return paths | {str(path.relative_to(self.root)) for path in noted}

    def leaves_nothing(self, before):
        self.tells_left(self.files() - before)

    def tells_left(self, paths):
        left = sorted(paths)
        print(f"what is left of it: {', '.join(left[:5]) or 'nothing'}", flush=True)
        self.faults += bool(left)


def osm_town():
    """A town as OpenStreetMap has it: four streets across six, with names, and lights where they cross inside."""
    rows, columns = range(4), range(6)
    light, street = '<tag k="highway" v="traffic_signals"/>', '<tag k="highway" v="secondary"/><tag k="lanes" v="2"/>'
    nodes = [
        f'<node id="{6 * row + column + 1}" version="1" lat="{52.5 + 0.0018 * row:.4f}" '
        f'lon="{13.4 + 0.003 * column:.3f}">{light if row in (1, 2) and 0 < column < 5 else ""}</node>'
        for row in rows for column in columns
    ]
    streets = [[6 * row + column + 1 for column in columns] for row in rows]
    streets += [[6 * row + column + 1 for row in rows] for column in columns]
    ways = [
        f'<way id="{number}" version="1">{"".join(f"""<nd ref="{node}"/>""" for node in at)}{street}'
        f'<tag k="name" v="{number}. Street"/></way>'
        for number, at in enumerate(streets, 101)
    ]
    return "\n".join(['<osm version="0.6">', *nodes, *ways, "</osm>"])


def opened(machine):
    """Opens what PAGES has, each on two processors, and says how long each page takes."""
    folder = f"{WALK}/pages"
    machine.tries("a folder for pages", "true", folder)
    (machine.root / folder.lstrip("/") / "osm.osm.xml").write_text(osm_town(), encoding="utf-8")
    for name, (before, words, most_seconds) in PAGES.items():
        done = machine.runs(f"{before}\nTIMEFORMAT='took %R %U %S'\ntime taskset -c 0,1 streetsim-open {words}", folder)
        took = re.search(r"took ([\d.]+) ([\d.]+) ([\d.]+)", done.stdout)
        page = re.search(r"^\S+\.html: [\d,]+ bytes$", done.stdout, re.MULTILINE)
        if done.returncode or not took or not page or float(took[1]) > most_seconds:
            machine.faults += 1
            print(*(f"  {line}" for line in done.stdout.splitlines()[-12:]), sep="\n", flush=True)
        wall, *cpu = map(float, took.groups() if took else (0, 0, 0))
        told = page[0] if page else "no page"
        print(f"{name}: {told}, {wall:.1f} s (at most {most_seconds}), {sum(cpu):.1f} s of processor", flush=True)


def used(machine, prefix, load, version, pages):
    """All that a user does with what is installed below a prefix, the walks of some pages among it."""
    machine.tries("the sums of PROVED", SUMS.format(prefix=prefix), prefix)
    machine.tries("README's first session", SESSION.format(version=version), f"{WALK}{prefix}")
    folder = f"{WALK}{prefix}/walk"
    files = "\n".join(f"streetsim-example {name} --out ." for name in EXAMPLES)
    machine.tries("the walks' files", files, folder)
    for page in pages:
        for heading in SECTIONS[page]:
            machine.faults += walk(page, heading, lambda body: machine.runs(body, folder))
    machine.tries("a page in one command", OPEN.format(version=version).replace("/usr", prefix), folder)
    opened(machine)
    machine.tries("a manual page", MANUAL.format(prefix=prefix))
    machine.tries("completion", COMPLETION.format(load=load))
    machine.tries("a live page", LIVE, folder)


def package(machine, name, version, pages):
    """The trial of Debian's package."""
    files_before = machine.files()
    machine.tries(f"apt-get install ./{name}", f"apt-get install -qy ./{name}", "/root")
    load = "set +eu; . /usr/share/bash-completion/bash_completion; _completion_loader streetsim-run; "
    load += "_completion_loader streetsim-plot; _completion_loader streetsim; set -e"
    used(machine, "/usr", load, version, pages)
    machine.tries("apt-get purge streetsim", "apt-get purge -qy streetsim", "/root")
    machine.leaves_nothing(files_before)


def wheel(machine, name, version):
    """The trial of the wheel."""
    machine.tries("an environment", f"python3 -m venv --system-site-packages {VENV}", "/root")
    machine.path = f"{VENV}/bin:{SYSTEM_PATH}"
    in_venv = machine.root / VENV.lstrip("/")
    before = {path for path in in_venv.rglob("*") if path.suffix != ".pyc" and path.name != "__pycache__"}
    machine.tries(f"pip install {name}", f"pip install -q --no-index ./{name}", "/root")
    load = f". {VENV}/share/bash-completion/completions/streetsim"
    used(machine, VENV, load, version, ("../README", "README"))
    machine.tries("pip uninstall", "pip uninstall -qy streetsim-tools", "/root")
    left = {path for path in in_venv.rglob("*") if path.is_file() and path.suffix != ".pyc"} - before
    machine.tells_left(map(str, left))


def main_installed(argv: list[str]) -> int | None:
    """Whether package and wheel work on a fresh Debian 12 without a network.

    Takes five minutes, the first time ten; needs root, mmdebstrap.

    FILE is the archive of a Debian 12 with python3, matplotlib, scipy and sumo, and neither the kit nor a compiler:
    where it is not there, Debian's mmdebstrap makes it, which takes the network and some minutes. In a copy of it, cut
    off from every network, first the package is installed and then, once that is purged and has left nothing, the wheel
    in an environment. Of each: the sums of PROVED, README's first session, walks with what they print (of the package
    all, or those of --walks; of the wheel those of both README), a page in one command, pages of five networks with the
    seconds that each takes on two processors, a manual page, completion, and a live page that answers. The status is 1
    where anything is other than it should be.
    """
    parser = shared.parser_of(main_installed, program=False)
    parser.add_argument("folder", metavar="FOLDER", type=Path)
    parser.add_argument("--base", metavar="FILE", type=Path, required=True)
    parser.add_argument("--walks", metavar="PAGES", default=",".join(SECTIONS), help="pages, with commas between")
    args = parser.parse_args(argv)
    start = time.monotonic()
    if not args.base.exists():
        args.base.parent.mkdir(parents=True, exist_ok=True)
        words = ["mmdebstrap", "--quiet", "--variant=minbase", f"--include={INCLUDED}", "bookworm", args.base, MIRROR]
        subprocess.run(words, check=True)
        print(f"{args.base} is made, {(time.monotonic() - start) / 60:.1f} min", flush=True)
        start = time.monotonic()
    subprocess.run(["sha256sum", "--quiet", "-c", "SHA256SUMS"], cwd=args.folder, check=True)
    [deb], [whl] = args.folder.glob("streetsim_*_amd64.deb"), args.folder.glob("streetsim_tools-*.whl")
    version = deb.name.split("_")[1]
    with tempfile.TemporaryDirectory(prefix="streetsim-installed-", dir=args.base.parent) as root:
        subprocess.run(["tar", "-xpf", args.base.resolve(), "-C", root], check=True)
        os.chmod(root, 0o755)
        machine = Machine(Path(root).resolve())
        subprocess.run(["cp", deb, whl, machine.root / "root"], check=True)
        package(machine, deb.name, version, args.walks.split(","))
        wheel(machine, whl.name, version)
    told = f"{machine.faults} things are other than they should be" if machine.faults else "all is as it should be"
    print(f"{told}, {(time.monotonic() - start) / 60:.1f} min ({TOP.name}, Debian 12, no network)")
    return 1 if machine.faults else 0


COPIED = ("tools", "docs", "examples", "debian", "bench", "dev")
COPIED += ("README.md", "SECURITY.md", "CHANGELOG.md", "CONTRIBUTING.md")
RULES = """[run]
parallel = True
data_file = {folder}/data
context = ${{TESTED-}}
source = {top}/tools/streetsim
"""
# What each process of a map's making begins with. Of the process of the tests it names each test, and the preparation
# of each class, as the context from then on, and writes: the name, the seconds, whether it passed.
STARTED = '''import os, sys, time
import coverage
coverage.process_startup()
if "unittest" in sys.orig_argv and "TESTED_TIMES" in os.environ:
    import unittest
    def told(name, work, well):
        os.environ["TESTED"] = name
        coverage.Coverage.current().switch_context(name)
        begin = time.monotonic()
        try:
            return work()
        finally:
            with open(os.environ["TESTED_TIMES"], "a") as file:
                print(name, round(time.monotonic() - begin, 3), int(well()), file=file)
            os.environ["TESTED"] = ""
            coverage.Coverage.current().switch_context("")
    def ill(result):
        return len(result.errors) + len(result.failures) + len(result.skipped)
    run, prepare = unittest.TestCase.run, unittest.TestSuite._handleClassSetUp
    def noted(self, result=None):
        before = ill(result)
        return told(self.id(), lambda: run(self, result), lambda: ill(result) == before)
    def prepared(self, test, result):
        kind = type(test)
        if kind is getattr(result, "_previousTestClass", None):
            return prepare(self, test, result)
        return told(kind.__module__ + "." + kind.__qualname__, lambda: prepare(self, test, result), lambda: True)
    unittest.TestCase.run, unittest.TestSuite._handleClassSetUp = noted, prepared
'''


def copy_of(top):
    """Puts the tools, and what their tests read, into a folder, where they are not there yet."""
    top.mkdir(parents=True, exist_ok=True)
    for name in COPIED:
        source, target = shared.TOP / name, top / name
        if not target.exists():
            copy = shutil.copytree if source.is_dir() else shutil.copy
            copy(source, target, **({"ignore": shutil.ignore_patterns("__pycache__")} if source.is_dir() else {}))
    return top


def tested(top, names, most_seconds, more=None):
    """What fails of some tests in a copy at `top`: the first one's name, or those that were run where none is told, as
    they took more than `most_seconds`; nothing where all pass."""
    words = [sys.executable, "-W", "ignore", "-m", "unittest", *(() if more else ("-f",)), *names]
    env = {**os.environ, "PYTHONDONTWRITEBYTECODE": "1", **(more or {})}
    with tempfile.TemporaryFile("w+") as error_file:
        streams = {"stdin": subprocess.DEVNULL, "stdout": subprocess.DEVNULL, "stderr": error_file}
        with subprocess.Popen(words, cwd=top / "tools/tests", env=env, start_new_session=True, **streams) as process:
            try:
                status = process.wait(most_seconds)
            except subprocess.TimeoutExpired:
                status = None
            finally:
                with contextlib.suppress(ProcessLookupError):  # also what the tests left behind
                    os.killpg(process.pid, signal.SIGKILL)
        error_file.seek(0)
        found = re.search(r"^(?:FAIL|ERROR): \S+ \((\S+)\)", error_file.read(), re.MULTILINE)
    return () if status == 0 else (found[1],) if found and found[1].count(".") == 2 else tuple(names)


def keep_coverage(top, module, most_seconds):
    """Runs a module of tests in a copy, and keeps which lines its tests pass, and {test: (seconds, passed)}."""
    from coverage import CoverageData, CoverageException

    folder = top / "map" / module
    shutil.rmtree(folder, ignore_errors=True)
    (folder / "start").mkdir(parents=True)
    (folder / "start/sitecustomize.py").write_text(STARTED)
    (folder / "rules").write_text(RULES.format(folder=folder, top=top))
    more = {"COVERAGE_PROCESS_START": "rules", "PYTHONPATH": "start", "TESTED_TIMES": "times"}
    begin = time.monotonic()
    tested(top, [module], most_seconds, {name: str(folder / file) for name, file in more.items()})
    coverage = CoverageData(str(folder / "whole"))
    for part in folder.glob("data.*"):
        one = CoverageData(str(part))
        with contextlib.suppress(CoverageException):  # of a process that was ended while it wrote
            one.read()
            coverage.update(one)
        part.unlink()
    coverage.write()
    times = {}
    for line in (folder / "times").read_text().splitlines() if (folder / "times").exists() else ():
        name, seconds, well = line.split()
        times[name] = (float(seconds), well == "1")
    (folder / "times.json").write_text(json.dumps(times))
    good = sum(well for _, well in times.values())
    print(f"{module}: {time.monotonic() - begin:.0f} s, {good} of {len(times)} pass", flush=True)


def map_of(top, modules, jobs, most_seconds):
    """({test or class: seconds}, {file: {line: names of tests and classes}}) of those modules; made where lacking."""
    from coverage import CoverageData

    lacking = [module for module in modules if not (top / "map" / module / "times.json").exists()]
    with ThreadPoolExecutor(jobs) as pool:
        list(pool.map(lambda module: keep_coverage(top, module, most_seconds), lacking))
    seconds, lines = {}, {}
    for module in modules:
        times = json.loads((top / "map" / module / "times.json").read_text())
        seconds |= {name: took for name, (took, well) in times.items() if well}
        data = CoverageData(str(top / "map" / module / "whole"))
        data.read()
        for path in data.measured_files():
            found = lines.setdefault(os.path.relpath(path, top / "tools/streetsim"), {})
            for line, names in data.contexts_by_lineno(path).items():
                found.setdefault(line, set()).update(name for name in names if name in seconds)
    return seconds, lines


def runs_of(names, seconds):
    """[(seconds, tests of one module)] that names of tests and classes come to, the quickest first."""
    whole_classes = {name for name in names if any(other.startswith(f"{name}.") for other in seconds)}
    tests = {one for name in whole_classes for one in seconds if one.startswith(f"{name}.")}
    tests |= set(names) - whole_classes
    classes = {}
    for test in sorted(tests):
        classes.setdefault(test.rpartition(".")[0], []).append(test)
    totals = {kind: seconds.get(kind, 0) + sum(seconds[test] for test in chosen) for kind, chosen in classes.items()}
    return sorted((totals[kind], sorted(chosen, key=seconds.__getitem__)) for kind, chosen in classes.items())


OPPOSITES = {
    ast.Lt: "<=", ast.LtE: "<", ast.Gt: ">=", ast.GtE: ">", ast.Eq: "!=", ast.NotEq: "==", ast.In: "not in",
    ast.NotIn: "in", ast.Is: "is not", ast.IsNot: "is", ast.Add: "-", ast.Sub: "+",
}  # fmt: skip
SLOWER = 10  # times a class of tests may take what it took, and
SPARE = 60  # seconds more, before a change counts as noticed, by its endless loop
QUICK = 1.0  # seconds of tests, of changes that are kept


def places(path):
    """(line of a function, line and columns of a place, the text that takes its place) of all functions of a file."""
    text = path.read_text()
    lines = text.split("\n")
    for function in ast.walk(ast.parse(text)):
        if isinstance(function, ast.FunctionDef):
            for node in ast.walk(function):
                if (changed := replacement(node)) and node.lineno == node.end_lineno:
                    place = (node.lineno, node.col_offset, node.end_col_offset)
                    if stands(lines[node.lineno - 1].encode()[place[1] : place[2]].decode(errors="replace"), node):
                        yield function.lineno, place, changed


def stands(text, node):
    """Whether a node is what its place has: places within texts with values are not."""
    with contextlib.suppress(SyntaxError, IndexError):
        return ast.dump(ast.parse(text).body[0]) in (ast.dump(node), ast.dump(ast.Expr(node)))
    return False


def replacement(node):
    """What takes the place of a node: of a number, a comparison, a sum, a minus or a returned value; None of others."""
    if isinstance(node, ast.Constant) and type(node.value) in (int, float):
        return repr(node.value + 1)
    if isinstance(node, ast.Compare) and len(node.ops) == 1 and (sign := OPPOSITES.get(type(node.ops[0]))):
        return f"({ast.unparse(node.left)} {sign} {ast.unparse(node.comparators[0])})"
    if isinstance(node, ast.BinOp) and (sign := OPPOSITES.get(type(node.op))):
        return f"({ast.unparse(node.left)} {sign} {ast.unparse(node.right)})"
    if isinstance(node, ast.UnaryOp) and isinstance(node.op, ast.USub):
        return ast.unparse(node.operand)
    if isinstance(node, ast.Return) and node.value is not None and not ast.unparse(node.value) == "None":
        return "return None"
    return None


@dataclass
class Change:
    """A change of a place, the tests that pass its line, in runs of (seconds, tests), and what came of it."""

    path: str
    place: tuple[int, int, int]
    text: str
    runs: list
    ran: int = 0
    noticed: tuple = ()  # (seconds of the tests of a class, those that noticed it)

    def lines(self, whole):
        """(the line of a file's bytes as it is, the line as it is changed)."""
        line, begin, end = self.place
        before = whole.split(b"\n")[line - 1]
        return before, before[:begin] + self.text.encode() + before[end:]

    @property
    def tests(self):
        return sum(len(tests) for _, tests in self.runs)

    def in_words(self, top):
        """The change in words; the file at `top` is as it was."""
        before, _ = self.lines((top / "tools/streetsim" / self.path).read_bytes())
        what = before[self.place[1] : self.place[2]].decode()
        return f"{self.path}:{self.place[0]}: {what} -> {self.text} ({self.ran} of {self.tests} tests)"

    def tried(self, top, most_seconds):
        """Makes the change in a copy at `top`, runs the tests, and takes it back."""
        file, spent = top / "tools/streetsim" / self.path, 0.0
        file_bytes = file.read_bytes()
        lines = file_bytes.split(b"\n")
        lines[self.place[0] - 1] = self.lines(file_bytes)[1]
        file.write_bytes(b"\n".join(lines))
        try:
            for seconds, tests in self.runs:
                if spent and spent + seconds > most_seconds:
                    return
                spent, self.ran = spent + seconds, self.ran + len(tests)
                if failed := tested(top, tests, SLOWER * seconds + SPARE):
                    self.noticed = seconds, failed
                    return
        finally:
            file.write_bytes(file_bytes)

    def entry(self, top):
        """What the list of tools/tests has of a change that was noticed quickly, of a line that its file has once."""
        whole = (top / "tools/streetsim" / self.path).read_bytes()
        before, after = (line.decode().strip() for line in self.lines(whole))
        if self.noticed and self.noticed[0] < QUICK and whole.decode().count(before) == 1:
            return [self.path, before, after, *self.noticed[1]]
        return None


def functions(top, lines):
    """{(file, line of a function): its places that a test passes, with their tests}."""
    changes = {}
    for path in sorted((top / "tools/streetsim").rglob("*.py")):
        name = os.path.relpath(path, top / "tools/streetsim")
        for function, place, text in places(path):
            if names := lines.get(name, {}).get(place[0]):
                changes.setdefault((name, function), []).append((place, text, names))
    return changes


def keep(path, entries):
    """Adds changes to a list of them, but those that it has."""
    known = json.loads(path.read_text()) if path.exists() else []
    new = [entry for entry in entries if entry[:3] not in [one[:3] for one in known]]
    path.write_text("[\n" + ",\n".join(map(json.dumps, sorted(known + new))) + "\n]\n")


def main_mutants(argv: list[str]) -> int | None:
    """Which changes of single places in the tools no test notices.

    Takes an hour, and seconds a change; needs python3-coverage.

    A copy of the tools is in the folder of --work. First each module of tests runs there once, to know which test
    passes which line, in processes that it starts too (python3-coverage); that is kept, and modules that take more than
    --longest seconds are known as far as they came. Then N functions are drawn by the seed, of those with such a line,
    and one place of each: a number, a comparison, a sign or a returned value. The tests that pass its line run, those
    of a class together, the quickest first, until one fails or they come to --most seconds. The last lines say how many
    changes lived and which. --keep adds those that were noticed within a second to the list that
    tools/tests/test_mutants.py tries each time.
    """
    parser = shared.parser_of(main_mutants, work=True)
    parser.add_argument("count", metavar="N", type=int)
    parser.add_argument("--seed", type=int, default=1)
    parser.add_argument("--tests", default="", help="modules, with commas between")
    parser.add_argument("--jobs", type=int, default=2)
    parser.add_argument("--longest", type=float, default=240)
    parser.add_argument("--most", type=float, default=300)
    parser.add_argument("--keep", type=Path, metavar="FILE")
    args = parser.parse_args(argv)
    os.environ["STREETSIM_PROGRAM"] = args.program
    tops = [copy_of(args.work / str(number)) for number in range(args.jobs)]
    all_tests = sorted((path.stem for path in (tops[0] / "tools/tests").glob("test_*.py")))
    modules = args.tests.split(",") if args.tests else all_tests
    seconds, lines = map_of(tops[0], modules, args.jobs, args.longest)
    drawn = functions(tops[0], lines)
    chance = random.Random(args.seed)
    work = []
    for name, function in chance.sample(sorted(drawn), min(args.count, len(drawn))):
        place, text, names = chance.choice(drawn[name, function])
        work.append(Change(name, place, text, runs_of(names, seconds)))

    def try_some(at):
        """Tries the changes of a copy, by its number."""
        for change in work[at :: args.jobs]:
            change.tried(tops[at], args.most)
            print("noticed:" if change.noticed else "LIVED:  ", change.in_words(tops[at]), flush=True)

    with ThreadPoolExecutor(args.jobs) as pool:
        list(pool.map(try_some, range(args.jobs)))
    lived = [change for change in work if not change.noticed]
    open_ = sum(change.ran < change.tests for change in lived)
    told = f"{len(lived)} lived, {open_} of these with tests for which --most left no time:"
    print(f"{len(work)} changes of {len(drawn)} functions, {told}")
    print(*sorted(change.in_words(tops[0]) for change in lived), sep="\n")
    if args.keep:
        keep(args.keep, [entry for change in work if (entry := change.entry(tops[0]))])


LIVE_PAUSE = 30.0  # seconds between two looks at the memory of a live page
STEPS_AT_ONCE = 1000  # of a page that plays


def memory_of(pid):
    """The bytes that a process holds in memory, with those of the processes that it began."""
    children = [path.read_text().split() for path in Path(f"/proc/{pid}/task").glob("*/children")]
    pids = [pid, *(int(child) for some in children for child in some)]
    texts = [Path(f"/proc/{one}/status").read_text() for one in pids]
    return sum(int(re.search(r"^VmRSS:\s*(\d+) kB", text, re.MULTILINE)[1]) << 10 for text in texts)


def page_memory(folder, program, seconds):
    """The memory of a live page, by seconds, that plays as fast as it can with nobody looking."""
    words = [TOP / "tools/streetsim-live", "zero.jsonl", "--map", "zero.map.json", "--no-open", "--program", program]
    memory, begin, looked = [], time.monotonic(), 0.0
    with subprocess.Popen([*map(str, words)], cwd=folder, stdout=subprocess.PIPE, text=True) as process:
        try:
            address = process.stdout.readline().strip()
            link = http.client.HTTPConnection("127.0.0.1", urlsplit(address).port, timeout=600)
            asked = [("begin", "")]
            while (elapsed := time.monotonic() - begin) < seconds:
                verb, body = asked.pop() if asked else ("step", json.dumps({"steps": STEPS_AT_ONCE}))
                link.request("POST", f"{urlsplit(address).path}bench/{verb}", body)
                answer = link.getresponse()
                if answer.status != 200:
                    raise SystemExit(f"the page answers {answer.read()[:200]!r}")
                answer.read()
                if not memory or elapsed - looked >= LIVE_PAUSE:
                    looked = elapsed
                    memory.append((elapsed, memory_of(process.pid)))
        finally:
            process.terminate()
    return memory


def main_ends(argv: list[str]) -> int | None:
    """How commands end by a signal at a random moment, and what memory a live page takes while nobody looks.

    Takes three hours on four processors.

    Each command is started N times for a short work on the corridor, and ended by a random signal within --most
    seconds. What is wrong is told: one that does not end within half a minute, a traceback, a process or half a file
    that is left, a last line that says something else. Then a live page of the corridor plays for --seconds as fast as
    it can, and its memory is told by time, with that of its program. The status is 1 where anything was wrong.
    """
    from random_ends import WORKS, end_commands, prepare

    parser = shared.parser_of(main_ends)
    parser.add_argument("--count", metavar="N", type=int, default=300, help="starts of each command (default 300)")
    parser.add_argument("--most", metavar="S", type=float, default=2.0, help="latest moment (default 2 s)")
    parser.add_argument("--seconds", metavar="S", type=float, default=3600, help="of the live page (default 3600)")
    parser.add_argument("--seed", type=int, default=1)
    args = parser.parse_args(argv)
    os.environ["STREETSIM_PROGRAM"] = args.program
    done, faults = end_commands([*WORKS], args.count * len(WORKS), args.seed, float("inf"), args.most)
    print(f"{done.total():,} starts of {len(done)} commands, {len(faults)} of them wrong", *faults, sep="\n")
    with tempfile.TemporaryDirectory() as folder:
        prepare(Path(folder))
        memory = page_memory(folder, args.program, args.seconds)
    for seconds, size in memory:
        print(f"live page, {seconds:,.0f} s: {size / 1e6:,.1f} MB")
    return 1 if faults else 0
