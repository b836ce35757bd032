"""What the gate costs, crate by crate; and what files take that are made to hurt."""

import argparse
import contextlib
import hashlib
import json
import os
import platform
import re
import signal
import subprocess
import sys
import threading
import time
from collections import Counter, defaultdict
from itertools import groupby
from pathlib import Path

import shared

TOP = Path(__file__).resolve().parents[2]
TICKS = os.sysconf("SC_CLK_TCK")
# Seconds between two looks at the processes.
PAUSE = 0.25
KINDS = ("proof", "tests", "edits", "compiled")
HEAD = (
    "| Crate | Code lines | Definition and proof lines | Functions | Tests | Edits | Proof, s | Tests, s | "
    "Edits, s | Compiling, s |"
)
# The begin of a crate's part of the gate's output, the last line of a check,
# and what the gate says of a check and of edits.
PART = re.compile(r"== \w")
VERDICT = re.compile(r"logic=proved (?:tests=(\d+) )?functions=(\d+)")
PROVED = re.compile(r"rt: (\w+)(: its tests are)? proved$")
TRIED = re.compile(r"rt: must-fail (\w+)/\S+: (refused|NOT REFUSED)")
TRIED_EARLIER = re.compile(r"rt: (\w+): (\d+) of its \d+ must-fail edits were tried by an earlier run")
# Only the whole gate says so, once all is proved and each edit is refused.
GATE_PASSED = re.compile(r"^rt: ok; ", re.M)


def processes():
    """Each process that runs: its parent, its words, its folder, when it started, and its processor seconds so far."""
    by_pid = {}
    for pid in filter(str.isdigit, os.listdir("/proc")):
        try:
            fields = Path(f"/proc/{pid}/stat").read_text().rsplit(")", 1)[1].split()
            words = Path(f"/proc/{pid}/cmdline").read_bytes().decode(errors="replace").split("\0")
            folder = os.readlink(f"/proc/{pid}/cwd")
        except OSError:
            continue
        by_pid[int(pid)] = (int(fields[1]), words, folder, fields[19], (int(fields[11]) + int(fields[12])) / TICKS)
    return by_pid


def below(found, top):
    """The processes that a process started, and those that these did."""
    children = defaultdict(list)
    for pid, process in found.items():
        children[process[0]].append(pid)
    left, all_below = [top], []
    while left:
        more = children[left.pop()]
        left += more
        all_below += more
    return all_below


def kind_of(command, folder):
    """What a process of the gate is for, and the crate; or none."""
    if Path(command[0]).name != "rattle" or "--crate-name" not in command:
        return None
    crate = command[command.index("--crate-name") + 1]
    if Path(folder).name.startswith("rt-edit"):
        return crate, "edits"
    if "--test" in command:
        return crate, "tests"
    return crate, "compiled" if "--crate-checked" in command else "proof"


class Watch:
    """The processor seconds of each process below one, as they were seen last, and how busy the machine was."""

    def __init__(self, top):
        self.top, self.seconds, self.loads, self.start = top, {}, [], time.time()

    def look(self):
        found = processes()
        self.loads.append(os.getloadavg()[0])
        for pid in below(found, self.top):
            _, words, folder, started, seconds = found[pid]
            kind = kind_of(words, folder)
            if kind:
                self.seconds[pid, started] = (*kind, seconds)

    def sums(self):
        """Processor seconds by crate and kind."""
        total = Counter()
        for crate, kind, seconds in self.seconds.values():
            total[crate, kind] += seconds
        return total

    def minutes(self):
        return (time.time() - self.start) / 60

    def load(self):
        return sum(self.loads) / len(self.loads) if self.loads else 0.0


def done_in(output):
    """What a run has done itself: {(crate, kind): functions that were proved, tests that were,
    edits that were tried}."""
    counts, tried, count = {}, Counter(), 0
    for line in output.splitlines():
        if PART.match(line):
            count = 0
        elif match := VERDICT.match(line):
            count = int(match[1] or match[2])
        elif match := PROVED.match(line):
            counts[match[1], "tests" if match[2] else "proof"] = count
        elif match := TRIED.match(line):
            tried[match[1]] += 1
        elif match := TRIED_EARLIER.match(line):
            tried[match[1]] -= int(match[2])
    return counts | {(crate, "edits"): number for crate, number in tried.items() if number > 0}


def listed():
    """The crates, in the order of crates.txt."""
    return re.findall(r"^(\w+)[^:#\n]*:", (TOP / "crates.txt").read_text(), re.M)


def files_of(crate):
    """The files that a crate's proof reads."""
    folders = [TOP / "crates" / crate / part for part in ("src", "specs", "proofs")]
    return sorted(path for folder in folders for path in folder.rglob("*") if path.is_file())


def sum_of(crate):
    """A sum of a crate's own files: figures of an earlier run are of the same ones."""
    whole = hashlib.sha256()
    for path in files_of(crate):
        whole.update(f"{path.relative_to(TOP)}\n".encode() + path.read_bytes())
    return whole.hexdigest()


def lines_of(crate, ending):
    """How many lines the files of a crate with this ending have."""
    return sum(path.read_text().count("\n") for path in files_of(crate) if path.suffix == ending)


def edits_of(crate):
    return len(list((TOP / "crates" / crate / "must-fail").glob("*.edit")))


def is_program(crate):
    return (TOP / "crates" / crate / "src/main.rt").exists()


def figure_kinds(crate):
    """The kinds of figures that a crate has."""
    texts = [path.read_text() for path in files_of(crate) if path.suffix == ".rt"]
    has_kind = {
        "proof": True,
        "tests": any(re.search(r"#\[test\]", text) for text in texts),
        "edits": edits_of(crate) > 0,
        "compiled": is_program(crate),
    }
    return [kind for kind in KINDS if has_kind[kind]]


def run_notes(command, output, watch, sums):
    """A run, to be kept: what it did, with its processor seconds and what was counted."""
    done, seconds = done_in(output), watch.sums()
    done |= {(crate, "compiled"): 0 for crate, kind in done if kind == "proof" and is_program(crate)}
    parts = [
        {"crate": crate, "kind": kind, "sum": sums[crate], "seconds": round(seconds[crate, kind], 1), "count": count}
        for (crate, kind), count in done.items()
        if crate in sums
    ]
    return {"command": command, "minutes": round(watch.minutes(), 1), "load": round(watch.load(), 1), "parts": parts}


def figures(runs, crate, kind, total):
    """What a crate's proof, tests or edits cost: (seconds, count, numbers of the runs), of the newest run that has
    them; edits of as many runs as tried them all. None where no run has them."""
    seconds, count, used = 0.0, 0, []
    for number, run in reversed(list(enumerate(runs))):
        for part in run["parts"]:
            if (part["crate"], part["kind"], part["sum"]) == (crate, kind, total):
                seconds, count, used = seconds + part["seconds"], count + part["count"], [number, *used]
        if used and (kind != "edits" or count >= edits_of(crate)):
            return seconds, count, used
    return None


def all_figures(runs):
    """{(crate, kind): figures or None} of all that the crates have."""
    sums = {crate: sum_of(crate) for crate in listed()}
    return {(crate, kind): figures(runs, crate, kind, sums[crate]) for crate in sums for kind in figure_kinds(crate)}


def table(figures_by_part, names, with_runs, crates=None):
    """A row for each crate, in the order of crates.txt, and the sums;
    `with_runs`: whether a row ends with the names of its runs."""
    rows = []
    for crate in crates or listed():
        of = {kind: figures_by_part.get((crate, kind)) for kind in KINDS}
        counts = [of[kind][1] if of[kind] else 0 for kind in ("proof", "tests")]
        numbers = [lines_of(crate, ".rt"), lines_of(crate, ".antt"), *counts, edits_of(crate)]
        rows.append([crate, *numbers, *(round(of[kind][0]) if of[kind] else 0 for kind in KINDS)])
    rows.append(["all crates", *(sum(row[column] for row in rows) for column in range(1, len(rows[0])))])
    lines = [[row[0], *(f"{number:,}" if number else "" for number in row[1:])] for row in rows]
    for line in lines[:-1] if with_runs else ():
        figured = filter(None, (figures_by_part.get((line[0], kind)) for kind in KINDS))
        used = {number for figure in figured for number in figure[2]}
        line.append(", ".join(names[number] for number in sorted(used)))
    for line in lines:
        for column, kind in enumerate(KINDS):
            if (line[0], kind) in figures_by_part and figures_by_part[line[0], kind] is None:
                line[column - len(KINDS) - with_runs] = "not known"
    return [f"| {' | '.join(line)} |" for line in lines]


def processor():
    names = re.findall(r"^model name\s*: (.*)", Path("/proc/cpuinfo").read_text(), re.M)
    return f"{len(os.sched_getaffinity(0))} cores ({names[0] if names else platform.machine()})"


def minutes_of(parts):
    return sum(part["seconds"] for part in parts) / 60


def rows_of_runs(runs, names):
    return [
        f"| {name} | `{runs[number]['command']}` | {runs[number]['minutes']:.0f} | "
        f"{minutes_of(runs[number]['parts']):.0f} | {runs[number]['load']:.1f} |"
        for number, name in names.items()
    ]


def told_of(runs, names):
    """What is said of the runs whose figures the table has."""
    if len(names) == 1:
        [run] = [runs[number] for number in names]
        return (
            f"of a run of `{run['command']}` in which all was proved: {run['minutes']:.0f} minutes by the clock, "
            f"{minutes_of(run['parts']):.0f} processor minutes of checks, mean load {run['load']:.1f}."
        )
    rows = rows_of_runs(runs, names)
    head = "| Run | Command | Minutes by the clock | Processor minutes of checks | Mean load |\n|---|---|---|---|---|"
    return "\n".join(
        [
            "of these runs, each of which proved what no earlier one had, up to one of the whole gate that passed:",
            "",
            head,
            *rows,
        ]
    )


def write(runs, gaps):
    """Writes docs/COSTS.md of the figures of some runs, and gives whether it could."""
    figures_by_part = all_figures(runs)
    lacking = [f"{crate} ({kind})" for (crate, kind), figure in figures_by_part.items() if figure is None]
    if lacking:
        print(f"costs: no watched run has what the gate took from earlier ones: {', '.join(lacking)}", file=sys.stderr)
    if lacking and not gaps:
        print(
            "costs: docs/COSTS.md stays; bench/run costs rt ci --anew NAME.. proves them again, "
            "--gaps writes it all the same",
            file=sys.stderr,
        )
        return False
    used = sorted({number for figure in figures_by_part.values() if figure for number in figure[2]})
    names = {number: str(at) for at, number in enumerate(used, 1)}
    kit = subprocess.run(["rt", "version"], capture_output=True, text=True, check=False).stdout.strip()
    with_runs = len(names) > 1
    whose = (
        "The last column says which runs a crate's figures are of."
        if with_runs
        else "Other work on the machine makes them greater."
    )
    text = f"""# What the gate costs

Written by [bench/run costs](../bench/repository/costs.py), on {processor()}, with {kit or "an unknown kit"},
{told_of(runs, names)}

Lines are those of `.rt` and of `.antt` files. Functions were proved, tests passed, edits were refused. \
The columns of seconds are processor
seconds: of the proof, of the proof with its tests, of all edits, and of compiling programs. \
A crate is proved once more for its tests, and once
more under its edits.
{whose}

{HEAD}{" Runs |" if with_runs else ""}
|{"---|" * (10 + with_runs)}
"""
    (TOP / "docs/COSTS.md").write_text(text + "\n".join(table(figures_by_part, names, with_runs)) + "\n")
    return True


def cells_of(line):
    return [cell.strip() for cell in line.strip("|").split("|")]


def summed(lines):
    """The row of all crates, of theirs."""
    columns = list(zip(*(cells_of(line)[1:10] for line in lines), strict=True))
    sums = [sum(int(cell.replace(",", "")) for cell in column if cell[:1].isdecimal()) for column in columns]
    return f"| {' | '.join(['all crates', *(f'{number:,}' if number else '' for number in sums)])} |"


def insert(runs, crates):
    """Puts the rows of some crates into docs/COSTS.md, of the runs here, behind whose runs these are told;
    the other rows stay as they are. Gives whether it could."""
    path, figured = TOP / "docs/COSTS.md", all_figures(runs)
    lines = path.read_text().splitlines()
    run_lines = [place for place, line in enumerate(lines) if re.match(r"\| \d+ \| `", line)]
    figures_by_part = {pair: figure for pair, figure in figured.items() if pair[0] in crates}
    lacking = [
        *(f"{crate} ({kind})" for (crate, kind), figure in figures_by_part.items() if figure is None),
        *sorted(set(crates) - set(listed())),
    ]
    if lacking or not run_lines:
        print(
            f"costs: no watched run has {', '.join(lacking)}" if lacking else "costs: the table is of one run",
            file=sys.stderr,
        )
        return False
    used = sorted({number for figure in figures_by_part.values() for number in figure[2]})
    names = {number: str(place) for place, number in enumerate(used, int(cells_of(lines[run_lines[-1]])[0]) + 1)}
    head = lines.index(f"{HEAD} Runs |")
    rows = {cells_of(line)[0]: line for line in lines[head + 2 : -1]}
    rows |= dict(zip(crates, table(figures_by_part, names, True, crates)))
    kept = [rows[crate] for crate in listed() if crate in rows]
    behind = run_lines[-1] + 1
    lines = [*lines[:behind], *rows_of_runs(runs, names), *lines[behind : head + 2], *kept, summed(kept)]
    path.write_text("\n".join(lines) + "\n")
    return True


def run_gate(command):
    """Runs the gate, passes its output on, and gives the output and the watch; also where it is ended by Ctrl-C."""
    output, run_ended = [], threading.Event()
    with subprocess.Popen(command, stdout=subprocess.PIPE, text=True, errors="replace") as gate:
        watch = Watch(gate.pid)
        looking = threading.Thread(target=look_until, args=(watch, run_ended))
        looking.start()
        with contextlib.suppress(KeyboardInterrupt):
            for line in gate.stdout:
                output.append(line)
                print(line, end="", flush=True)
        run_ended.set()
        looking.join()
    return "".join(output), watch


def look_until(watch, ended):
    """Looks at the processes until the gate has ended."""
    while not ended.wait(PAUSE):
        watch.look()


def beside(pid, log):
    """Watches a gate that runs, until it has ended."""
    watch = Watch(pid)
    with contextlib.suppress(KeyboardInterrupt):
        while Path(f"/proc/{pid}").exists():
            watch.look()
            time.sleep(PAUSE)
    return Path(log).read_text(errors="replace"), watch


def watched(words):
    """What a run has printed, which is watched, and what is noted of it."""
    sums = {crate: sum_of(crate) for crate in listed()}
    name = " ".join(words.command or command_of(words.beside))
    output, watch = beside(words.beside, words.log) if words.beside else run_gate(words.command)
    return output, run_notes(name, output, watch, sums)


def command_of(pid):
    """The words of a process, the last part of the first one."""
    words = Path(f"/proc/{pid}/cmdline").read_text(errors="replace").rstrip("\0").split("\0")
    at = 1 if Path(words[0]).name.startswith("python") and len(words) > 1 else 0
    return [Path(words[at]).name, *words[at + 1 :]]


def main_costs(argv: list[str]) -> int | None:
    """What the gate costs, crate by crate; writes docs/COSTS.md from a run of the gate that passed.

    Takes as long as the gate; needs the kit.

        bench/run costs ./test                     runs the gate and watches it
        bench/run costs rt ci NAME..               runs and watches a part of it
        bench/run costs --beside PID --log FILE    watches a gate, or a part, that runs and whose output goes to FILE
        bench/run costs --log FILE                 writes the table once more: FILE has the output of a gate that passed
        bench/run costs --rows NAME,..             puts the rows of some crates into the table, of the runs that were
                                                   watched; the others stay

    `rt ci` proves and tries nothing again that an earlier run on this machine passed and that has not changed since.
    What each watched run proved and tried is noted in out/costs.json; where the gate takes something from an earlier
    run, its figure is that run's, which the table then says. Where no watched run has it (it was ./build's, say), the
    table is not written, and what is lacking is named: bench/run costs rt ci --anew NAME.. proves it and the crates
    below again, and --gaps writes the table all the same.
    """
    parser = shared.parser_of(main_costs, program=False)
    parser.add_argument("--beside", type=int, metavar="PID")
    parser.add_argument("--log", metavar="FILE")
    parser.add_argument("--gaps", action="store_true")
    parser.add_argument("--rows", metavar="NAME,..")
    parser.add_argument("command", nargs=argparse.REMAINDER)
    args = parser.parse_args(argv)
    if bool(args.command) + bool(args.log) + bool(args.rows) != 1 or args.beside and not args.log:
        parser.error("give a command, or --log, with or without --beside, or --rows")
    signal.signal(signal.SIGTERM, signal.default_int_handler)
    notes = TOP / "out/costs.json"
    runs = json.loads(notes.read_text()) if notes.exists() else []
    if args.rows:
        return 0 if insert(runs, args.rows.split(",")) else 1
    if args.command or args.beside:
        output, run = watched(args)
        runs += [run] if run["parts"] else []
        notes.parent.mkdir(exist_ok=True)
        notes.write_text(json.dumps(runs, indent=1) + "\n")
        print(f"costs: {len(run['parts'])} parts of this run are noted in {notes}", file=sys.stderr)
    else:
        output = Path(args.log).read_text(errors="replace")
    if not GATE_PASSED.search(output):
        print("costs: this was not the gate, or it has not passed; docs/COSTS.md stays", file=sys.stderr)
        return 1
    return 0 if write(runs, args.gaps) else 1


def main_hostile(argv: list[str]) -> int | None:
    """Which hostile files are not refused, and what the others take.

    Takes two minutes.

    Each is read in a process of its own, and is to end within 10 s with status 2 and one line, with at most 512 MB more
    than a small valid file takes at its peak. It prints the greatest of each kind.
    """
    made = shared.parser_of(main_hostile)
    made.add_argument("kinds", nargs="*")
    args = made.parse_args(argv)
    words = [sys.executable, str(shared.TOP / "tools/tests/hostile.py"), *args.kinds]
    environment = {**shared.with_sumo(), "STREETSIM_PROGRAM": str(args.program)}
    done = subprocess.run(words, env=environment, stdout=subprocess.PIPE, text=True, check=True)
    ill = 0
    for kind, forms in groupby(map(json.loads, done.stdout.splitlines()), lambda one: one[0]):
        (*_, valid), *forms = forms
        slowest, largest = (max(forms, key=lambda one: one[at]) for at in (5, 6))
        most = (largest[6] - valid) >> 20
        print(f"{kind}: {len(forms)} files, slowest {slowest[5]:.1f} s ({slowest[1]}), {most} MB more ({largest[1]})")
        for _, form, _, status, told, seconds, peak in forms:
            if (status, told.count("\n")) != (2, 1) or seconds > 10 or peak - valid > 512 << 20:
                ill += 1
                print(f"  NOT REFUSED: {form}: status {status}, {seconds:.1f} s, {told[:200]!r}")
    return 1 if ill else 0
