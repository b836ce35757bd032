"""Commands that a signal ends at a random moment, and what they leave behind: for the tests, and for bench/."""
import os
import random
import re
import shutil
import signal
import subprocess
import tempfile
import time
from collections import Counter
from collections.abc import Sequence
from concurrent.futures import ThreadPoolExecutor
from pathlib import Path

from support import TOOLS

CORRIDOR = TOOLS / "examples/corridor"
INPUTS = ("corridor.net.xml.gz", "corridor.rou.xml", "counts.csv", "wave.add.xml")
SIGNALS = (signal.SIGINT, signal.SIGTERM, signal.SIGHUP, signal.SIGKILL)
NAMES = {signal.SIGINT: "Ctrl-C", signal.SIGTERM: "SIGTERM", signal.SIGHUP: "SIGHUP"}
SOON = 30.0  # seconds in which a command that was ended has to be gone, with all that it began
STUDY = """run = "zero.jsonl"
map = "zero.map.json"
until = 200
seeds = "1-2"
base = "given"
[variant.given]
[variant.wave]
plans = ["corridor.net.xml.gz", "wave.add.xml"]
"""
TRIPS = "".join(f'<trip id="t{at}" depart="{at}" from="WJ1" to="J5E"/>' for at in range(60))
COUNTS = "begin,end,from,to,vehicles\n0,200,WJ1,,40\n"
TIMES = "segment,begin,end,mean,n\nWJ1>J1J2,25200,28800,40,20\n"
IMPORT = "import corridor.net.xml.gz --routes corridor.rou.xml --end 120 -o zero.jsonl --map zero.map.json"
SHEET = "junction --template cross -o cross.csv"
RUN = "run zero.jsonl --map zero.map.json --until 200 --every 5 --polls --junctions 100 --rounds 0 --out zero"
# By command the words of a short work, in a folder with what IMPORT, SHEET and RUN have made.
WORKS = {
    "calibrate": "corridor.net.xml.gz --counts counts.csv --times times.csv -o drivers.json --out calibrated",
    "check": "zero",
    "compare": "zero --counts early.csv",
    "demand": "corridor.net.xml.gz --counts counts.csv -o found.rou.xml --out found",
    "example": "corridor --out examples",
    "export": "zero -o zero.geojson --projection EPSG:32632",
    "import": "corridor.net.xml.gz --routes corridor.rou.xml --end 300 -o other.jsonl --map other.map.json",
    "junction": "cross.csv --out cross",
    "live": "zero.jsonl --map zero.map.json --no-open",
    "open": "corridor.net.xml.gz corridor.rou.xml --no-open -o opened.html",
    "play": "zero -o zero.html",
    "plot": "arrivals zero -o zero.png",
    "report": "zero -o report.html",
    "route": "corridor.net.xml.gz --trips trips.rou.xml --iterations 2 --jobs 2 -o ways.rou.xml --out ways",
    "run": "zero.jsonl --map zero.map.json --until 200 --junctions 100 --rounds 0 --seeds 1-3 --jobs 2 --out seeds",
    "signals": "zero.jsonl --map zero.map.json --plans corridor.net.xml.gz --until 200 --budget 8 --seeds 1 "
    "--check-seeds 2-3 --jobs 2 -o plan.add.xml --out plan",
    "study": "study.toml --jobs 2 --out study",
    "sumo": "-n corridor.net.xml.gz -r corridor.rou.xml --end 200 --tripinfo-output trips.xml --summary-output s.xml",
}


def end_commands(
    names: Sequence[str], count: int, seed: int, seconds: float, most_seconds: float = 1.0
) -> tuple[Counter[str], list[str]]:
    """Ends commands, by turns, so many times in all (count), or as often as there is time (seconds), each within
    most_seconds; gives (how often each, what was wrong)."""
    draws, until, done, faults = random.Random(seed), time.monotonic() + seconds, Counter[str](), list[str]()
    with tempfile.TemporaryDirectory() as home, ThreadPoolExecutor(len(os.sched_getaffinity(0))) as pool:
        inputs = Path(home) / "inputs"
        inputs.mkdir()
        prepare(inputs)

        def end_one(number: int) -> None:
            """Ends one command, if there is time."""
            if time.monotonic() < until:
                name, own_draws = names[number % len(names)], random.Random(seeds[number])
                found = end_at_random(name, inputs, Path(home) / str(number), own_draws, most_seconds)
                done[name] += 1
                faults.extend(found)

        seeds = [draws.getrandbits(32) for _ in range(count)]
        list(pool.map(end_one, range(count)))
    return done, faults


def prepare(folder: Path) -> None:
    """Puts into a folder what the works need."""
    for name in INPUTS:
        shutil.copy(CORRIDOR / name, folder / name)
    texts = {"study.toml": STUDY, "trips.rou.xml": f"<routes>{TRIPS}</routes>", "times.csv": TIMES, "early.csv": COUNTS}
    for name, text in texts.items():
        (folder / name).write_text(text)
    for words in (IMPORT, SHEET, RUN):
        command = [TOOLS / f"streetsim-{words.split()[0]}", *words.split()[1:]]
        subprocess.run(command, cwd=folder, check=True, capture_output=True)


def hear() -> None:
    """Has a command hear the signals that its starter may have been told to ignore."""
    for number in NAMES:
        signal.signal(number, signal.SIG_DFL)


def end_at_random(name: str, inputs: Path, place: Path, draws: random.Random, most_seconds: float) -> list[str]:
    """Starts a command in a copy (place, which is removed again) of the folder of inputs, ends it by a random signal
    within so many seconds, and looks at what is left; gives what is wrong, a text each. The moments begin where the
    command's script does: what comes before is Python's own begin."""
    shutil.copytree(inputs, place)
    before = listing(place)
    number, wait = draws.choice(SIGNALS), draws.uniform(0, most_seconds)
    process = subprocess.Popen(
        [TOOLS / f"streetsim-{name}", *WORKS[name].split()], cwd=place, stdin=subprocess.DEVNULL,
        stdout=subprocess.DEVNULL, stderr=subprocess.PIPE, text=True, start_new_session=True, preexec_fn=hear,
    )
    try:
        await_script(process)
        try:
            process.wait(wait)
        except subprocess.TimeoutExpired:
            process.send_signal(number)
        said = process.communicate(timeout=SOON)[1]
        faults = [*wrong_end(process.returncode, number, said)]
        faults += [] if number == signal.SIGKILL else wrong_files(process.returncode, said, listing(place) - before)
        faults += [f"still there: {command}" for command in lasting(process.pid)]
    except subprocess.TimeoutExpired:
        faults = [f"still there {SOON:g} s after {number.name}"]
    finally:
        process.kill()
        process.wait()
        for pid in session_of(process.pid):
            os.kill(pid, signal.SIGKILL)
        shutil.rmtree(place)
    return [f"streetsim-{name}, {number.name} after {wait:.3f} s: {fault}" for fault in faults]


def await_script(process: subprocess.Popen[str]) -> None:
    """Waits until the script of a command has begun, which holds its signals back or has them handled."""
    until = time.monotonic() + SOON
    while process.poll() is None and time.monotonic() < until:
        status = Path(f"/proc/{process.pid}/status").read_text()
        masks = [int(re.search(rf"^{kind}:\s*(\w+)$", status, re.MULTILINE)[1], 16) for kind in ("SigBlk", "SigCgt")]
        if any(mask >> (signal.SIGTERM - 1) & 1 for mask in masks):
            return
        time.sleep(0.001)


def wrong_end(status: int, number: int, said: str) -> list[str]:
    """What is wrong with a command's status and its words, where a signal ended it."""
    if "Traceback" in said or "Fatal Python error" in said:
        return [f"a traceback: {said[-300:]}"]
    if status in (0, 1, 2) or status == -number == -signal.SIGKILL:
        return []
    if status == -number:
        return [f"the signal was not heard: {said[-300:]}"]
    if status != 128 + number:
        return [f"status {status}: {said[-300:]}"]
    last_line = said.splitlines()[-1] if said else ""
    return [] if f": ended by {NAMES[signal.Signals(number)]}: " in last_line else [f"it said {said[-300:]!r}"]


def wrong_files(status: int, said: str, new: set[str]) -> list[str]:
    """What is wrong with the new files of a command that a signal has ended."""
    halves = [name for name in new if "half" in name]
    if halves:
        return [f"half-written: {halves[:3]}"]
    if status >= 128 and new and "nothing was written" in said:
        return [f"it says that nothing was written, and there are {sorted(new)[:3]}"]
    return []


def listing(folder: Path) -> set[str]:
    """All paths below a folder."""
    return {str(path.relative_to(folder)) for path in folder.rglob("*")}


def session_of(leader: int) -> list[int]:
    """The processes of a session."""
    found = []
    for path in Path("/proc").glob("[0-9]*/stat"):
        try:
            fields = path.read_text().rpartition(")")[2].split()
        except OSError:
            continue
        if int(fields[3]) == leader and fields[0] not in "ZX":
            found.append(int(path.parent.name))
    return found


def lasting(leader: int) -> list[str]:
    """The processes of a session that are still there after SOON seconds, by their words."""
    until = time.monotonic() + SOON
    while (left := session_of(leader)) and time.monotonic() < until:
        time.sleep(0.02)
    texts = []
    for pid in left:
        try:
            texts.append(Path(f"/proc/{pid}/cmdline").read_text().replace("\0", " ")[:100])
        except OSError:
            pass
    return texts
