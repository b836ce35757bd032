"""The page of streetsim-open: a report, and with it queues over time, the vehicles as they drive, and what to do
next."""
import argparse
import base64
import os
import shlex
import shutil
import tempfile
from collections.abc import Iterator, Sequence
from html import escape
from pathlib import Path
from types import MappingProxyType

from streetsim.base.files import Fault, whole_file
from streetsim.cli.play import page_of, played_steps
from streetsim.cli.report import DETAIL, interval_of
from streetsim.model.folder import Folder
from streetsim.model.sources import sources_of
from streetsim.report.light_timings import timings_of
from streetsim.report.page_background import what_was_run
from streetsim.report.page_making import PageWishes, report_of
from streetsim.report.page_markup import Section, facts, page
from streetsim.report.page_summary import doubted
from streetsim.report.picture_files import load_pyplot, save_picture
from streetsim.report.picture_plots import draw_queues
from streetsim.report.run_tables import Runs, read_folders, read_runs
from streetsim.report.timing_sheets import Timings, clashes

SEARCH = (
    "(some minutes; Ctrl-C ends it with the best so far; where vehicles that turn wait for gaps in oncoming traffic, "
    'the plan is trusted only if SUMO judges it too: <span class="ids">--verify-sumo</span>)'
)
BY_SUMO = (
    "(some minutes; Ctrl-C ends it with the best so far; SUMO judges the plan too, as vehicles that turn wait for gaps "
    "in oncoming traffic)"
)
ONLY_LANE = (
    "(the only lane of its street: vehicles that come meanwhile wait; streetsim-route --close finds ways round it)"
)
PLAYED_SECONDS = 600  # seconds that the page plays
SHORT_WORD = 40  # letters of a word of a command that stays on one line
ROUND_SECONDS = (3600, 1800, 900, 300, 60, 10, 1)  # seconds between the clock times that a command advises
STYLE = "width: 100%; height: min(75vh, 600px); border: 1px solid #555"
FRAME = f'<iframe title="The vehicles as they drive" style="{STYLE}" srcdoc="{{page}}"></iframe>'


def write_page(path: str, folder: str, run: str) -> None:
    """Writes the page of a folder that streetsim-run wrote; run: the path of its run file, empty where that is not
    known. Fault where the folder cannot be read, or the page not be written."""
    try:
        runs = read_runs(folder)
        shown = interval_of([runs], argparse.Namespace(interval=None))
        timings = timings_of(runs)
        more = list(sections(runs, shown[0], run, timings))
        wishes = PageWishes(runs.name, "", DETAIL, False, clashes(timings, runs), first_sections=more)
        text = report_of([runs], shown, wishes)
    except Fault as fault:
        text = page_without_junctions(read_folders(folder), run, str(fault))
    with whole_file(path) as file:
        file.write(text)


def page_without_junctions(runs: Runs, run: str, reason: str) -> str:
    """The page of a run that has no junction tables, as HTML; reason: there are none, or they cannot be shown."""
    notes = "".join(f'<p class="doubt">{escape(text)}</p>' for text in runs.first_folder.notes)
    lead = f"{notes}<p>No junctions are shown: {escape(reason)}</p>"
    doubts = Section("doubts", "What is doubted", doubted([runs]))
    run_section = Section("run", "What was run", what_was_run([runs]))
    start = runs.first_folder.setting.get("start", 0)
    return page(runs.name, lead, [*sections(runs, start, run), doubts], [run_section])


def sections(runs: Runs, begin: int, run: str, timings: Timings = MappingProxyType({})) -> Iterator[Section]:
    """What the page has beside a report: queues, the player from a clock on, and what next; what cannot be drawn is
    told there. timings: programs of lights, of those that are known."""
    for name, title, content in (
        ("queues", "Queues over time", lambda: queues_html(runs.first_folder)),
        ("player", "The vehicles as they drive", lambda: player_html(runs.first_folder, begin)),
        ("next", "What next", lambda: next_steps_html(runs, run, search_words(timings))),
    ):
        try:
            yield Section(name, title, content())
        except Fault as fault:
            yield Section(name, title, f"<p>{escape(str(fault))}</p>")


def queues_html(folder: Folder) -> str:
    """The picture of the queues of a run over time, as HTML. Fault where it cannot be drawn."""
    with tempfile.TemporaryDirectory() as temporary:
        save_picture(draw_queues(load_pyplot(), folder), f"{temporary}/queues.png")
        packed = base64.b64encode(Path(temporary, "queues.png").read_bytes()).decode()
    return f'<figure><img alt="Queues at the stop lines over time" src="data:image/png;base64,{packed}"></figure>'


def player_html(folder: Folder, begin: int) -> str:
    """The player of PLAYED_SECONDS of a run from a clock on, in a frame, as HTML. Fault where nothing can be played."""
    step = 1 if folder.has_each_second() else None
    text = page_of([played_steps(folder, begin, begin + PLAYED_SECONDS, step)], folder.path)
    smooth = ["--step", str(step)] if step else []
    whole = f'<p class="small">Ten minutes of it; all: {command("streetsim-play", folder.path, *smooth)}.</p>'
    return FRAME.format(page=escape(text)) + whole


def command(*arguments: str) -> str:
    """A command of the shell, as HTML, of which no line ends within a short word."""
    quoted = (escape(shlex.quote(word)) for word in arguments)
    shown_words = (f'<span class="ids">{word}</span>' if len(word) <= SHORT_WORD else word for word in quoted)
    return f"<code>{' '.join(shown_words)}</code>"


def search_words(timings: Timings) -> list[str]:
    """Words that a search for signals needs, so that its result is trusted: where SUMO is installed and, at some light,
    vehicles that turn wait for gaps in others."""
    return ["--verify-sumo"] if shutil.which("sumo") and any(program.has_gaps() for program in timings.values()) else []


def next_steps_html(runs: Runs, run: str, search: Sequence[str]) -> str:
    """Five questions, each with the command that answers it, as HTML; run: path of the run file, or none; search:
    further words of a search for signals."""
    folder = runs.first_folder
    name = run or folder.setting.get("run", "RUN.jsonl")
    net = net_of(folder, name)
    lane, metres, is_only = lane_to_close(folder)
    works = f"{lane}:{int(metres / 2)}-{int(metres / 2 + min(metres / 4, 100))}:{closing_times(folder)}"
    edge, seeds = lane.rpartition("_")[0], ("--seeds", "1-5", "--junctions", "900")
    joint = () if is_only or len(folder.mapping.links_of[edge]) == 1 else ("--joint", edge)
    folder_path = os.path.normpath(folder.path)
    questions = (
        (
            "Would another cycle, other greens or offsets be better?",
            command("streetsim-signals", name, "--plans", net, *search) + f"<br>{BY_SUMO if search else SEARCH}",
        ),
        (
            "What if a lane is closed?",
            "<br>".join((
                command("streetsim-run", name, *joint, *seeds, "--out", "before"),
                command("streetsim-run", name, "--close", works, *seeds, "--out", "works"),
                command("streetsim-report", "before", "works"), *([escape(ONLY_LANE)] if is_only else []),
            )),  # fmt: skip
        ),
        ("Does it fit counts?", command("streetsim-compare", folder_path, "--counts", "counts.csv")),
        ("Is it chance? Five other days:", command("streetsim-run", name, *seeds)),
        ("A report to hand in:", command("streetsim-report", folder_path, "--title", "Title", "-o", "report.html")),
    )
    return facts(questions)


def net_of(folder: Folder, run: str) -> str:
    """The path of the network that a run was imported from, as its map keeps it, else a word that stands for it."""
    try:
        return os.path.relpath(sources_of(folder.mapping.sources, run, run).net)
    except Fault:
        return os.path.basename(folder.mapping.sources.get("net", "NET.net.xml"))


def lane_to_close(folder: Folder) -> tuple[str, float, bool]:
    """(name, metres, whether it is the only one of its edge) of a lane of a run that works may close: of the longest
    edge, one with more lanes, over which vehicles change, and with streets that lead to it where there are such."""
    mapping = folder.mapping
    firsts = {edge: mapping.links[links[0]] for edge, links in mapping.links_of.items()}
    lanes = {edge: sum(len(mapping.links[at].lanes) for at in links) for edge, links in mapping.links_of.items()}
    arrivals = {(mapping.links[turn.next].edge, mapping.links[turn.link].begin) for turn in mapping.turns}
    led_to = {edge for edge, begin in arrivals if begin != firsts[edge].end}
    whole = {edge for edge, links in mapping.links_of.items() if len(links) == 1}
    edge = max(firsts, key=lambda name: (lanes[name] > 1, name in led_to, name in whole, firsts[name].metres))
    return f"{edge}_{min(firsts[edge].lanes)}", firsts[edge].metres, lanes[edge] == 1


def closing_times(folder: Folder) -> str:
    """About the middle half of the time in which vehicles depart, as --close takes it: round clock times, and of less
    than four minutes round seconds."""
    departs = [*map(int, folder.trip_columns("depart")[0])] or [folder.setting.get("start", 0)]
    start, until = min(departs), min(max(departs), folder.setting.get("until", max(departs)))
    quarter = max(1, (until - start) // 4)
    step = next(step for step in ROUND_SECONDS if quarter >= step)
    clocks = [step * round(second / step) for second in (start + quarter, max(until - quarter, start + 2 * quarter))]
    return "-".join(f"{clock // 3600:02d}:{clock // 60 % 60:02d}" if step >= 60 else str(clock) for clock in clocks)
