"""streetsim-report: a page for a council of a run's junctions, or of what another plan changes, with its appendix."""
import argparse
import os
from collections.abc import Callable, Sequence
from html import escape

from streetsim.base.files import Fault, refuse_unwritable, whole_file
from streetsim.base.report import first_few
from streetsim.base.words import Parser, add_names, integer_within, names_in, paths_in
from streetsim.cli.defaults import complete_outputs, stem_of
from streetsim.cli.given_words import given_words
from streetsim.cli.words import add_attribute, add_clock, add_files
from streetsim.demand.judging import judge_counts
from streetsim.demand.reading import read_counts
from streetsim.demand.reporting import counts_section
from streetsim.demand.seen import passed_in
from streetsim.model.folder import Folder
from streetsim.model.names import read_own
from streetsim.model.tables import write_table
from streetsim.report.light_timings import timings_of
from streetsim.report.page_making import PageWishes, report_of
from streetsim.report.page_markup import Section
from streetsim.report.page_seal import COUNTS, NAMES, Seal, beside_of, write_beside
from streetsim.report.page_summary import ranked_rows
from streetsim.report.page_table import CHANGES, change_rows
from streetsim.report.page_verdict import worst_interval
from streetsim.report.page_works import seen_in
from streetsim.report.run_series import way_back
from streetsim.report.run_tables import Runs, read_runs
from streetsim.report.timing_sheets import Timings, changed, clashes, sheets

ALL_LIGHTS = "all"  # --sheets without a value
# Words that say where a page is and what it is of; plans' names, --names and --counts are sealed beside the words.
ELSEWHERE = ("runs", "output", "csv", "names", "plan_names", "sealed", "counts")
DETAIL = 6  # junctions told with all movements
PICTURE_SECONDS = {"first": 0, "last": 600}  # seconds of the corridor's picture


def parser() -> Parser:
    """The parser of the words that streetsim-report takes."""
    tool_parser = Parser(
        prog="streetsim-report", renamed={"--plans": "--plan-names", "--begin": "--interval"},
        examples=(
            "streetsim-report zero-seeds -o report.html",
            'streetsim-report zero-seeds wave-seeds --plan-names "all at once" "green wave" --sealed -o report.html',
        ),
        description="Makes one HTML page, without anything from outside, of folders that streetsim-run wrote with "
        "--junctions: first a page for a council with what was asked, a map, the verdict, what it costs whom and what "
        "is doubted; behind it junctions by level of service, queues, before and after, what was run.",
    )
    tool_parser.add_argument(
        "runs", nargs="+", metavar="FOLDER",
        help="folder that streetsim-run wrote; a second one is the plan after it"
    )
    tool_parser.add_argument("-o", "--output", help="output file: the page (default: FOLDER.report.html, here)")
    tool_parser.add_argument("--title", default="Junction report", help="title of the page (default: %(default)s)")
    question = "question that the page answers, at the head of the page"
    tool_parser.add_argument("--question", default="", metavar="TEXT", help=question)
    tool_parser.add_argument(
        "--plan-names", nargs="+", default=[], metavar="NAME", help="names of the plans (default: their folders)"
    )
    tool_parser.add_argument("--short", action="store_true", help="write the first page alone, without the appendix")
    tool_parser.add_argument(
        "--detail", type=integer_within(0, 10_000), metavar="N",
        help=f"number of junctions shown with all movements, first those that change or are worse than D "
        f"(default {DETAIL})",
    )
    tool_parser.add_argument(
        "--sealed", action="store_true",
        help="put into the page all that it was made of, so that streetsim-check can run it again and compare each "
        "number",
    )
    add_appendix(tool_parser)
    return tool_parser


def add_appendix(tool_parser: argparse.ArgumentParser) -> None:
    """Adds the words that say what the appendix shows, and when."""
    tool_parser.add_argument(
        "--sheets", nargs="?", const=ALL_LIGHTS, default="", metavar="LIGHTS",
        help="add a signal timing sheet for each of these lights, with commas between (default: all that plans change, "
        "or all of one plan)",
    )
    add_files(tool_parser, "--counts", "counts of edges and turns, beside the first plan, as in streetsim-compare")
    add_attribute(tool_parser)
    tool_parser.add_argument(
        "--csv", metavar="FILE", help="also write a table of all junctions and movements, before and after (.csv)"
    )
    interval = "begin of the interval that is shown (default: the worst)"
    add_clock(tool_parser, "--interval", interval)
    add_names(tool_parser)
    tool_parser.add_argument(
        "--corridor", default="", metavar="EDGES", help="edges of a path to draw, of a run with --every 1 to 5"
    )
    for name, default in PICTURE_SECONDS.items():
        text = f"the {name} second that is shown, of the corridor's picture (default {default})"
        add_clock(tool_parser, f"--{name}", text)


def main(arguments: list[str]) -> int:
    """Runs streetsim-report: writes the page, what is sealed beside it and the table of --csv, and prints how large the
    page is; gives status 0."""
    tool_parser = parser()
    args = tool_parser.parse_args(arguments)
    kept_words = given_words(tool_parser, args, ELSEWHERE)
    complete_outputs(args, output=f"{stem_of(args.runs[-1])}.report.html")
    refuse_clashing_words(args)
    paths_beside = {f"{COUNTS}{at}": path for at, path in enumerate(paths_in(args.counts), 1)}
    paths_beside |= {NAMES: args.names} if args.names else {}
    refuse_unwritable(".", {"-o": args.output, "--csv": args.csv}, paths_beside.values())
    plans = read_plans(args)
    interval = interval_of(plans, args)
    seal: Seal | None = None
    large: dict[str, bytes] = {}
    if args.sealed:
        from streetsim.report.page_sealing import seal_for  # which loads what is sealed

        seal, large = seal_for(plans, kept_words, args.output, paths_beside)
    text = report_of(plans, interval, wishes_of(plans, args, seal))
    write_beside(args.output, large)
    with whole_file(args.output) as file:
        file.write(text)
    if args.csv:
        write_table(args.csv, CHANGES, change_rows(plans, interval))
    count = len(ranked_rows(plans, interval))
    more = f", and {beside_of(args.output)} beside it" if large else ""
    print(f"{args.output}: {count} junctions, {len(text.encode()):,} bytes{more}")
    return 0


def remake_text(arguments: list[str], sealing: Callable[[list[Runs]], Seal]) -> str:
    """The text of a page by the words that made it, with the seal that `sealing` gives of its plans. Fault where they
    give none."""
    args = parser().parse_args(arguments)
    refuse_clashing_words(args)
    plans = read_plans(args)
    seal = sealing(plans)
    return report_of(plans, interval_of(plans, args), wishes_of(plans, args, seal))


def refuse_clashing_words(args: argparse.Namespace) -> None:
    """Fault for words that do not fit to each other."""
    if len(args.runs) > 2:
        raise Fault("a report is of one run, or of two: before and after")
    if args.plan_names and len(args.plan_names) != len(args.runs):
        raise Fault(f"--plan-names: {len(args.plan_names)} names for {len(args.runs)} runs")
    if args.attribute and not args.counts:
        raise Fault("--attribute is of --counts: give it too")
    for name in ("corridor", "sheets", "counts", "detail"):
        if args.short and getattr(args, name) not in (None, "", []):
            raise Fault(f"--{name} is of the appendix, which --short leaves out")
    if names := [name for name in PICTURE_SECONDS if getattr(args, name) is not None and not args.corridor]:
        raise Fault(f"--{names[0]} is of the corridor's picture: give --corridor too")


def read_plans(args: argparse.Namespace) -> list[Runs]:
    """The runs of each plan, one or two, with their names and those of --names put into their maps. Two of one name are
    called by their paths, and all as --plans says where it is given. Fault where one cannot be read, or where one has
    drawn departures and the other one listed ones."""
    plans = [read_runs(path) for path in args.runs]
    alike = len({runs.name for runs in plans}) < len(plans)
    for runs, name in zip(plans, args.plan_names or (map(os.path.normpath, args.runs) if alike else ())):
        runs.name = name
    if len({runs.is_drawn for runs in plans}) > 1:
        listed, drawn = sorted((runs.is_drawn, runs.name) for runs in plans)
        message = f"departures of {listed[1]!r} are as listed, those of {drawn[1]!r} drawn"
        raise Fault(f"{message}: other vehicles drive there")
    for runs in plans if args.names else ():
        read_own(args.names, runs.first_folder.mapping)
    return plans


def wishes_of(plans: Sequence[Runs], args: argparse.Namespace, seal: Seal | None) -> PageWishes:
    """What the words ask of a page, with the sections and pictures that they add to its appendix. seal: none where the
    page is not sealed. Fault where one of them cannot be made."""
    pictures = []
    if args.corridor:
        pictures.append(Section("corridor", "Corridor", "".join(corridor_html(runs, args) for runs in plans)))
    if args.counts:
        pictures.append(Section("counts", "Beside counts", counts_html(plans[0], args)))
    timings = [timings_of(runs) for runs in plans]
    if args.sheets:
        pictures.append(Section("sheets", "Signal timing sheets", sheets_html(plans, timings, args.sheets)))
    seal_html, doubts = seal.html() if seal else "", clashes(timings[-1], plans[-1])
    detail = DETAIL if args.detail is None else args.detail
    return PageWishes(args.title, args.question, detail, args.short, doubts, pictures, check_html=seal_html)


def counts_html(runs: Runs, args: argparse.Namespace) -> str:
    """How the first seed of a plan meets the counts of --counts, as HTML. Fault where these cannot be read, or as of
    passed_in."""
    folder = runs.first_folder
    counts = read_counts(paths_in(args.counts), args.attribute, folder.mapping)
    return counts_section(runs.name, judge_counts(counts, passed_in(folder, counts)), folder.mapping)


def sheets_html(plans: Sequence[Runs], timings: Sequence[Timings], light_names: str) -> str:
    """The timing sheets of lights, as HTML. timings: by plan; light_names: lights with commas between, or ALL_LIGHTS:
    all of one plan, or those that change from the first of two, with a sentence where none does. Fault where a run does
    not keep their programs, or a light is not among those of the last."""
    for runs, plan_timings in zip(plans, timings, strict=True):
        if not plan_timings:
            why = "the files of the import were gone or had changed when it was run"
            raise Fault(f"{runs.first_folder.path}: no program of its lights is kept, as {why}")
    lights = names_in(light_names)
    if light_names == ALL_LIGHTS:
        lights = changed(timings[0], timings[-1]) if len(plans) == 2 else sorted(timings[-1])
    if unknown := [light for light in lights if light not in timings[-1]]:
        raise Fault(
            f"--sheets: the runs keep no program of a light {unknown[0]!r}; of {first_few(sorted(timings[-1]))}"
        )
    if not lights:
        return "<p>No light shows anything else with the second plan.</p>"
    named = [(runs.name, plan_timings) for runs, plan_timings in zip(plans, timings, strict=True)]
    return sheets(named, lights, plans[-1].names)


def interval_of(all_runs: Sequence[Runs], args: argparse.Namespace) -> tuple[int, int]:
    """The interval (begin, end), in seconds, that is shown and that all plans have: the one of --interval, else that in
    which vehicles lose most, where there are road works of those in which works last. Fault where there is none."""
    common = set(all_runs[0].intervals()).intersection(*(runs.intervals() for runs in all_runs))
    if not common:
        raise Fault("the runs have no interval in common")
    if args.interval is None:
        spans = [works_seen.span() for runs in all_runs for works_seen in seen_in(runs)]
        of_works = {
            (first, last) for first, last in common if any(begin < last and first < end for begin, end in spans)
        }
        return worst_interval(all_runs, of_works or common)
    if args.interval not in (ends := dict(sorted(common))):
        raise Fault(f"--interval {args.interval}: no interval begins there, of {', '.join(map(str, ends))}")
    return args.interval, ends[args.interval]


def corridor_html(runs: Runs, args: argparse.Namespace) -> str:
    """The corridor's picture of a plan's first seed, as HTML; in both directions where edges lead back. Fault where it
    cannot be drawn, as of corridor_picture."""
    from streetsim.report.page_corridor import corridor_picture  # which loads what draws

    folder, paths = runs.first_folder, path_and_way_back(runs.first_folder, names_in(args.corridor))
    clocks = ((getattr(args, name), usual) for name, usual in PICTURE_SECONDS.items())
    first, last = (usual if clock is None else clock for clock, usual in clocks)
    text = f"Ways of the vehicles along {args.corridor}{', and back' if len(paths) == 2 else ''}: {runs.name}"
    picture = corridor_picture(folder, paths, first, last, text)
    return f"<figure>{picture}<figcaption>{escape(text)}</figcaption></figure>"


def path_and_way_back(folder: Folder, edges: list[str]) -> list[list[str]]:
    """The edges of a path and, where each of them has one of the other direction, those of the way back."""
    try:
        return [edges, way_back(folder, edges)]
    except Fault:
        return [edges]
