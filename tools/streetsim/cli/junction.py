"""streetsim-junction: from a sheet of an office to SUMO's files, run files for each plan and a picture of what was
understood."""
import argparse
import os
import re
import shlex
from collections.abc import Sequence
from typing import NoReturn

from streetsim.base.files import (
    Fault, refuse_foreign, refuse_unwritable, whole_file, whole_folder, write_setting,
)  # fmt: skip
from streetsim.base.folders import SETTING
from streetsim.base.words import Parser
from streetsim.cli.open_ import run_tool
from streetsim.cli.words import add_files, add_out
from streetsim.model.tables import write_table
from streetsim.sheet import network
from streetsim.sheet.flows import LEAD, count_rows, flows_text
from streetsim.sheet.layout import SheetLayout
from streetsim.sheet.picture import picture_of
from streetsim.sheet.plain import PlainFiles, texts_of
from streetsim.sheet.plans import check_conflicts, plan_text
from streetsim.sheet.reading import read_layout
from streetsim.sheet.slips import Slips
from streetsim.sheet.templates import TEMPLATES, template

NET, ROUTES, COUNTS, PICTURE = "junction.net.xml", "junction.rou.xml", "counts.csv", "junction.svg"
HEADER = ("begin", "end", "from", "to", "vehicles", "class")
DEPART = re.compile(r'depart="([\d.]+)"')


def parser() -> Parser:
    """The parser of the words that streetsim-junction takes."""
    tool_parser = Parser(
        prog="streetsim-junction",
        examples=(
            "streetsim-junction --template cross",
            "streetsim-junction cross.csv --out cross",
            "streetsim-junction cross.xlsx --counts counts.csv --out cross",
        ),
        description="Makes a junction, or a street of junctions, of a sheet: arms, lanes, counts and plans, as CSV or "
        "as a workbook. It writes SUMO's plain files and network (by netconvert), the demand, a run file for each plan "
        "and a picture of what was understood. Faults of the sheet are named by cell.",
    )
    tool_parser.add_argument("sheet", metavar="SHEET", nargs="?", help="sheet of a junction or a street (.csv, .xlsx)")
    tool_parser.add_argument(
        "--template", choices=TEMPLATES, help="write a sheet with comments, to be changed, and end"
    )
    add_files(tool_parser, "--counts", "counts of edges and turns: here of movements by arm, as offices have them "
              "(.csv, .xlsx), in place of those of the sheet")
    tool_parser.add_argument("-o", "--output", help="output file: of --template (default: KIND.csv, here)")
    add_out(tool_parser, "output folder (default: NAME-junction, here)")
    return tool_parser


def main(arguments: Sequence[str]) -> int:
    """Runs streetsim-junction; gives status 0, or 1 where the demand of a street does not fit its counts. Fault for a
    sheet with slips, and where netconvert is missing or refuses the files."""
    args = parser().parse_args(arguments)
    if args.template:
        return write_template(args)
    if not args.sheet:
        refuse_words("give a SHEET, or --template to write one")
    if args.output:
        refuse_words("-o is of --template: give --out for the folder")
    folder = args.out or f"{os.path.splitext(os.path.basename(args.sheet))[0]}-junction"
    refuse_unwritable(folder, {}, [args.sheet, *args.counts])
    refuse_foreign(folder, args.force)
    layout, notes = read_layout(args.sheet, args.counts)
    files, built = network.build(layout)
    slips = Slips(layout.path)
    check_conflicts(layout, files, built, slips)
    slips.end()
    write_files(folder, layout, files, built)
    tell_understood(layout, notes)
    print(f"{folder}/{PICTURE}: look at it before anything is believed")
    return made_runs(folder, layout)


def refuse_words(text: str) -> NoReturn:
    """Fault for words that do not go together."""
    raise Fault(text)


def write_template(args: argparse.Namespace) -> int:
    """Writes a template; gives status 0. Fault where its file is there."""
    if args.sheet or args.counts or args.out or args.force:
        refuse_words("--template writes a sheet alone: leave SHEET, --counts, --out and --force out")
    path = args.output or f"{args.template}.csv"
    if os.path.exists(path):
        raise Fault(f"{path} is there: give -o another name")
    with whole_file(path) as file:
        file.write(template(args.template))
    print(f"{path}: change it, then: streetsim-junction {shlex.quote(path)}")
    return 0


def write_files(folder: str, layout: SheetLayout, files: PlainFiles, built: network.BuiltNetwork) -> None:
    """Writes all but run files and the demand of a street into the folder."""
    texts = {f"junction.{ending}": text for ending, text in texts_of(files).items()}
    texts |= {NET: built.text, PICTURE: picture_of(layout, files, built)}
    texts |= {f"plan-{name}.add.xml": plan_text(layout, name, files, built) for name in layout.plan_names()}
    junctions = [junction for junction in layout.junctions.values() if junction.counts]
    if junctions and not layout.is_street:
        texts[ROUTES] = flows_text(junctions[0], files)
    with whole_folder(folder, SETTING) as half:
        for name, text in texts.items():
            with whole_file(os.path.join(half, name)) as file:
                file.write(text)
        if junctions:
            write_table(os.path.join(half, COUNTS), HEADER, count_rows(layout, files))
        write_setting(half, {"sheet": os.path.basename(layout.path), "plans": layout.plan_names()})


def tell_understood(layout: SheetLayout, notes: Sequence[str]) -> None:
    """Prints what was understood."""
    for junction in layout.junctions.values():
        lanes = sum(len(arm.lanes) for arm in junction.arms.values())
        movements = len(list(junction.movements()))
        plans = f", plans {', '.join(junction.plans)}" if junction.plans else ""
        print(f"{junction.name}: {junction.control}, {len(junction.arms)} arms, {lanes} lanes, {movements} movements"
              f"{plans}")
    print(*notes, sep="\n") if notes else print("no counts: the network and its plans alone")


def made_runs(folder: str, layout: SheetLayout) -> int:
    """Makes the demand of a street, and a run file for each plan, and prints what may follow; gives the status of the
    demand."""
    counts = [count for junction in layout.junctions.values() for count in junction.counts]
    if not counts:
        return 0
    path, status, names = os.path.join(folder, ROUTES), 0, layout.plan_names()
    net = os.path.join(folder, NET)
    begin = max(0, min(count.begin for count in counts) - LEAD)
    if layout.is_street:
        plan = [os.path.join(folder, f"plan-{names[0]}.add.xml")] if names else []
        words = [net, *plan, "--counts", os.path.join(folder, COUNTS), "-o", path, "--out", f"{folder}-fit"]
        status = run_tool("demand", words)
        with open(path, encoding="utf-8") as file:
            begin = min((int(float(depart)) for depart in DEPART.findall(file.read())), default=begin)
    else:
        print(f"the first period's vehicles also depart in the {LEAD // 60} minutes before it")
    runs = []
    for name in names or [""]:
        run = os.path.join(folder, f"plan-{name}.jsonl" if name else "junction.jsonl")
        plan = [os.path.join(folder, f"plan-{name}.add.xml")] if name else []
        mapping = f"{run.removesuffix('.jsonl')}.map.json"
        run_tool("import_", [net, *plan, "--routes", path, "--begin", str(begin), "-o", run, "--map", mapping])
        runs.append(run)
    print("next:", *following_commands(folder, runs), sep="\n")
    return status


def following_commands(folder: str, runs: Sequence[str]) -> list[str]:
    """The commands that show a run, or compare the first two."""
    if len(runs) == 1:
        return [f"  streetsim-open {shlex.quote(runs[0])}"]
    pair = [(run, os.path.basename(run).removesuffix(".jsonl")) for run in runs[:2]]
    lines = [
        f"  streetsim-run {shlex.quote(run)} --seeds 1-5 --junctions 900 --out {shlex.quote(f'{folder}-{name}')}"
        for run, name in pair
    ]
    folders = " ".join(shlex.quote(f"{folder}-{name}") for _, name in pair)
    names = " ".join(shlex.quote(name.removeprefix("plan-")) for _, name in pair)
    return [*lines, f"  streetsim-report {folders} --plan-names {names} --sealed -o {shlex.quote(f'{folder}.html')}"]
