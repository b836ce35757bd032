"""streetsim-play: one HTML file that plays what stood on the lanes."""
import base64
import gzip
from collections.abc import Sequence

from streetsim.base import limits
from streetsim.base.files import Fault, whole_file
from streetsim.base.words import Parser
from streetsim.cli.defaults import complete_outputs, stem_of
from streetsim.cli.words import add_clock
from streetsim.model.folder import Folder, read_folder
from streetsim.model.rows import NAME as ROWS
from streetsim.report.player import FOLDER, MOST_BYTES, Played, packed_runs, played

PACKING = 6  # how hard gzip tries: 9 takes four times as long for 3 % less


def parser() -> Parser:
    """The parser of the words that streetsim-play takes."""
    tool_parser = Parser(
        prog="streetsim-play",
        examples=(
            "streetsim-play zero --first 1800 --last 2400 -o zero.html",
            "streetsim-play zero wave -o both.html",
        ),
        description="Makes one HTML file, without anything from outside, that plays the vehicles of a run, "
        "or of two side by side. Open it at a step with page.html#300, and at a place (metres) with "
        "page.html#300,75,0.",
    )
    tool_parser.add_argument(
        "folders", nargs="+", metavar="FOLDER",
        help="folder that streetsim-run wrote",
    )
    add_clock(
        tool_parser, "--step", "seconds between the steps that are shown; with 1 vehicles move smoothly (default: as "
        "the run was polled)", least=1, default=None,
    )
    tool_parser.add_argument("-o", "--output", help="output file: the page (default: FOLDER.play.html, here)")
    add_clock(tool_parser, "--first", "the first second that is shown", default=0)
    add_clock(tool_parser, "--last", "the last second that is shown", default=limits.CLOCK)
    return tool_parser


def main(arguments: list[str]) -> int:
    """Runs streetsim-play: writes the page, and prints how many steps it has and how large it is; gives status 0."""
    args = parser().parse_args(arguments)
    if len(args.folders) > 2:
        raise Fault("a page plays one run, or two side by side")
    complete_outputs(args, output=f"{stem_of(args.folders[0])}.play.html")
    runs = [played_steps(read_folder(path), args.first, args.last, args.step) for path in args.folders]
    if len(runs) == 2 and runs[0].run["name"] == runs[1].run["name"]:
        runs[0].run["name"], runs[1].run["name"] = args.folders
    page = page_of(runs, args.folders[0])
    with whole_file(args.output) as file:
        file.write(page)
    print(f"{len(runs[0].run['clocks']):,} steps, {len(page.encode()):,} bytes")
    return 0


def page_of(runs: Sequence[Played], path: str) -> str:
    """The page that plays one run, or two; Fault, with the path of its folder, where that is too much for a page."""
    packed = base64.b64encode(gzip.compress(packed_runs(runs), PACKING, mtime=0)).decode()
    if len(packed) > MOST_BYTES:
        raise Fault(f"{path}: {len(packed):,} bytes are too much for a page: choose --first and --last")
    page = (FOLDER / "player.html").read_text(encoding="utf-8").replace("@DATA@", packed)
    for name in ("drawing", "charts", "player"):
        page = page.replace(f"/*{name.upper()}*/", (FOLDER / f"{name}.js").read_text(encoding="utf-8"))
    return page


def played_steps(folder: Folder, first_second: int, last_second: int, step: int | None) -> Played:
    """What is played of a folder, from a first to a last second, by so many seconds, or by its polls; Fault where it
    has no such seconds."""
    if step and not folder.has_each_second():
        raise Fault(f"{folder.path}: --step {step}: {ROWS} with each second is not there")
    run = played(folder, first_second, last_second, step)
    if not run.run["clocks"]:
        raise Fault(f"{folder.path}: nothing was polled from {first_second} to {last_second} s")
    return run
