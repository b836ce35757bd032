"""What pages show: tables, which of them are of the present tools, and putting rows into pages; what RESULTS.md is made
of; and walks.

A page may leave out columns and rows of what was printed; the heads of its columns are those of the measurement, in the
same order. A row is known by its first cells, as many as tell the printed rows apart; an empty first cell is the one
above.
"""

import argparse
import csv
import fcntl
import json
import os
import re
import shlex
import subprocess
import sys
import time
from collections.abc import Iterator, Mapping, Sequence
from dataclasses import asdict, dataclass, field, fields
from decimal import Decimal
from itertools import groupby, takewhile
from operator import attrgetter
from pathlib import Path

import shared
from shared import CORRIDOR, PARTS, TOP, all_commands, digest, digests_of

RULE = re.compile(r"\s*\|[|\s:-]+\|\s*")
Row = tuple[str, ...]


@dataclass(frozen=True)
class Grid:
    """A table of a text. rows: the cells by the number of the line that has them."""

    head: Row
    rows: dict[int, Row]

    def filled(self, line: int) -> Row:
        """A row's cells; where the first is empty, that of a row above."""
        row = self.rows[line]
        firsts = [self.rows[at][0] for at in self.rows if at <= line and self.rows[at][0]]
        return (firsts[-1] if firsts else "", *row[1:])


@dataclass
class Placed:
    """A text with the rows in it, and what was found on the way."""

    lines: list[str]
    moved: list[str] = field(default_factory=list)  # rows that stood otherwise, as they were and as they are
    missing: list[str] = field(default_factory=list)  # printed tables and rows that the page does not have
    unmade: list[str] = field(default_factory=list)  # rows of the page's tables that were not printed
    placed: int = 0  # rows that the page has, moved or not


def is_row(line: str) -> bool:
    return line.lstrip().startswith("|")


def cells(line: str) -> Row:
    """The cells of a row, without what makes them bold."""
    inner = line.strip().removeprefix("|").removesuffix("|")
    return tuple(cell.strip().replace("**", "") for cell in inner.split("|"))


def grids(lines: list[str], first: int = 0) -> Iterator[Grid]:
    """The tables of some lines of a text, which are numbered from first on."""
    heads = [at for at, line in enumerate(lines[1:]) if RULE.fullmatch(line) and is_row(lines[at])]
    for head, following in zip(heads, [*heads[1:], len(lines)]):
        rows = takewhile(lambda at: is_row(lines[at]), range(head + 2, following))
        yield Grid(cells(lines[head]), {first + row: cells(lines[row]) for row in rows})


def section(lines: list[str], heading: str) -> range:
    """The lines below a heading, such as '## How good', up to the next one that is not below it."""
    begin = lines.index(heading) + 1
    next_one = re.compile(f"#{{1,{heading.index(' ')}}} ")
    ends = (at for at in range(begin, len(lines)) if next_one.match(lines[at]))
    return range(begin, next(ends, len(lines)))


def columns(page: Row, printed: Row) -> list[int] | None:
    """For each column of a page's table the place of the printed one with the same head; none where one is lost."""
    indexes: list[int] = []
    for head in page:
        begin = indexes[-1] + 1 if indexes else 0
        if head not in printed[begin:]:
            return None
        indexes.append(printed.index(head, begin))
    return indexes


@dataclass(frozen=True)
class Match:
    """Printed rows, with the columns of a table of the page that may have them, by their first cells."""

    grid: Grid
    width: int  # how many first cells tell the rows apart
    printed_rows: dict[Row, Row]

    def key(self, line: int) -> Row:
        return self.grid.filled(line)[: self.width]

    def common(self) -> int:
        """How many rows of the page were printed."""
        return sum(self.key(line) in self.printed_rows for line in self.grid.rows)


def match(grid: Grid, made: Grid) -> Match | None:
    """None where the page's table has a column that was not printed."""
    way = columns(grid.head, made.head)
    if way is None:
        return None
    rows = [tuple(made.filled(line)[at] for at in way) for line in made.rows]
    width = next((count for count in range(1, len(way)) if len({row[:count] for row in rows}) == len(rows)), len(way))
    return Match(grid, width, {row[:width]: row for row in rows})


def place_tables(text: str, heading: str, printed: str) -> Placed:
    """The tables of what a script printed in those of a section of a text that have most of their rows."""
    placed = Placed(text.split("\n"))
    within = section(placed.lines, heading)
    there = list(grids(placed.lines[within.start : within.stop], within.start))
    for printed_grid in grids([line for line in printed.split("\n") if is_row(line)]):
        ways = [found for grid in there if (found := match(grid, printed_grid))]
        best = max(ways, key=lambda one: (one.common(), len(one.grid.head)), default=None)
        if best and best.common():
            place(placed, best)
        else:
            placed.missing.append(f"the table {' | '.join(printed_grid.head)}")
    return placed


def place(placed: Placed, found: Match) -> None:
    """Printed rows in a table of the page."""
    unplaced = dict(found.printed_rows)
    for line in found.grid.rows:
        old, new = found.grid.filled(line), unplaced.pop(found.key(line), None)
        if new is None:
            placed.unmade.append(" | ".join(old))
        else:
            placed.placed += 1
            move(placed, line, old, new)
    placed.missing += [" | ".join(row) for row in unplaced.values()]


def move(placed: Placed, line: int, old_row: Row, new_row: Row) -> None:
    """A row of the page as it is now; its first cell stays empty where it was."""
    if old_row != new_row:
        placed.moved.append(f"{' | '.join(old_row)}\n    now: {' | '.join(new_row)}")
        before, bar, rest = placed.lines[line].partition("|")
        first = new_row[0] if rest.partition("|")[0].strip() else ""
        placed.lines[line] = f"{before}{bar} {' | '.join((first, *new_row[1:]))} |"


DIGESTS = TOP / "bench/tables.json"
COMMANDS = all_commands()
RUNNING_NOTHING = ("doubts",)
Digests = dict[str, str]


@dataclass(frozen=True)
class Table:
    """Tables of a page below one of its headings: the measurement that prints them, its words behind PROGRAM, and about
    how many minutes of one processor it takes where nothing is kept."""

    name: str
    page: str
    heading: str
    command: str
    command_words: str
    minutes: int

    def line(self, program: str, place: Path) -> list[str]:
        """The command line. place: the folder of its own."""
        usual = [] if self.command in RUNNING_NOTHING else [program, "--work", str(place)]
        return [sys.executable, str(TOP / "bench/run"), self.command, *usual, *shlex.split(self.command_words)]

    def place(self, folder: Path) -> Path:
        """Its own folder: where what the tools found is kept, one for these tools."""
        own = f"-{digest(self.digests().values())}" if self.command in FINDING else ""
        return folder / f"{self.name}{own}"

    def digests(self) -> Digests:
        return digests_of(COMMANDS[self.command], TOP)


# The others keep what SUMO wrote alone, or by the tools.
FINDING = ("signals", "routes", "demand", "day", "calibrated")
CLOSENESS, WORKS, ROUTES, SIGNALS = (f"tools/{name}.md" for name in ("CLOSENESS", "WORKS", "ROUTES", "SIGNALS"))
ACTUATED, BUSES, COUNTS, OUTPUTS = (f"tools/{name}.md" for name in ("ACTUATED", "BUSES", "COUNTS", "OUTPUTS"))
CALIBRATION, PYTHON, GAINS = "tools/CALIBRATION.md", "tools/PYTHON.md", "## What a calibration gains"
CLOSE, BESIDE, GOOD = "## How close to SUMO", "## Beside SUMO", "## How good they are"
KINDS, SHIPPED = "## How far mean trips are off, by kind of network", "## Networks that sumo-tools 1.15 ships"
LOADS, DRAWN, RIGHT = "### By load", "### Rows of single kinds", "### How often a doubt is right"
GREENS, LONE = "### Permissive greens", "### Giving way without a light"
ROUTERS = "free flow (duarouter),streetsim-route"
TABLES = (
    Table("unseen", CLOSENESS, KINDS, "unseen", "38885,10463,25092 --rows unseen", 20),
    Table("closeness", CLOSENESS, CLOSE, "closeness", "--seeds 1-2 --rows closeness", 10),
    Table("sweep", CLOSENESS, LOADS, "sweep", "74220 --runs 1 --levels 0.5,0.7,0.95 --rows sweep", 15),
    Table("drawn-rows", CLOSENESS, DRAWN, "drawn-rows", "10857 --runs 1 --rows drawn-rows", 2),
    Table("doubts", CLOSENESS, RIGHT, "doubts", "", 1),
    Table("shared-lanes", CLOSENESS, GREENS, "shared-lanes", "--seeds 1-1", 4),
    Table("cross", CLOSENESS, GREENS, "cross", "", 5),
    Table("junctions", CLOSENESS, LONE, "junctions", "", 6),
    Table("long-vehicles", CLOSENESS, "### Long vehicles", "long-vehicles", "", 1),
    Table("detectors", CLOSENESS, "### Detectors", "detectors", "", 1),
    Table("delays", CLOSENESS, "### Delays and queues of approaches", "delays", "--seeds 1-3", 8),
    Table("shipped", CLOSENESS, SHIPPED, "shipped-demands", "--only game/A10KW,BasicRiLSACorridor3", 3),
    Table("works-street", WORKS, BESIDE, "works", "--street --seeds 1-1", 2),
    Table("works-66845", WORKS, BESIDE, "works", "--drawn 66845", 3),
    Table("works-30243", WORKS, BESIDE, "works", "--drawn 30243", 3),
    Table("works", WORKS, BESIDE, "works", "--only grid,acosta --edges C1C2,21b,69,85", 7),
    Table("buses", BUSES, CLOSE, "buses", "--seeds 9639-9640 --table stops", 2),
    Table("priority", BUSES, CLOSE, "buses", "--seeds 9639-9641 --table priority", 3),
    Table("actuated", ACTUATED, CLOSE, "actuated", "--seed 14142", 6),
    Table("signals", SIGNALS, "## How good", "signals", "--only corridor --sumo 1-3", 2),
    Table("signals-verified", SIGNALS, "## How good", "signals", "--verified --only rilsa1,rilsa2,rilsa4", 3),
    Table("routes", ROUTES, GOOD, "routes", "--only town", 6),
    Table("routes-new", ROUTES, GOOD, "routes", f"--only 'spider;random' --methods '{ROUTERS}'", 2),
    Table("routes-works", ROUTES, GOOD, "routes", "--works --only town --knowing 0,0.3,1", 5),
    Table("demand", COUNTS, "## Beside SUMO's tools", "demand", "--unseen radial-17149,grid-71347 --most 30000", 3),
    Table("sumo-scripts", PYTHON, "## Scripts for TraCI", "sumo-scripts", "--seconds 900 --times 1", 5),
    Table("calibrated", CALIBRATION, GAINS, "calibrated", "--ten --drawn 15074,17244,32762,15049", 60),
    Table("day-intervals", CALIBRATION, "## How often an interval holds", "day-intervals", "", 30),
    Table("day", OUTPUTS, "## Whole days, and rescues", "day", "--junctions 900 --sumo", 25),
)


def what_changed(kept: Digests | None, now: Digests) -> str:
    """What changed since a table was made, in words; nothing where it is of the present tools."""
    if kept is None:
        return "never made by this measurement"
    return ", ".join(part for part in PARTS if kept.get(part) != now[part])


def made_by(table: Table, program: str, folder: Path) -> str:
    """What a table's measurement prints, made where it is not kept; a failure ends all."""
    path, digests = folder / f"{table.name}.json", table.digests()
    found = json.loads(path.read_text(encoding="utf-8")) if path.exists() else {}
    if found.get("digests") == digests and found.get("words") == table.command_words:
        return found["text"]
    command = table.line(program, table.place(folder))
    print(f"{table.name}: {shlex.join(command[1:])}", flush=True)
    done = subprocess.run(command, env=shared.with_sumo(), stdout=subprocess.PIPE, text=True, check=False)
    if done.returncode:
        raise SystemExit(f"{table.name}: status {done.returncode}")
    path.write_text(json.dumps({"digests": digests, "words": table.command_words, "text": done.stdout}, indent=1))
    return done.stdout


def told_of(table: Table, done: Placed) -> str:
    """What of a table is otherwise on its page."""
    lines = [f"{table.name}: {table.page}: {done.placed} rows, {len(done.moved)} of them moved"]
    lines += [f"  was: {row}" for row in done.moved]
    lines += [f"  not on the page: {row}" for row in done.missing]
    lines += [f"  on the page alone: {row}" for row in done.unmade]
    return "\n".join(lines)


def kept_digests() -> dict[str, Digests]:
    return json.loads(DIGESTS.read_text(encoding="utf-8"))


def keep_table(table: Table, done: Placed) -> None:
    """Writes a page with its table, and the digests."""
    (TOP / table.page).write_text("\n".join(done.lines), encoding="utf-8")
    if done.placed and not done.unmade:
        known = {**kept_digests(), table.name: table.digests()}
        own = {name: known[name] for name in sorted(known) if name in {one.name for one in TABLES}}
        DIGESTS.write_text(json.dumps(own, indent=1) + "\n", encoding="utf-8")


def list_all(tables: Sequence[Table]) -> int:
    """Prints what is known of each table; gives how many are not of the present tools."""
    kept, stale, minutes = kept_digests(), 0, 0
    for table in tables:
        why = what_changed(kept.get(table.name), table.digests())
        stale, minutes = stale + bool(why), minutes + bool(why) * table.minutes
        state = f"not of the present tools: {why}" if why else "of the present tools"
        place = f"{table.page}, {table.heading.lstrip('# ')}"
        print(f"{table.name}: {place}: {state} ({table.minutes} min)", flush=True)
    print(f"{stale} of {len(tables)} are not; to make these all takes {minutes} min of one processor")
    return stale


def make_all(tables: Sequence[Table], program: str, folder: Path, putting: bool) -> int:
    """Makes tables; gives how many rows are otherwise on their pages."""
    wrong = 0
    for table in tables:
        text = made_by(table, program, folder)
        with open(DIGESTS, "a", encoding="utf-8") as lock:  # of another call that puts, too
            fcntl.flock(lock, fcntl.LOCK_EX)
            done = place_tables((TOP / table.page).read_text(encoding="utf-8"), table.heading, text)
            if putting:
                keep_table(table, done)
        print(told_of(table, done), flush=True)
        wrong += len(done.moved) + len(done.unmade)
    return wrong


def chosen(names: str | None) -> Sequence[Table]:
    known = {table.name: table for table in TABLES}
    wanted = names.split(",") if names else list(known)
    unknown = [name for name in wanted if name not in known]
    if unknown:
        raise SystemExit(f"no table {unknown[0]!r}: {', '.join(known)}")
    return [known[name] for name in wanted]


def main_tables(argv: list[str]) -> int | None:
    """Which tables of the pages are of the present tools; makes them again.

    Takes seconds with --list, else the minutes that --list says.

    Each table has a measurement that prints its rows. What was printed is kept in the folder of --work with digests of
    what it rests on: the functions and values that the measurement comes to, wherever they stand, the modules of the
    tools that its commands load, and the machine's definitions, all without docs and comments. So a call that was
    interrupted goes on with the next table, and a table of other digests is made anew. Two calls may run side by side
    with one folder.

    --put writes rows that moved into the page, and the digests into tables.json; it says what the page does not have,
    and no digests are written where the page has rows that were not printed. --list runs nothing: it says of each table
    whether the digests in tables.json are those of the present tools, and if not what changed. The status is 1 where a
    cell is another one than on its page, or where a table of --list is not of the present tools.
    """
    parser = shared.parser_of(main_tables, program=False)
    parser.add_argument("program", metavar="PROGRAM", nargs="?", type=shared.found_program)
    parser.add_argument("--work", type=shared.whole_path, help="a folder for what is made")
    parser.add_argument("--only", help="names of tables, with commas between")
    parser.add_argument("--list", action="store_true", help="run nothing")
    parser.add_argument("--put", action="store_true", help="write rows into the pages, and digests into tables.json")
    args = parser.parse_args(argv)
    if args.list:
        if args.put:
            parser.error("--list runs nothing, and --put puts what was made")
        return 1 if list_all(chosen(args.only)) else 0
    if not (args.program and args.work):
        parser.error("PROGRAM and --work are needed, but for --list")
    return 1 if make_all(chosen(args.only), args.program, shared.work_of(args), args.put) else 0


RESULTS_PAGE, RESULT_ROWS = TOP / "bench/RESULTS.md", TOP / "bench/results.csv"
NUMBER = re.compile(r"\d+(?:,\d{3})*(?:\.\d+)?")


@dataclass
class MeasuredCell:
    """A cell of RESULTS.md that was measured."""

    table: str
    row: str
    column: str
    figures: str  # numbers, with blanks between
    unit: str  # with the words around the figures, {} for each
    bound: str  # what bounds it
    command: str  # by which it is measured again

    @property
    def cell(self) -> str:
        return self.unit.format(*(f"{Decimal(figure):,}" for figure in self.figures.split()))

    def take(self, cell: str) -> None:
        """Takes figures and unit of a cell."""
        self.figures = " ".join(figure.replace(",", "") for figure in NUMBER.findall(cell))
        self.unit = NUMBER.sub("{}", cell)


def read_results() -> list[MeasuredCell]:
    with RESULT_ROWS.open(encoding="utf-8", newline="") as file:
        return [MeasuredCell(**row) for row in csv.DictReader(file)]


def with_results(text: str, kept_cells: Sequence[MeasuredCell]) -> str:
    """The text of RESULTS.md with the rows of its tables as they are kept, in the order of both."""
    lines = text.split("\n")
    tables = [[*own] for _, own in groupby(kept_cells, attrgetter("table"))]
    for grid, own in reversed([*zip(grids(lines), tables, strict=True)]):
        lines[min(grid.rows) : max(grid.rows) + 1] = result_rows(grid.head, own)
    return "\n".join(lines)


def result_rows(head: Row, kept_cells: Sequence[MeasuredCell]) -> Iterator[str]:
    """The rows of a table; a command that is that of the row above is the same."""
    above = ""
    for row, own in groupby(kept_cells, attrgetter("row")):
        measured = [*own]
        found = {one.column: one.cell for one in measured}
        bound, command = measured[0].bound, measured[0].command
        found |= {"What bounds it": bound, "By": "the same" if command == above else f"`{command}`"}
        above = command
        yield f"| {' | '.join((row, *(found[column] for column in head[1:])))} |".replace("|  |", "| |")


def add_put(parser: argparse.ArgumentParser) -> None:
    """The word of measurements whose figures stand in RESULTS.md."""
    parser.add_argument("--put", action="store_true", help="keep figures in results.csv, and put them into RESULTS.md")


def keep_result(args: argparse.Namespace, table: str, row: str, measured: Mapping[str, str]) -> None:
    """With --put keeps what was found of a row, by columns; it says what RESULTS.md does not have."""
    if not args.put:
        return
    with RESULT_ROWS.open("a", encoding="utf-8") as lock:  # of another measurement that puts, too
        fcntl.flock(lock, fcntl.LOCK_EX)
        kept_cells = read_results()
        known = {one.column: one for one in kept_cells if (one.table, one.row) == (table, row)}
        for column, cell in measured.items():
            if column in known:
                known[column].take(cell)
            else:
                print(f"  not in RESULTS.md: {row}, {column}", file=sys.stderr)
        write_results(kept_cells)


def write_results(kept_cells: Sequence[MeasuredCell]) -> None:
    """Writes kept rows, and the page with them."""
    page = with_results(RESULTS_PAGE.read_text(encoding="utf-8"), kept_cells)
    with RESULT_ROWS.open("w", encoding="utf-8", newline="") as file:
        table = csv.DictWriter(file, [one.name for one in fields(MeasuredCell)], lineterminator="\n")
        table.writeheader()
        table.writerows(asdict(one) for one in kept_cells)
    RESULTS_PAGE.write_text(page, encoding="utf-8")


def main_results(argv: list[str]) -> int | None:
    """Writes the tables of RESULTS.md from the rows that are kept in results.csv.

    Takes a second.

    It measures nothing. A row of results.csv is a cell of a table: its figures as numbers, the unit and the words
    around them, what bounds it, and the command that measures it. The tables stand in the order of the page, and so do
    their rows. Measurements with --put write their figures there, and the page. What no measurement has, such as a new
    row, is written by hand, into results.csv alone.
    """
    shared.parser_of(main_results, program=False).parse_args(argv)
    write_results(read_results())


FIRST = ""  # what stands before the first heading of a page
SECTIONS = {  # of pages of tools/: the headings of their walks
    "../README": ("Quick start",),
    "README": ("A walk of ten minutes", "From a sheet to an answer"),
    "WORKS": ("A walk of two minutes",),
    "ACTUATED": (FIRST,),
    "BUSES": (FIRST, "Lights that wait for buses"),
    "SIGNALS": ("A walk of two minutes", "Plans by time of day", "A study"),
    "ROUTES": ("A walk of two minutes",),
    "COUNTS": ("A walk of five commands",),
    "CALIBRATION": ("A walk",),
}
INSTALLING = "mkdir "  # a block with it is left out: all is run in the folder of this call
APT = "apt install "  # a line with it is left out: the tools are there
EXAMPLES = ("corridor", "town")  # whose files the walks take
EQUAL = re.compile(r"each of the [\d,]+ numbers (on the page|in [\d,]+ files) is that of a run")


def blocks(page, heading):
    """The commands of a section, each with the lines that are shown after it."""
    text = (TOP / f"tools/{page}.md").read_text(encoding="utf-8")
    begin = rf"^## {re.escape(heading)}$" if heading else r"\A"
    found = re.search(rf"{begin}(.*?)(?=^## |\Z)", text, re.MULTILINE | re.DOTALL)
    if not found:
        raise SystemExit(f"{page}.md: no section {heading!r}")
    for body, shown in re.findall(r"^```sh\n(.*?)^```\n(?:\n```text\n(.*?)^```$)?", found[1], re.MULTILINE | re.DOTALL):
        if INSTALLING not in body:
            lines = [line for line in body.splitlines() if not line.startswith(APT)]
            yield "\n".join(lines), shown.splitlines()


def lacking(shown, printed):
    """The lines of a page that are not printed, in order."""
    place = 0
    for line in shown:
        if line == "..":
            continue
        wanted = re.compile(".*".join(map(re.escape, line.split(".."))))
        found = next((at for at in range(place, len(printed)) if wanted.fullmatch(printed[at])), None)
        if found is None:
            yield line
        else:
            place = found + 1


def runner(folder, surroundings):
    """Runs commands of the shell in a folder, and gives how they ended with all that they printed."""
    joined = {"stdout": subprocess.PIPE, "stderr": subprocess.STDOUT, "text": True, "check": False}
    return lambda body: subprocess.run(["bash", "-ec", body], cwd=folder, env=surroundings, **joined)


def walk(page, heading, runs):
    """Runs a section; gives how much is other than the page says."""
    wrong = 0
    for body, shown in blocks(page, heading):
        done = runs(body)
        printed = done.stdout.replace("\r", "\n").splitlines()
        missing = list(lacking(shown, printed))
        status = f", status {done.returncode}" if done.returncode else ""
        print(f"{page}.md: {body.splitlines()[0]}: {'OTHER' if missing else 'as shown'}{status}", flush=True)
        if missing or done.returncode:
            wrong += 1
            told = [*(f"  lacks: {line}" for line in missing), *(f"  prints: {line}" for line in printed[-12:])]
            print(*told, sep="\n", flush=True)
    return wrong


def surroundings_of(args):
    """The variables with which commands run: this environment's and the tools here, or the installed ones alone; lines
    come in the order in which a terminal shows them."""
    if args.installed:
        own = {name: value for name, value in os.environ.items() if not name.startswith(("STREETSIM", "SUMO_HOME"))}
    else:
        path = f"{TOP / 'tools'}:{os.environ['PATH']}"
        own = {**shared.with_sumo(), "PATH": path, "STREETSIM_PROGRAM": args.program}
    return {**own, "PYTHONUNBUFFERED": "1"}


def to_check(folder, bodies, begin):
    """The commands that check what the commands of a page made since a moment: of each page of streetsim-report, which
    is made again with a seal where it has none, and of each folder of a run or a study."""
    for line in (line for body in bodies for line in body.replace("\\\n", " ").splitlines()):
        if found := re.match(r"streetsim-report .* -o (\S+)$", line):
            yield f"{'true' if '--sealed' in line else f'{line} --sealed'}; streetsim-check {found[1]}"
    for top in sorted(path for path in folder.iterdir() if path.is_dir() and path.stat().st_mtime >= begin):
        if (top / "made.json").exists():
            study = json.loads((top / "made.json").read_text())["study"]  # as seen from the folder of the study
            yield f"streetsim-check {top.name} --study {top.name}/{study}"
        elif (top / "run.jsonl.gz").exists():
            yield f"streetsim-check {top.name}"


def checked(page, folder, runs, begin):
    """Checks what the walks of a page made since a moment; gives how many are other."""
    bodies, wrong = [body for heading in SECTIONS[page] for body, _ in blocks(page, heading)], 0
    for body in to_check(folder, bodies, begin):
        done = runs(body)
        last = done.stdout.splitlines()[-1:]
        equal = done.returncode == 0 and last and EQUAL.search(last[0])
        wrong += not equal
        print(f"{page}.md: {body.split('; ')[-1]}: {'equal' if equal else 'OTHER: ' + done.stdout}", flush=True)
    return wrong


def main_walks(argv: list[str]) -> int | None:
    """Whether the walks print what the pages show, and checks of what they made say equal.

    Takes minutes; needs sumo.

    The commands of a page's sections are run in one folder, in the page's order and with the tools as they are here, or
    with those that are installed; of the text that a page shows right after a command each line must be printed, in
    that order ('..' stands for any line, and within one for any text). The status is 1 where a line is lacking, a
    command fails, or a check says other.
    """
    parser = shared.parser_of(main_walks, work=True, program=False)
    parser.add_argument("program", metavar="PROGRAM", nargs="?", type=shared.found_program)
    parser.add_argument("--installed", action="store_true", help="run the installed commands, in place of these")
    shared.add_some(parser, "--only", SECTIONS)
    args = parser.parse_args(argv)
    if bool(args.program) == args.installed:
        parser.error("PROGRAM, or --installed")
    folder = shared.work_of(args)
    surroundings = surroundings_of(args)
    for name in EXAMPLES:
        for path in (CORRIDOR.parent / name).iterdir():
            (folder / path.name).unlink(missing_ok=True)
        subprocess.run(["streetsim-example", name, "--out", "."], cwd=folder, env=surroundings, check=True)
    runs = runner(folder, surroundings)
    wrong = 0
    for page in args.only:
        begin = time.time()
        wrong += sum(walk(page, heading, runs) for heading in SECTIONS[page]) + checked(page, folder, runs, begin)
    good = "each walk prints what its page says, and what it makes is checked to be equal"
    print(good if not wrong else f"{wrong} commands print other lines, or fail, or are not equal")
    return 1 if wrong else 0
