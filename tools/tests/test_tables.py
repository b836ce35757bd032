"""bench/run tables: what a table rests on, what of printed rows stands otherwise on a page, and putting it there; and
bench/run results: the rows that RESULTS.md is made of."""
import contextlib
import io
import json
import re
import subprocess
import sys
import unittest
from argparse import Namespace
from dataclasses import replace
from pathlib import Path
from unittest import mock

from support import TOOLS, Case

TOP = TOOLS.parent
sys.path.insert(0, str(TOP / "bench"))
from program.lines import ROWS  # noqa: E402
from repository import pages  # noqa: E402
from repository.pages import (  # noqa: E402
    RESULTS_PAGE, TABLES, MeasuredCell, grids, keep_result, place_tables, read_results, section, with_results,
    write_results,
)
from shared import all_commands, digests_of, loaded_by  # noqa: E402

PAGE = """# Page

| Street | mean, s |
|---|---|
| of another section | 1.0 |

## How close

Words.

| Street | flow | mean, s | |
|---|---|---|---|
| main | 100 | 20.0 (+1 %) | |
| | 200 | **30.0** | doubted |
| side | 100 | 40.0 | |

| Street | held |
|---|---|
| main | 5 |

## More
"""
PRINTED = """| Street | flow | trips | mean, s | |
|---|---|---|---|---|
| main | 100 | 7 | 21.0 (+2 %) |  |
    what the script says of a row
| main | 200 | 7 | 30.0 | doubted |
| side | 200 | 7 | 41.0 |  |
told below
| Town | mean, s |
|---|---|
| large | 9.9 |
"""
# A repository with one measurement, which runs one command, beside another one.
SEEN = '''"""Page."""
from helper import TOOL
from streetsim.cli import play
KNOWN = TOOL


def main_seen(argv: list[str]) -> int:
    """What is seen."""
    play = KNOWN  # its own value, not the module
    print(play, "streetsim-play is not run")


def main_unseen(argv: list[str]) -> int:
    """What is not."""
    return play.PLAY
'''
IT = "helper.TOOL\n"
MADE = {
    "bench/program/both.py": SEEN,
    "bench/helper.py": 'TOOL = "tools/streetsim-run"\n',
    "bench/other.py": 'TOOL = "tools/streetsim-run"\n',
    "tools/streetsim/__init__.py": "",
    "tools/streetsim/cli/__init__.py": "",
    "tools/streetsim/cli/run.py": "def main():\n    from ..base import low\n    return low\n",
    "tools/streetsim/cli/play.py": "PLAY = 1\n",
    "tools/streetsim/base/__init__.py": "",
    "tools/streetsim/base/low.py": '"""Docs."""\nLOW = 1  # why\n',
    "crates.txt": "street_sim: street_base clap\nstreet_base: rand_core\nstreet_more: street_base\n",
    "crates/street_base/src/lib.rt": "// why\npub fn one() -> u64 { 1 }\n",
    "crates/street_base/specs/One.antt": "-- why\none = 1\n",
    "crates/street_more/src/lib.rt": "pub fn more() {}\n",
}


FIGURE = re.compile(r"\d\.\d|±|\d ?%|\d / \d")


def figures(lines):
    """The tables of a page of which most rows have figures, by their first lines."""
    for grid in grids(lines):
        having = [line for line, row in grid.rows.items() if any(map(FIGURE.search, row[1:]))]
        if 2 * len(having) > len(grid.rows):
            yield min(grid.rows)


class Placing(Case):
    def test_rows_that_moved_are_put(self):
        done = place_tables(PAGE, "## How close", PRINTED)
        self.assertEqual(done.moved, ["main | 100 | 20.0 (+1 %) | \n    now: main | 100 | 21.0 (+2 %) | "])
        self.assertEqual(done.placed, 2)
        self.assertIn("| main | 100 | 21.0 (+2 %) |  |", done.lines)
        self.assertIn("| | 200 | **30.0** | doubted |", done.lines)

    def test_what_has_no_place_is_told(self):
        done = place_tables(PAGE, "## How close", PRINTED)
        self.assertEqual(done.missing, ["side | 200 | 41.0 | ", "the table Town | mean, s"])
        self.assertEqual(done.unmade, ["side | 100 | 40.0 | "])

    def test_of_tables_with_one_head_that_with_its_rows_is_taken(self):
        head = "| Street | held |\n|---|---|\n"
        done = place_tables(f"# Both\n\n{head}| one | 1 |\n\n{head}| other | 2 |\n", "# Both", f"{head}| other | 3 |\n")
        self.assertEqual((done.moved, done.unmade), (["other | 2\n    now: other | 3"], []))

    def test_the_rest_of_the_page_stays(self):
        done = place_tables(PAGE, "## How close", PRINTED)
        changed = [at for at, pair in enumerate(zip(PAGE.split("\n"), done.lines, strict=True)) if len(set(pair)) > 1]
        self.assertEqual(changed, [PAGE.split("\n").index("| main | 100 | 20.0 (+1 %) | |")])

    def test_an_empty_first_cell_is_the_one_above(self):
        done = place_tables(PAGE, "## How close", PRINTED.replace("30.0", "31.0"))
        self.assertIn("|  | 200 | 31.0 | doubted |", done.lines)
        self.assertEqual(place_tables("\n".join(done.lines), "## How close", PRINTED.replace("30.0", "31.0")).moved, [])


class Sources(Case):
    def changed_by(self, name, text):
        """The parts of a table's digests that another text of a file changes."""
        tops = self.folder / "as it is", self.folder / f"changed {len(list(self.folder.iterdir()))}"
        for top, files in zip(tops, (MADE, {**MADE, name: text})):
            for path, content in files.items():
                (top / path).parent.mkdir(parents=True, exist_ok=True)
                (top / path).write_text(content, encoding="utf-8")
        before, after = (digests_of(all_commands(top)["seen"], top) for top in tops)
        return [part for part in before if before[part] != after[part]]

    def test_what_a_table_rests_on_changes_its_digests(self):
        for name, text, part in (
            ("bench/program/both.py", SEEN.replace("is not run", "is run"), "script"),
            ("bench/helper.py", 'TOOL = str("tools/streetsim-run")\n', "script"),
            ("tools/streetsim/base/low.py", "LOW = 2\n", "tools"),
            ("crates/street_base/specs/One.antt", "one = 2\n", "machine"),
        ):
            self.assertEqual(self.changed_by(name, text), [part], name)

    def test_nothing_else_does(self):
        for name, text in (
            ("bench/other.py", MADE["bench/other.py"] + "OTHER = 2\n"),
            ("bench/helper.py", MADE["bench/helper.py"] + "MORE = 1\n"),
            ("bench/helper.py", "from other import TOOL\n"),  # where it stands too
            ("bench/helper.py", "import other\n" + MADE["bench/helper.py"]),
            ("bench/program/both.py", SEEN.replace("KNOWN", "CALLED_OTHERWISE")),
            ("bench/program/both.py", SEEN.replace("from helper import TOOL", "import helper").replace("TOOL\n", IT)),
            ("bench/program/both.py", SEEN.replace("return play.PLAY", "return play.PLAY + 1")),
            ("tools/streetsim/cli/play.py", "PLAY = 2\n"),
            ("tools/streetsim/base/low.py", '"""Other docs."""\n\nLOW = 1\n'),
            ("crates/street_base/src/lib.rt", "pub fn one() -> u64 { 2 }\n"),
            ("crates/street_base/specs/One.antt", "-- other words\none = 1\n"),
            ("crates/street_more/src/lib.rt", "pub fn more() { more() }\n"),
        ):
            self.assertEqual(self.changed_by(name, text), [], name)

    def test_a_table_of_closeness_rests_on_the_commands_that_it_runs(self):
        loaded = loaded_by(all_commands()["closeness"], TOP).keys()
        self.assertLessEqual({"shared", "networks.streets", "streetsim.cli.run", "streetsim.cli.import_"}, loaded)
        self.assertEqual([name for name in loaded if name.startswith(("streetsim.live", "streetsim.traci"))], [])


CALL = MeasuredCell("calls", "memory of a call", "Measured", "1328", "{} bytes", "the line", "bench/run calls")
SLOW, NEXT = replace(CALL, row="a step", figures="15 0.10", unit="{} to {} s"), replace(CALL, row="the next")
STEPS = MeasuredCell("steps", "ring", "1 worker", "55.6", "{}", "", "bench/run steps"), MeasuredCell(
    "steps", "ring", "2 workers", "84.7 1.54", "{} ({})", "", "bench/run steps"
)
MEASURED = """# Results

| What | Measured | What bounds it | By |
|---|---|---|---|
| memory of a call | 1,328 bytes | the line | `bench/run calls` |
| a step | 15 to 0.10 s | the line | the same |

Words.

| Session | 1 worker | 2 workers |
|---|---|---|
| ring | 55.6 | 84.7 (1.54) |

More.
"""


class Results(Case):
    def setUp(self):
        super().setUp()
        self.page, self.rows = (Path(self.write(name, "")) for name in ("page", "rows"))
        for name, path in (("RESULTS_PAGE", self.page), ("RESULT_ROWS", self.rows)):
            patched = mock.patch.object(pages, name, path)
            patched.start()
            self.addCleanup(patched.stop)
        self.page.write_text(MEASURED, encoding="utf-8")

    def test_rows_are_kept_and_read_again(self):
        write_results([CALL, SLOW, *STEPS])
        self.assertEqual(read_results(), [CALL, SLOW, *STEPS])
        self.assertEqual(self.page.read_text(encoding="utf-8"), MEASURED)

    def test_the_page_has_all_rows_that_are_kept(self):
        row = "| the next | 1,328 bytes | the line | the same |\n"
        before, below, after = MEASURED.partition("\nWords.")
        self.assertEqual(with_results(MEASURED, [CALL, SLOW, NEXT, *STEPS]), before + row + below + after)
        self.assertEqual(with_results(before + row + below + after, [CALL, SLOW, *STEPS]), MEASURED)

    def test_a_table_without_rows_and_a_column_without_a_cell_are_refused(self):
        for lacking in ([CALL, SLOW], [CALL, SLOW, STEPS[0]]):
            self.assertRaises((ValueError, KeyError), with_results, MEASURED, lacking)

    def test_a_measurement_puts_its_figures_alone(self):
        write_results([CALL, SLOW, *STEPS])
        keep_result(Namespace(put=False), "steps", "ring", {"1 worker": "9.9"})
        with contextlib.redirect_stderr(io.StringIO()) as said:
            keep_result(Namespace(put=True), "steps", "ring", {"2 workers": "1,084.7 (none)", "3 workers": "1"})
        self.assertEqual(said.getvalue(), "  not in RESULTS.md: ring, 3 workers\n")
        self.assertEqual(read_results()[-1], replace(STEPS[1], figures="1084.7", unit="{} (none)"))
        self.assertEqual(
            self.page.read_text(encoding="utf-8"), MEASURED.replace("| 84.7 (1.54) |", "| 1,084.7 (none) |")
        )


class KeptResults(Case):
    def test_the_page_is_what_the_rows_give(self):
        text = RESULTS_PAGE.read_text(encoding="utf-8")
        self.assertEqual(with_results(text, read_results()), text)

    def test_each_row_is_measured_by_what_is_there(self):
        known = {f"bench/run {name}" for name in all_commands()}
        for row in read_results():
            own = " ".join(row.command.split()[:2])
            self.assertTrue(not own or own in known or (TOP / own).is_file(), row.command)

    def test_rows_of_calls_are_those_of_the_measurement(self):
        kept = [cell.row for cell in read_results() if cell.command == "bench/run calls"]
        self.assertEqual(kept, [name for name, _ in ROWS])


class Pages(Case):
    def test_each_table_has_its_measurement_and_its_heading(self):
        for table in TABLES:
            lines = (TOP / table.page).read_text(encoding="utf-8").split("\n")
            self.assertEqual(lines.count(table.heading), 1, f"{table.name}: {table.heading}")
            self.assertIn(table.command, all_commands(), table.name)
        names = [table.name for table in TABLES]
        self.assertEqual(len({*names}), len(names))
        self.assertLessEqual(json.loads((TOP / "bench/tables.json").read_text()).keys(), {*names})

    def test_each_table_of_figures_of_the_tools_is_made_by_a_measurement(self):
        for page in sorted(TOOLS.glob("*.md")):
            lines = page.read_text(encoding="utf-8").split("\n")
            made = [section(lines, table.heading) for table in TABLES if table.page == f"tools/{page.name}"]
            lost = [line + 1 for line in figures(lines) if not any(line in lines_of for lines_of in made)]
            self.assertEqual(lost, [], page.name)

    def test_a_table_of_figures_is_told_from_one_of_words(self):
        self.assertEqual(list(figures(["| A | b |", "|---|---|", "| c | 1.5 |", "| d | -3 % |", "| e | |"])), [2])
        self.assertEqual(list(figures(["| A | b |", "|---|---|", "| c | 5.5 s |", "| d | none |"])), [])

    def test_what_tools_found_is_kept_apart_for_each_state_of_them(self):
        places = {table.name: table.place(Path("/folder")).name for table in TABLES}
        self.assertEqual(places["cross"], "cross")
        self.assertRegex(places["signals"], "^signals-[0-9a-f]{16}$")
        self.assertRegex(places["day"], "^day-[0-9a-f]{16}$")

    def test_words_that_do_nothing_are_refused(self):
        for words in (["--list", "--put"], ["PROGRAM"], ["--list", "--only", "none such"]):
            command = [sys.executable, str(TOP / "bench/run"), "tables", *words]
            done = subprocess.run(command, capture_output=True, text=True, check=False)
            self.assertEqual((bool(done.returncode), done.stdout), (True, ""), words)

    def test_what_no_measurement_knows_is_refused_in_a_line(self):
        for words in ([], ["no-such"], ["closeness"], ["doubts", "more"], ["unseen-nets", "7", "--kinds", "no-such"]):
            command = [sys.executable, str(TOP / "bench/run"), *words]
            done = subprocess.run(command, capture_output=True, text=True, check=False)
            self.assertEqual((done.returncode, done.stdout, done.stderr.count("\n")), (2, "", 1), words)


if __name__ == "__main__":
    unittest.main()
