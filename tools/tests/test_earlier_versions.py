"""Folders of earlier versions are read by all commands that read folders."""
import subprocess
import unittest

from support import DATA, TOOLS, Case
from streetsim.model.folder import read_folder
from streetsim.model.tables import JUNCTIONS, MOVEMENTS, read_table
from streetsim.report.run_tables import read_runs

VERSIONS = ("1.0.0", "da17d40c")
LACKING = {
    "1.0.0": {"approaches": ["doubt"], "junctions": ["nearly_full", "doubt"]},
    "da17d40c": {"approaches": ["doubt"], "junctions": ["doubt"]},
}  # beside movements, by table
OF_MOVEMENTS = ["full_percent", "blocked_percent", "doubt"]


class EarlierVersions(Case):
    def unpacked(self, version):
        """The folder of a run of 41 vehicles in 400 s, with junction tables by 200 s."""
        folder = self.folder / version
        folder.mkdir()
        subprocess.run(["tar", "xzf", DATA / f"folder-{version}.tar.gz", "-C", folder], check=True)
        return folder / "run"

    def test_absent_columns_are_empty_and_told(self):
        for version in VERSIONS:
            with self.subTest(version):
                folder = self.unpacked(version)
                of_junctions = "junctions", JUNCTIONS, LACKING[version]["junctions"]
                for name, header, absent in (("movements", MOVEMENTS, OF_MOVEMENTS), of_junctions):
                    rows = read_table(folder / f"{name}.csv", header)
                    self.assertEqual({row[column] for row in rows for column in absent}, {""})
                    self.assertGreater(sum(int(row["vehicles"]) for row in rows), 30)
                [told] = [note for note in read_folder(str(folder)).notes if "earlier" in note]
                for name, absent in {"movements": OF_MOVEMENTS, **LACKING[version]}.items():
                    self.assertIn(f"{name}.csv has no {', '.join(absent)}", told)
                rows = (row for by_key in read_runs(str(folder)).rows.values() for row in by_key.values())
                self.assertTrue(all(row.means.keys().isdisjoint(OF_MOVEMENTS) and not row.doubt for row in rows))

    def test_each_command_reads_them(self):
        for version in VERSIONS:
            folder = self.unpacked(version)
            trips = read_folder(str(folder)).trips()
            self.assertEqual([row["state"] for row in trips], 41 * ["arrived"])
            counts = self.write("counts.csv", "begin,end,from,to,vehicles\n0,200,WJ,,17\n")
            for words in (
                ("report", folder, "-o", self.folder / "page.html"),
                ("export", folder, "-o", self.folder / "run.xlsx"),
                ("plot", "queues", folder, "-o", self.folder / "run.png"),
                ("play", folder, "-o", self.folder / "play.html"),
            ):
                with self.subTest(version=version, command=words[0]):
                    self.tool(*words)
            with self.subTest(version=version, command="compare"):
                told, _ = self.tool("compare", folder, "--counts", counts, status=None)
                self.assertIn(" passed of 17 counted", told)
                self.assertIn("tables of an earlier version: movements.csv has no full_percent", told)
            self.assertIn("tables of an earlier version", (self.folder / "page.html").read_text(encoding="utf-8"))

    def test_beside_each_other(self):
        """What both have is compared, and what one lacks is told."""
        folders = [self.unpacked(version) for version in VERSIONS]
        self.tool("report", *folders, "-o", self.folder / "two.html")
        page = (self.folder / "two.html").read_text(encoding="utf-8")
        self.assertIn("junctions.csv has no nearly_full, doubt", page)


if __name__ == "__main__":
    unittest.main()
