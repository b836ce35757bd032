"""The model's own error on pages and lines, as the page of calibration has it."""
import re
import unittest

from types import SimpleNamespace
from unittest import mock

from support import TOOLS
from streetsim.report.forecast_errors import (
    ERRORS, GROWTH, LANE, PAGE, SPLIT, WAVE, error_lines, error_told, errors_table, is_calibrated,
)
from streetsim.report.page_verdict import kind_of_change


class Errors(unittest.TestCase):
    def test_the_page_has_the_same(self):
        """Shares of the changes, in percent, by kind: those of the table of the page, of all its streets."""
        text = (TOOLS.parent / PAGE).read_text(encoding="utf-8")
        streets = [line.split("|")[3:-1] for line in text.splitlines() if re.match(r"\| (even|mixed|drawn\d+) ", line)]
        kinds = "a wave", "a split", "growth by a tenth", "a lane removed"
        for place, (one, kind) in enumerate(zip(ERRORS, kinds, strict=True)):
            rows = re.search(rf"\| error of {kind}, in % of the changes \|.*\n(?:\|  \|.*\n)*", text)[0]
            cells = f"{100 * one.uncalibrated:.0f}% | {100 * one.calibrated:.0f}%"
            self.assertIn(f"\n|  | all | {cells} |", rows)
            self.assertEqual(sum(bool(cells[place].strip()) for cells in streets), one.streets)

    def test_a_table_and_a_line(self):
        [line] = error_lines()
        for one in ERRORS:
            self.assertIn(f"{one.kind} {100 * one.uncalibrated:.0f} % ({100 * one.calibrated:.0f} %)", line)
        rows = [re.findall("<t[hd][^>]*>([^<]*)", row) for row in errors_table().split("<tr>")[1:]]
        for place, one in enumerate(ERRORS, 1):
            head, *cells = (row[place] for row in rows)
            self.assertEqual(head, f"{one.kind} ({one.streets})")
            self.assertEqual(cells, [f"{100 * one.uncalibrated:.0f} %", f"{100 * one.calibrated:.0f} %"])

    def test_a_sentence_of_the_kind_that_fits(self):
        """A calibration is advised where it makes such forecasts better."""
        said = "For a closed lane, forecasts with {} base were off by {} on 6 streets{}."
        more = "an uncalibrated", "more than the change itself", ": streetsim-calibrate first"
        self.assertEqual(error_told(LANE, False), said.format(*more))
        self.assertEqual(error_told(LANE, True), said.format("a calibrated", "13 % of the change", ""))
        self.assertNotIn("streetsim-calibrate", error_told(WAVE, False))

    def test_what_a_calibration_gave(self):
        for options, calibrated in (({}, False), ({"cut": 0.0, "speeds": []}, False), ({"cut": 0.5}, True)):
            self.assertEqual(is_calibrated(SimpleNamespace(options=options)), calibrated)

    def test_kinds_of_changes(self):
        """Works, more vehicles, other greens, other offsets; nothing where none of them is."""
        light = SimpleNamespace(phases=[(9, "G")], offset=0)
        for works, vehicles, phases, offset, kind in (
            ((0, 1), 100, [(8, "G")], 5, LANE), ((1, 1), 100, [(9, "G")], 0, None),
            ((0, 0), 110, [(8, "G")], 5, GROWTH), ((0, 0), 104, [(8, "G")], 5, SPLIT),
            ((0, 0), 100, [(9, "G")], 5, WAVE), ((0, 0), 90, [(9, "G")], 0, None),
        ):  # fmt: skip
            changed = SimpleNamespace(phases=phases, offset=offset)
            plans = [SimpleNamespace(vehicles=100, first_folder=works[0], lights={"L": light, "M": light})]
            plans.append(SimpleNamespace(vehicles=vehicles, first_folder=works[1], lights={"L": changed}))
            with (
                mock.patch("streetsim.report.page_works.works_rows", lambda first: [{}] * first),
                mock.patch("streetsim.report.page_verdict.timings_of", lambda runs: runs.lights),
            ):
                self.assertEqual(kind_of_change(*plans), kind)


if __name__ == "__main__":
    unittest.main()
