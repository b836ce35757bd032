"""Hostile files of each kind that a user can be sent: each ends in time, takes little memory, and is told in a line."""
import gzip
import io
import json
import subprocess
import sys
import unittest
from itertools import groupby

import hostile
from support import TOOLS, Case, needs_simulator
from streetsim.base import unpacking
from streetsim.base.files import Fault, elements, open_bytes
from streetsim.base.unpacking import lines_of, refuse_bomb, refuse_crowded
from streetsim.cli.checked_targets import PAGE_BYTES_AT_MOST
from streetsim.report.page_seal import MOST_BYTES
from streetsim.search.study_variants import MOST_DOTS, MOST_VARIANTS


@needs_simulator
class Hostile(unittest.TestCase):
    def test_each_ends_in_time_with_little_memory_and_one_line(self):
        words = [sys.executable, hostile.__file__, "--quick"]
        done = subprocess.run(words, capture_output=True, text=True, check=False)
        self.assertEqual((done.returncode, done.stderr), (0, ""))
        tried = [json.loads(line) for line in done.stdout.splitlines()]
        for kind, forms in groupby(tried, lambda one: one[0]):
            (_, _, _, status, told, _, peak), *forms = forms
            self.assertEqual((status, "Traceback" in told), (2 if kind == "page" else 0, False), (kind, told))
            for _, form, size, status, told, seconds, high in forms:
                with self.subTest(f"{kind}: {form}"):
                    self.assertEqual((status, told.count("\n")), (2, 1), told)
                    self.assertLess(high - peak, hostile.MOST_BYTES)
                    self.assertLess(seconds, hostile.MOST_SECONDS)
        self.assertGreater(len(tried), 300)


class Limits(Case):
    """Those that SECURITY.md says, in its words: what has as much is read, and what has one more is not."""

    def test_the_page_has_them(self):
        text = (TOOLS.parent / "SECURITY.md").read_text(encoding="utf-8")
        for told in (
            f"| {unpacking.UNPACKED_BASE >> 20} MB and {unpacking.RATIO} times its size |",
            f"polls of a run {unpacking.STREAMED:,} times",
            f"| {unpacking.LONGEST >> 20} MB without the begin or end of an element; {unpacking.DEEPEST} elements in "
            f"one another; {unpacking.MOST_BELOW:,} elements or {unpacking.MOST_KEPT >> 20} MB in one below the root;",
            f"| {unpacking.BRACKETS:,} objects and lists, and a quarter of the bytes of the file more, in one text |",
            f"| {unpacking.LONGEST >> 20} MB a line, 131,072 letters a cell |", f"| {unpacking.LINE >> 20} MB a line |",
            f"| 4 MB, {MOST_DOTS} dots a line, {MOST_VARIANTS:,} variants |",
            f"| {PAGE_BYTES_AT_MOST >> 20} MB, and all that is sealed together {MOST_BYTES >> 20} MB |",
        ):  # fmt: skip
            self.assertIn(told, text)

    def test_what_is_packed(self):
        """16 MB and 100 times the size of the packed file."""
        # Zeros behind the packed bytes count as its bytes, and unpack to nothing.
        for size, more, is_refused in ((20_000, 0, False), (20_000, 1, True), (200_000, 0, False), (200_000, 1, True)):
            packed = gzip.compress(bytes((16 << 20) + 100 * size + more), 9).ljust(size, b"\0")
            self.assertEqual(len(packed), size)
            self.assertEqual(self.refused(refuse_bomb, io.BytesIO(packed), size), is_refused)

    def test_elements(self):
        for deep in (100, 101):
            path = self.write("x.net.xml", f"<net>{'<a>' * (deep - 1)}{'</a>' * (deep - 1)}</net>")
            self.assertEqual(self.refused(lambda path: [*elements(path)], path), deep > 100)

    def test_lines_and_brackets(self):
        for more, is_refused in ((0, False), (1, True)):
            line = io.StringIO("x" * ((4 << 20) + more))
            self.assertEqual(self.refused(lambda file: [*lines_of(file)], line), is_refused)
            text = "[" * (2_000_000 + 1000 + more)
            self.assertEqual(self.refused(refuse_crowded, text, 4000), is_refused)

    def refused(self, act, *words):
        """Whether a limit is passed."""
        try:
            act(*words)
        except (unpacking.TooMuch, Fault):
            return True
        return False


class Lifted(Case):
    def test_a_word_lifts_the_limits(self):
        """A file with an element of more than 4 MB, which --large-files reads."""
        text = f'<net version="1.9"><edge id="{"x" * 2 * unpacking.LONGEST}"/></net>'
        path = self.write("x.net.xml", text)
        with self.assertRaisesRegex(Fault, f"{path}: .* --large-files reads it all the same"):
            list(elements(path))
        words = ("import", path, "-o", self.folder / "r", "--map", self.folder / "m")
        self.assertIn("--large-files", self.tool(*words, status=2)[1])
        self.assertIn("x.net.xml: ", self.tool(*words, "--large-files", status=2)[1])
        self.assertNotIn("--large-files", self.tool(*words, "--large-files", status=2)[1])

    def test_small_files_may_be_packed_as_well_as_can_be(self):
        path = self.folder / "x.gz"
        path.write_bytes(hostile.bomb(b"", b" " * 64, megas=unpacking.UNPACKED_BASE >> 20)[:-8])
        with open_bytes(path) as file:
            self.assertEqual(len(file.read(unpacking.UNPACKED_BASE - 9)), unpacking.UNPACKED_BASE - 9)


if __name__ == "__main__":
    unittest.main()
