"""Imports that are kept between two starts: what is taken, and what is as if it were not there."""
import os
import unittest
from contextlib import redirect_stderr
from io import StringIO
from pathlib import Path
from unittest.mock import patch

from support import TOOLS, Case

from streetsim.base.files import Fault
from streetsim.cli import import_, importing
from streetsim.model import kept_imports
from streetsim.model.kept_imports import KeptImport, kept_folder, key_of, read_kept, write_kept
from streetsim.simulation import opening

CROSS = TOOLS / "examples/actuated"
NET, ROUTES = str(CROSS / "cross.net.xml.gz"), str(CROSS / "cross.rou.xml")
MADE = KeptImport('{"cmd":"load"}\n', "{}", "warning: ä\n")
KEY = "0" * 64


class Bodies(unittest.TestCase):
    def test_texts_behind_each_other(self):
        """Each with its length in bytes before it; a body that is cut off is none."""
        body = kept_imports.body_of(MADE)
        self.assertTrue(body.startswith(b"\0" * 7 + b"\x0f" + b'{"cmd":"load"}\n'))
        self.assertEqual([part.decode() for part in kept_imports.parts_of(body)], list(MADE))
        with self.assertRaises(ValueError):
            list(kept_imports.parts_of(body[:-1]))


class KeptImports(Case):
    def setUp(self):
        super().setUp()
        self.enterContext(patch.dict(os.environ, XDG_CACHE_HOME=str(self.folder / "cache"), STREETSIM_CACHE=""))
        self.kept = self.folder / "cache/streetsim/imports"

    def imported(self, name, words=("--seed", "3")):
        """(what an import into a new folder said, its run, its map)."""
        folder = self.folder / name
        folder.mkdir()
        said = opening.import_or_take_kept(folder, [NET, *words], [ROUTES], [NET, ROUTES])
        return said, (folder / "run.jsonl").read_bytes(), (folder / "map.json").read_bytes()

    def test_a_second_start_imports_nothing_and_has_the_same_bytes(self):
        first = self.imported("first")
        with patch.object(opening, "import_files", side_effect=AssertionError("imports")):
            self.assertEqual(self.imported("second"), first)
            with self.assertRaisesRegex(AssertionError, "imports"):
                self.imported("third", ("--seed", "4"))
            with patch.dict(os.environ, STREETSIM_CACHE="off"), self.assertRaisesRegex(AssertionError, "imports"):
                self.imported("fourth")
        self.assertEqual(len(list(self.kept.iterdir())), 1)
        self.assertIn(b'"seed":3', first[1])

    def by_command(self, *words):
        """(status, what streetsim-import said, its run, its map)."""
        run, mapping = self.folder / "x.jsonl", self.folder / "x.map.json"
        with redirect_stderr(StringIO()) as said:
            status = import_.main([NET, "--routes", ROUTES, "-o", str(run), "--map", str(mapping), *words])
        return status, said.getvalue(), run.read_bytes(), mapping.read_bytes()

    def test_the_command_takes_a_kept_import_of_equal_words_and_files(self):
        first = self.by_command("--seed", "3")
        self.assertIn(" vehicles\n", first[1])
        with patch.object(importing, "read_and_converted", side_effect=AssertionError("imports")):
            self.assertEqual(self.by_command("--seed", "3"), first)
            table = self.folder / "warnings.csv"
            for words in (["--seed", "4"], ["--seed", "3", "--strict"], ["--seed", "3", "--warnings", str(table)]):
                with self.subTest(words), self.assertRaisesRegex(AssertionError, "imports"):
                    self.by_command(*words)
        self.assertEqual(len(list(self.kept.iterdir())), 1)

    def test_what_fails_and_what_is_no_file_is_not_kept(self):
        with self.assertRaises(Fault):
            self.imported("wrong", ("--classes", "nothing"))
        self.assertIsNone(key_of([], [self.folder / "absent"]))
        os.mkfifo(self.folder / "pipe")
        self.assertIsNone(key_of([], [self.folder / "pipe"]))
        self.assertFalse(self.kept.exists() and list(self.kept.iterdir()))

    def test_a_key_is_of_all_that_an_import_hangs_on(self):
        path = self.write("a.xml", "<a/>")
        first = key_of(["x"], [path])
        self.assertEqual(first, key_of(["x"], [path]))
        with patch.object(kept_imports, "VERSION", "0.9"):
            self.assertNotEqual(first, key_of(["x"], [path]))
        with patch.object(kept_imports, "tool_files", return_value=iter(["other.py 1 1"])):
            self.assertNotEqual(first, key_of(["x"], [path]))
        with patch.dict(os.environ, STREETSIM_LARGE_FILES="1"):
            self.assertNotEqual(first, key_of(["x"], [path]))
        self.assertNotEqual(first, key_of(["y"], [path]))
        Path(path).write_text("<b/>")
        self.assertNotEqual(first, key_of(["x"], [path]))

    def test_an_entry_that_is_cut_changed_or_foreign_is_as_if_it_were_not_there(self):
        write_kept(KEY, MADE)
        self.assertEqual(read_kept(KEY), MADE)
        path = self.kept / KEY
        whole = path.read_bytes()
        changed = [whole[:at] + bytes([whole[at] ^ 1]) + whole[at + 1 :] for at in range(len(whole))]
        for data in (b"", whole[:10], whole[:-1], whole + b"x", b"not of streetsim\n" * 9, *changed):
            path.write_bytes(data)
            self.assertIsNone(read_kept(KEY), data)
        (self.kept / ("1" * 64)).write_bytes(whole)
        self.assertIsNone(read_kept("1" * 64))  # of another key
        path.unlink()
        path.symlink_to(self.kept / ("1" * 64))
        self.assertIsNone(read_kept(KEY))
        path.unlink()
        path.mkdir()
        self.assertIsNone(read_kept(KEY))
        write_kept(KEY, MADE)
        self.assertIsNone(read_kept(KEY))

    def test_a_folder_where_others_may_write_is_not_used(self):
        write_kept(KEY, MADE)
        os.chmod(self.kept, 0o777)
        self.assertIsNone(kept_folder())
        self.assertIsNone(read_kept(KEY))
        os.chmod(self.kept, 0o700)
        self.assertEqual(read_kept(KEY), MADE)
        with patch.dict(os.environ, XDG_CACHE_HOME=self.write("file", "")):
            write_kept(KEY, MADE)
            self.assertIsNone(read_kept(KEY))

    def test_the_folder_is_bounded(self):
        with patch.object(kept_imports, "MOST_ENTRIES", 3):
            for number in range(6):
                write_kept(f"{number:064}", MADE)
                os.utime(self.kept / f"{number:064}", (number, number))
            write_kept(f"{6:064}", MADE)
        self.assertEqual(sorted(one.name for one in self.kept.iterdir()), [f"{number:064}" for number in (4, 5, 6)])
        with patch.object(kept_imports, "LARGEST", 10):
            write_kept(KEY, MADE)
        self.assertIsNone(read_kept(KEY))
        with patch.object(kept_imports, "MOST_BYTES", 10):
            write_kept(KEY, MADE)
        self.assertEqual(list(self.kept.iterdir()), [])


if __name__ == "__main__":
    unittest.main()
