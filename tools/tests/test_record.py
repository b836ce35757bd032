"""The record of a run, read block by block: what it says, cut anywhere, with heads that cannot be, and by a FIFO."""
import io
import os
import struct
import subprocess
import sys
import threading
import unittest
from importlib.util import find_spec
from unittest import mock

from support import TOOLS, Case, needs_package
from streetsim.base.files import Fault
from streetsim.base.limits import CLOCK, VEHICLES
from streetsim.model.record import ARRIVED, BUFFER, BadRecord, RecordReader, TooManyRows, TornBlock, open_record

needs_numpy = needs_package("python3-numpy", find_spec("numpy"))
# Clock 7: vehicle 4 in cell 9 of link 0, lane 1, and 2 behind it; 1 in that lane's buffer, from step 8 on; 0 arrived
# from link 1.
SEVEN = (7, 4, 1, 0), [(4, 1, 9, 3), (2, 1, 5, 0), (1, 1, BUFFER + 8, 5), (0, 2, ARRIVED, 4)]
# Clock 8: the same without the arrival, and 3 was taken out before the step; clock 9: nobody is left on a lane.
EIGHT = (8, 3, 1, 1), [(4, 1, 12, 3), (2, 1, 6, 1), (1, 1, BUFFER + 8, 5)]
NINE = (9, 0, 1, 4), []


def block(head, rows):
    """A block's bytes."""
    return b"".join(struct.pack("<4I", *numbers) for numbers in (head, *rows))


RECORD = b"".join(block(*one) for one in (SEVEN, EIGHT, NINE))
BORDERS = (0, 80, 144, 160)  # of its blocks: 16 bytes for each head and each row


def reader(data):
    return RecordReader(io.BytesIO(data), "r.bin")


def told(found):
    """A block as it was put together."""
    return (found.clock, len(found.rows), found.arrived, found.taken_out), [tuple(row) for row in found.rows.tolist()]


def read_until_torn(made):
    """The blocks that a reader gives, and the fault with which it ends, or none."""
    blocks = []
    try:
        for one in made:
            blocks.append(told(one))
    except TornBlock as fault:
        return blocks, str(fault)
    return blocks, None


@needs_numpy
class Blocks(Case):
    def test_all_blocks(self):
        self.assertEqual([told(one) for one in reader(RECORD)], [SEVEN, EIGHT, NINE])

    def test_columns(self):
        found = reader(RECORD).read()
        columns = found.car, found.slot, found.spot, found.speed
        self.assertEqual([one.tolist() for one in columns], [list(column) for column in zip(*SEVEN[1])])

    def test_an_empty_record_has_no_block(self):
        made = reader(b"")
        self.assertEqual((made.read(), made.read()), (None, None))

    def test_arrays_are_no_copies(self):
        """They look into the bytes that were read, and are not written to."""
        import numpy

        class Known(io.RawIOBase):
            def read(self, size=-1):
                return RECORD

        rows = RecordReader(Known(), "r.bin").read().rows
        self.assertTrue(numpy.shares_memory(rows, numpy.frombuffer(RECORD, "u1")))
        self.assertFalse(rows.flags.writeable)

    def test_a_file_cut_at_each_byte(self):
        for size in range(len(RECORD) + 1):
            with self.subTest(size=size):
                blocks, fault = read_until_torn(reader(RECORD[:size]))
                whole = sum(border <= size for border in BORDERS) - 1
                self.assertEqual(blocks, [SEVEN, EIGHT, NINE][:whole])
                rest = size - BORDERS[whole]
                wanted = (16 if rest < 16 else BORDERS[whole + 1] - BORDERS[whole]) if rest else None
                of = f"r.bin: block {whole + 1} is torn: {rest} of {wanted} bytes"
                self.assertEqual(fault, of if rest else None)

    def test_a_file_that_comes_byte_by_byte(self):
        class Slow(io.BytesIO):
            def read(self, size=-1):
                return super().read(1)

        self.assertEqual([told(one) for one in RecordReader(Slow(RECORD), "r.bin")], [SEVEN, EIGHT, NINE])

    def test_a_block_of_more_than_is_read_at_once(self):
        rows = [(car, 0, car, 1) for car in range(50_000)]
        data = block((1, len(rows), 0, 0), rows) + block((2, 1, 0, 0), rows[:1])
        first, second = reader(data)
        self.assertEqual((told(first)[1], told(second)[1]), (rows, rows[:1]))


@needs_numpy
class Hostile(Case):
    def fault(self, kind, head, rows=(), entered=VEHICLES, before=b""):
        """What is said of a block, behind a whole one where `before` has one."""
        made = reader(before + block(head, rows))
        if before:
            made.read()
        with self.assertRaises(kind) as raised:
            made.read(entered)
        self.assertEqual(type(raised.exception), kind)
        self.assertIsInstance(raised.exception, Fault)
        return str(raised.exception)

    def test_more_rows_than_there_may_be_vehicles(self):
        promised = {VEHICLES + 1: "1,000,001", (1 << 32) - 1: "4,294,967,295"}
        for rows, shown in promised.items():
            of = f"r.bin: block 1 promises {shown} rows, and 1,000,000 vehicles were entered"
            self.assertEqual(self.fault(TooManyRows, (1, rows, 0, 0)), of)
            self.assertEqual(self.fault(TooManyRows, (1, rows, 0, 0), entered=1 << 40), of)

    def test_more_rows_than_were_entered(self):
        of = "r.bin: block 1 promises 4 rows, and 3 vehicles were entered"
        self.assertEqual(self.fault(TooManyRows, *SEVEN, entered=3), of)
        self.assertEqual(told(reader(RECORD).read(entered=5)), SEVEN)

    def test_nothing_is_read_for_such_a_head(self):
        """Neither the rows nor memory for them."""
        sizes = []

        class Endless(io.RawIOBase):
            def read(self, size=-1):
                sizes.append(size)
                return struct.pack("<4I", 1, VEHICLES + 1, 0, 0)

        with self.assertRaises(TooManyRows):
            RecordReader(Endless(), "r.bin").read()
        self.assertEqual(len(sizes), 1)

    def test_the_most_rows_there_may_be(self):
        """A million are no fault of the head: the block is torn, as they do not come."""
        of = "r.bin: block 1 is torn: 16 of 16,000,016 bytes"
        self.assertEqual(self.fault(TornBlock, (1, VEHICLES, 0, 0)), of)

    def test_more_ended_than_were_entered(self):
        of = "r.bin: block 1 has 6 vehicles that ended, and 5 were entered"
        self.assertEqual(self.fault(BadRecord, (1, 0, 4, 2), entered=5), of)
        self.assertIsNotNone(reader(block((1, 0, 3, 2), [])).read(entered=5))

    def test_a_vehicle_that_was_not_entered(self):
        of = "r.bin: block 1 has vehicle 4, which was not entered"
        self.assertEqual(self.fault(BadRecord, *SEVEN, entered=4), of)

    def test_clocks(self):
        """After a step the clock is 1 at least and 1,000,000,000 at most."""
        for clock in (0, CLOCK + 1, (1 << 32) - 1):
            of = f"r.bin: block 1 has the clock {clock:,}"
            self.assertEqual(self.fault(BadRecord, (clock, 0, 0, 0)), of)
        self.assertEqual(reader(block((CLOCK, 0, 0, 0), [])).read().clock, CLOCK)

    def test_a_clock_that_does_not_follow(self):
        for clock in (7, 9):
            of = f"r.bin: block 2 has the clock {clock} behind 7"
            self.assertEqual(self.fault(BadRecord, (clock, 0, 1, 0), before=block(*SEVEN)), of)


@needs_numpy
class Opened(Case):
    def test_a_file(self):
        path = self.folder / "run.bin"
        path.write_bytes(RECORD)
        with open_record(path) as file:
            self.assertEqual([told(one) for one in RecordReader(file, path)], [SEVEN, EIGHT, NINE])

    def test_no_record(self):
        for path, why in ((self.folder / "none", "No such file or directory"), (self.folder, "Is a directory")):
            with self.assertRaises(Fault) as raised:
                open_record(path)
            self.assertEqual(str(raised.exception), f"{path}: {why}")

    def fifo(self, write):
        """A reader of a FIFO, into which `write` writes in a thread of its own."""
        path = self.folder / "fifo"
        os.mkfifo(path)
        file = open_record(path)
        self.addCleanup(file.close)
        end = os.open(path, os.O_WRONLY)
        writer = threading.Thread(target=write, args=(end,))
        writer.start()
        self.addCleanup(writer.join)
        return RecordReader(file, "fifo")

    def test_a_writer_that_stops_half_way(self):
        def write(end):
            os.write(end, RECORD[:100])
            os.close(end)

        blocks, fault = read_until_torn(self.fifo(write))
        self.assertEqual((blocks, fault), ([SEVEN], "fifo: block 2 is torn: 20 of 64 bytes"))

    def test_each_block_comes_as_it_is_written(self):
        """The reader waits for no more than the block that it was asked for."""
        seen = threading.Event()

        def write(end):
            os.write(end, RECORD[:80])
            self.assertTrue(seen.wait(20))
            os.write(end, RECORD[80:100])
            os.write(end, RECORD[100:])
            os.close(end)

        made = self.fifo(write)
        self.assertEqual(told(made.read()), SEVEN)
        seen.set()
        self.assertEqual([told(one) for one in made], [EIGHT, NINE])

    def test_a_block_of_more_than_a_pipe_holds(self):
        rows = [(car, 0, car, 1) for car in range(50_000)]

        def write(end):
            with os.fdopen(end, "wb") as file:
                file.write(block((1, len(rows), 0, 0), rows))

        [found] = self.fifo(write)
        self.assertEqual(told(found)[1], rows)


class Missing(Case):
    """Without NumPy."""

    def test_one_line_names_the_package(self):
        with mock.patch.dict(sys.modules, {"numpy": None}), self.assertRaises(Fault) as raised:
            reader(RECORD)
        told = "the record of a run needs Debian's python3-numpy: apt install python3-numpy"
        self.assertEqual(str(raised.exception), told)

    def test_each_module_is_imported(self):
        paths = (path.relative_to(TOOLS).with_suffix("").parts for path in (TOOLS / "streetsim").rglob("*.py"))
        names = sorted(".".join(parts[:-1] if parts[-1] == "__init__" else parts) for parts in paths)
        code = f"import importlib, sys; sys.modules['numpy'] = None; [importlib.import_module(n) for n in {names}]"
        done = subprocess.run([sys.executable, "-c", code], cwd=TOOLS, capture_output=True, text=True, check=False)
        self.assertEqual((done.returncode, done.stderr), (0, ""))

    def test_each_tool_tells_its_help(self):
        (self.folder / "numpy").mkdir()
        (self.folder / "numpy/__init__.py").write_text("raise ImportError('hidden')\n")
        environment = {**os.environ, "PYTHONPATH": str(self.folder)}
        for path in sorted(TOOLS.glob("streetsim-*")):
            done = subprocess.run([path, "--help"], env=environment, capture_output=True, text=True, check=False)
            self.assertEqual((done.returncode, done.stdout.split()[:2]), (0, ["usage:", path.name]), done.stderr)


class Packed(unittest.TestCase):
    def test_numpy_is_a_dependency(self):
        """Of Debian's package, of the wheel, and of the tests."""
        self.assertRegex((TOOLS.parent / "debian/control").read_text(), r"(?m)^Depends: .*\bpython3-numpy\b")
        self.assertIn("python3-numpy", (TOOLS / "tests/packages.txt").read_text().split())
        self.assertIn('dependencies = ["numpy>=1.24"]', (TOOLS / "pyproject.toml").read_text())


if __name__ == "__main__":
    unittest.main()
