"""The record that the program writes: beside its definition, in a file and a FIFO, beside a session that is kept, and
where it can not be written.

What is wanted is told by docs/LINES.md, and by check/, which evaluates the definition. The replies that are wanted come
from runs without a record.
"""
import contextlib
import functools
import json
import os
import random
import re
import resource
import select
import shutil
import signal
import subprocess
import sys
import threading
import unittest
from importlib.util import find_spec
from pathlib import Path

from support import PROGRAM, TOOLS, needs_package
from streetsim.model.record import RecordReader, TornBlock, open_record
from test_kept import random_lines, replies_to
from test_program import EXAMPLES, ProgramCase
from test_workers import enter_of, links_of_town, load_of_town
from trials import ends_of_blocks

CHECK = TOOLS.parent / "check/definitions.py"
PAGE = (TOOLS.parent / "docs/LINES.md").read_text(encoding="utf-8")
WORKERS = (1, 3, 64)
ADVANCE = '{"cmd":"advance","steps":1}'
PIPE = 1 << 16  # bytes that wait in a pipe at most
SAME_FILE = "streetsim: bad arguments\nthe arguments '--keep <FILE>' and '--record <FILE>' name one file\n"
needs_numpy = needs_package("python3-numpy", find_spec("numpy"))


def text_of(lines):
    return "".join(f"{line}\n" for line in lines)


@functools.cache
def defined_record(text):
    """The record of a session, as the definitions have it."""
    words = [sys.executable, CHECK, "record"]
    return subprocess.run(words, input=text.encode(), capture_output=True, timeout=300, check=True).stdout


@functools.cache
def blocks_after(lines):
    """How many bytes the record of a session has after each of its lines."""
    return ends_of_blocks(lines, replies_to(lines), defined_record(text_of(lines)))


def lines_of_town(cars, steps):
    """A town with so many vehicles, most of them on its streets after ten steps; then steps one by one."""
    links = links_of_town()
    lines = [load_of_town(), *(enter_of(links, car) for car in range(cars)), {"cmd": "advance", "steps": 10}]
    return [*map(json.dumps, lines), *[ADVANCE] * steps]


def growing_to(limit):
    """What has a program that is started then make no file longer than so many bytes; a write beyond that fails."""
    def limits():
        signal.signal(signal.SIGXFSZ, signal.SIG_IGN)
        resource.setrlimit(resource.RLIMIT_FSIZE, (limit, limit))

    return limits


class Client:
    """Sends lines to the program, and waits for replies."""

    def __init__(self, case, words):
        self.program = subprocess.Popen(
            [PROGRAM, *map(str, words)], stdin=subprocess.PIPE, stdout=subprocess.PIPE, stderr=subprocess.PIPE,
            cwd=case.folder,
        )
        case.addCleanup(self.end)

    def send(self, lines):
        self.program.stdin.write(text_of(lines).encode())
        self.program.stdin.flush()

    def reply(self):
        return self.program.stdout.readline().decode().rstrip("\n")

    def ask(self, line):
        self.send([line])
        return self.reply()

    def is_silent(self, seconds=0.3):
        """Whether nothing is replied for so long."""
        return not select.select([self.program.stdout], [], [], seconds)[0]

    def end(self):
        """Ends its input; its status, and what it said on standard error."""
        if not self.program.stdout.closed:
            with contextlib.suppress(BrokenPipeError):
                self.program.stdin.close()
            self.ended = self.program.wait(60), self.program.stderr.read().decode()
            self.program.stdout.close()
            self.program.stderr.close()
        return self.ended


class RecordCase(ProgramCase):
    """A test whose runs write a record."""

    def record(self, name="r.bin"):
        return (self.folder / name).read_bytes()

    def fifo(self):
        """A FIFO that is open to be read; reads do not wait."""
        path = self.folder / "fifo"
        os.mkfifo(path)
        file = os.fdopen(os.open(path, os.O_RDONLY | os.O_NONBLOCK), "rb", buffering=0)
        self.addCleanup(file.close)
        return file


class Defined(RecordCase):
    def check_session(self, text):
        """Replies are those without the record, and the record is the one defined, however the session is served."""
        replies, record = self.ends(["--endless"], text), defined_record(text)
        for workers in WORKERS:
            for words in ([], ["--endless"]):
                with self.subTest(workers=workers, words=words):
                    told = self.ends([*words, "--workers", workers, "--record", "r.bin"], text)
                    self.assertEqual(told, replies)
                    self.assertEqual(self.record(), record)
        return record

    def test_each_example(self):
        """A file that is there is emptied first."""
        (self.folder / "r.bin").write_bytes(b"old" * 10_000)
        for session in sorted(EXAMPLES.glob("*.jsonl")):
            with self.subTest(session=session.stem):
                self.check_session(session.read_text())

    def test_sessions_of_all_commands(self):
        for seed in (3, 4):
            lines = random_lines(seed, 250)
            record = self.check_session(text_of([*lines, "no command", '{"cmd":"advance","steps":5}']))
            self.assertGreater(len(record), 5_000)

    def test_an_advance_of_many_steps_has_a_block_for_each(self):
        lines = random_lines(6, 80)
        one_by_one = self.check_session(text_of([*lines, *[ADVANCE] * 40]))
        self.assertEqual(self.check_session(text_of([*lines, '{"cmd":"advance","steps":40}'])), one_by_one)

    def test_what_makes_no_step_has_no_block(self):
        load = (EXAMPLES / "one-vehicle.jsonl").read_text().splitlines()[0]
        refused = [ADVANCE, load, '{"cmd":"advance","steps":10001}', '{"cmd":"advance","steps":0}', '{"cmd":"count"}']
        self.ends(["--record", "r.bin"], text_of(refused))
        self.assertEqual(self.record(), b"")

    def test_the_example_of_the_page(self):
        """Its session, its last block as it is worked out by hand, and how long its record is."""
        chapter = PAGE[PAGE.index("\n## 14. ") :]
        session = re.search(r"```session\n(.*?)```", chapter, re.S)[1].splitlines()
        lines = [line[2:] for line in session if line.startswith("> ")]
        replies = [line for line in session if not line.startswith("> ")]
        shown = re.search(r"```\n((?:[0-9a-f]{8}(?: [0-9a-f]{8}){3}.*\n)+)```", chapter)[1]
        block = bytes.fromhex("".join(line[:35] for line in shown.splitlines()))
        self.assertEqual(self.ends(["--record", "r.bin"], text_of(lines)), text_of(replies))
        size = int(re.search(r"the record has ([0-9]+) bytes", chapter)[1])
        self.assertEqual((len(self.record()), self.record()[-len(block) :]), (size, block))
        self.assertEqual(self.record(), defined_record(text_of(lines)))

    def test_steps_that_are_shared_by_threads(self):
        """Above 1,500 vehicles: each number of workers writes the record of one."""
        text = text_of([*lines_of_town(6_000, 20), '{"cmd":"advance","steps":20}', '{"cmd":"count"}'])
        replies = self.ends(["--endless"], text)
        self.assertGreater(json.loads(replies.splitlines()[-1])["cells"], 4_000)
        self.ends(["--record", "one.bin"], text)
        for workers in (2, 4, 64):
            self.assertEqual(self.ends(["--record", "r.bin", "--workers", workers], text), replies)
            self.assertEqual(self.record(), self.record("one.bin"), workers)


    def test_it_takes_no_memory_that_grows(self):
        """A record of some megabytes takes the buffer in which its bytes wait, and no more."""
        lines = lines_of_town(6_000, 0)
        most = {}
        for words in (["--endless"], ["--record", "r.bin"]):
            client = Client(self, words)
            for line in [*lines, *['{"cmd":"advance","steps":20}'] * 3]:
                client.ask(line)
            status = Path(f"/proc/{client.program.pid}/status").read_text(encoding="utf-8")
            most[words[0]] = int(re.search(r"VmHWM:\s+([0-9]+) kB", status)[1])
            self.assertEqual(client.end(), (0, ""))
        self.assertGreater(len(self.record()), 4_000_000)
        self.assertLess(most["--record"] - most["--endless"], 512)


class Followed(RecordCase):
    def test_a_block_is_in_the_file_when_its_reply_is_there(self):
        lines = random_lines(7, 120)
        for workers in (1, 3):
            client = Client(self, ["--record", "r.bin", "--workers", workers])
            for line, reply, size in zip(lines, replies_to(lines), blocks_after(tuple(lines))):
                self.assertEqual(client.ask(line), reply)
                self.assertEqual(self.record(), defined_record(text_of(lines))[:size])
            self.assertEqual(client.end(), (0, ""))

    def test_a_block_is_in_the_fifo_when_its_reply_is_there(self):
        """Nobody waits for it: it is read without."""
        file, lines = self.fifo(), random_lines(8, 120)
        client, before = Client(self, ["--record", "fifo", "--workers", 3]), 0
        for line, reply, size in zip(lines, replies_to(lines), blocks_after(tuple(lines))):
            self.assertEqual(client.ask(line), reply)
            self.assertEqual(file.read(PIPE) or b"", defined_record(text_of(lines))[before:size])
            before = size
        self.assertEqual(client.end(), (0, ""))
        self.assertEqual(file.read(1), b"")

    def test_many_lines_at_once(self):
        """Whichever reply is read, its block is there."""
        lines = random_lines(9, 200)
        client = Client(self, ["--record", "r.bin"])
        client.send(lines)
        for reply, size in zip(replies_to(lines), blocks_after(tuple(lines))):
            self.assertEqual(client.reply(), reply)
            self.assertGreaterEqual((self.folder / "r.bin").stat().st_size, size)
        self.assertEqual(client.end(), (0, ""))

    def test_it_waits_for_a_reader(self):
        """Of a FIFO that nobody has opened."""
        os.mkfifo(self.folder / "fifo")
        client = Client(self, ["--record", "fifo"])
        client.send(['{"cmd":"count"}'])
        self.assertTrue(client.is_silent())
        with open(self.folder / "fifo", "rb") as file:
            self.assertEqual(client.reply(), '{"error":1,"name":"NotLoaded"}')
            self.assertEqual(client.end(), (0, ""))
            self.assertEqual(file.read(), b"")

    def test_a_block_of_more_than_a_pipe_holds_is_waited_for(self):
        """The program goes on once it is read."""
        lines = lines_of_town(6_000, 1)
        self.ends(["--record", "r.bin"], text_of(lines[:-1]))
        before = len(self.record())
        self.ends(["--record", "r.bin"], text_of(lines))
        wanted = self.record()
        self.assertGreater(len(wanted) - before, PIPE)
        file, got = self.fifo(), b""
        client = Client(self, ["--record", "fifo"])
        for line in lines[:-2]:
            client.ask(line)
        client.send(lines[-2:])
        self.assertTrue(client.is_silent())
        os.set_blocking(file.fileno(), True)
        while len(got) < len(wanted):
            got += file.read(PIPE)
        self.assertEqual([client.reply(), client.reply()], ['{"clock":10}', '{"clock":11}'])
        self.assertEqual(got, wanted)

    @needs_numpy
    def test_in_lock_step_with_the_reader_of_the_tools(self):
        """Each block is read before the reply to its advance."""
        os.mkfifo(self.folder / "fifo")
        lines = random_lines(10, 60)
        clock = json.loads(replies_to([*lines, '{"cmd":"advance","steps":0}'])[-1])["clock"]
        with open_record(self.folder / "fifo") as file:
            client, made = Client(self, ["--record", "fifo"]), RecordReader(file, "fifo")
            for line in lines:
                client.ask(line)
            self.assertEqual([made.read().clock for _ in range(clock)], list(range(1, clock + 1)))
            for clock in range(clock + 1, clock + 30):
                client.send([ADVANCE])
                self.assertEqual(made.read().clock, clock)
                self.assertEqual(client.reply(), f'{{"clock":{clock}}}')
            self.assertEqual(client.end(), (0, ""))
            self.assertIsNone(made.read())


class BesideKept(RecordCase):
    LINES = random_lines(11, 200)

    def test_the_same_replies_the_same_log_and_the_record(self):
        text = text_of(self.LINES)
        replies = self.ends(["--keep", "alone.jsonl"], text)
        for workers in WORKERS:
            for more in ([], ["--unsynced"], ["--endless"]):
                (self.folder / "a.jsonl").unlink(missing_ok=True)
                words = ["--keep", "a.jsonl", "--record", "r.bin", "--workers", workers, *more]
                self.assertEqual(self.ends(words, text), replies)
                self.assertEqual(self.record("a.jsonl"), self.record("alone.jsonl"))
                self.assertEqual(self.record(), defined_record(text))

    def test_lines_that_are_done_again_write_nothing(self):
        """The record of a run has the steps of that run, and FILE is emptied for it."""
        for half in (1, 90, 200):
            (self.folder / "a.jsonl").unlink(missing_ok=True)
            words = ["--keep", "a.jsonl", "--record", "r.bin"]
            self.ends(words, text_of(self.LINES[:half]))
            size = blocks_after(tuple(self.LINES))[half - 1]
            self.assertEqual(self.record(), defined_record(text_of(self.LINES))[:size])
            lines = self.record("a.jsonl").count(b"\n")
            again = f"streetsim: {lines} lines of a.jsonl were done again\n" if lines else ""
            told = self.ends([*words, "--workers", 3], text_of(self.LINES[half:]), error=again)
            self.assertEqual(told.splitlines(), replies_to(self.LINES)[half:])
            self.assertEqual(self.record(), defined_record(text_of(self.LINES))[size:])

    def test_a_bad_log_leaves_the_record_as_it_was(self):
        self.write("a.jsonl", "no command\n")
        self.write("r.bin", "old")
        self.ends(["--keep", "a.jsonl", "--record", "r.bin"], ADVANCE, 1, "streetsim: bad tape at line 1\n")
        self.assertEqual(self.record(), b"old")

    def test_both_in_one_file(self):
        """By its name, by a link and by a second name: bad arguments, and the file is as it was."""
        text = (EXAMPLES / "one-vehicle.jsonl").read_text()
        self.write("a.jsonl", text)
        (self.folder / "soft").symlink_to("a.jsonl")
        os.link(self.folder / "a.jsonl", self.folder / "hard")
        for name in ("a.jsonl", "./a.jsonl", "soft", "hard"):
            for workers in (1, 3):
                words = [PROGRAM, "--keep", "a.jsonl", "--record", name, "--workers", str(workers)]
                done = subprocess.run(words, input=text, capture_output=True, text=True, cwd=self.folder, check=False)
                self.assertEqual((done.returncode, done.stdout), (2, ""))
                self.assertEqual(done.stderr, SAME_FILE)
                self.assertEqual((self.folder / "a.jsonl").read_text(), text)

    def test_both_in_one_new_file(self):
        """Whatever it is called: what would be answered could not be kept."""
        (self.folder / "soft").symlink_to("a.jsonl")
        text = (EXAMPLES / "one-vehicle.jsonl").read_text()
        for name in ("a.jsonl", "./a.jsonl", "soft"):
            for workers in (1, 3):
                (self.folder / "a.jsonl").unlink(missing_ok=True)
                words = [PROGRAM, "--keep", "a.jsonl", "--record", name, "--workers", str(workers)]
                done = subprocess.run(words, input=text, capture_output=True, text=True, cwd=self.folder, check=False)
                self.assertEqual((done.returncode, done.stdout), (2, ""))
                self.assertEqual(done.stderr, SAME_FILE)

    def test_ended_at_random_moments(self):
        """What was answered is in the log and its blocks in the record, which may be ahead of the log."""
        draw, lines = random.Random(12), self.LINES
        sizes, wanted = blocks_after(tuple(lines)), defined_record(text_of(lines))
        for _ in range(20):
            (self.folder / "a.jsonl").unlink(missing_ok=True)
            client = Client(self, ["--keep", "a.jsonl", "--record", "r.bin", "--workers", draw.choice(WORKERS)])
            killer = threading.Timer(draw.uniform(0.001, 0.02), client.program.kill)
            killer.start()
            replies = []
            with contextlib.suppress(BrokenPipeError):
                for line in lines:
                    replies.append(client.ask(line))
            killer.join()
            client.end()
            answered = len(list(filter(None, replies)))
            record = self.record() if answered else b""
            self.assertEqual(record, wanted[: len(record)])
            self.assertGreaterEqual(len(record), sizes[answered - 1] if answered else 0)
            if answered:
                self.ends(["--keep", "part.jsonl"], text_of(lines[:answered]))
                self.assertTrue(self.record("a.jsonl").startswith(self.record("part.jsonl")))
                (self.folder / "part.jsonl").unlink()

    def test_a_log_that_fails_ends_the_session(self):
        """The record has the blocks of all lines of the read whose log failed, and no more; the log has those of reads
        before it alone, and their replies are out."""
        load, enter, *_ = (EXAMPLES / "one-vehicle.jsonl").read_text().splitlines()
        lines = [load, enter, *[ADVANCE.ljust(300 + at) for at in range(60)]]
        text, limit, size = text_of(lines), 9_000, 4_096
        wanted, sizes = defined_record(text), blocks_after(tuple(lines))
        # How many lines have ended before each read ends, and how long they are together.
        ended = [text[:end].count("\n") for end in range(size, len(text), size)]
        failed = next(at for at, count in enumerate(ended) if len(text_of(lines[:count])) > limit)
        kept, served = ended[failed - 1], ended[failed]
        self.write("text", text)
        for workers in WORKERS:
            (self.folder / "a.jsonl").unlink(missing_ok=True)
            with open(self.folder / "text", encoding="utf-8") as file:
                done = subprocess.run(
                    [PROGRAM, "--keep", "a.jsonl", "--record", "r.bin", "--workers", str(workers)], stdin=file,
                    capture_output=True, text=True, check=False, cwd=self.folder, preexec_fn=growing_to(limit),
                )
            self.assertEqual((done.returncode, done.stderr), (1, "streetsim: cannot write a.jsonl\n"))
            self.assertEqual(done.stdout.splitlines(), replies_to(lines)[:kept])
            self.assertEqual((self.folder / "a.jsonl").read_text(), text_of(lines[:kept]))
            self.assertEqual(self.record(), wanted[: sizes[served - 1]])

    def test_a_record_that_fails_ends_the_session(self):
        """Of the read whose record failed nothing is answered; what was kept before is there, and goes on."""
        load, enter, advance, ask = (EXAMPLES / "one-vehicle.jsonl").read_text().splitlines()
        client = Client(self, ["--keep", "a.jsonl", "--record", "/dev/full"])
        client.ask(load)
        self.assertEqual(client.ask(enter), '{"car":0}')
        self.assertEqual(client.ask(advance), "")
        self.assertEqual(client.end(), (1, "streetsim: cannot write /dev/full\n"))
        self.assertEqual((self.folder / "a.jsonl").read_text(), text_of([load, enter]))
        again = "streetsim: 2 lines of a.jsonl were done again\n"
        told = self.ends(["--keep", "a.jsonl", "--record", "r.bin"], text_of([advance, ask]), error=again)
        self.assertEqual(told, '{"clock":5}\n{"car":0,"state":"arrived","step":4}\n')


class Faults(RecordCase):
    LINES = [*(EXAMPLES / "one-vehicle.jsonl").read_text().splitlines()[:2], *[ADVANCE] * 6, '{"cmd":"count"}']

    def test_a_full_device(self):
        """The lines before the first advance are answered."""
        for workers in WORKERS:
            words = ["--record", "/dev/full", "--workers", workers]
            told = self.ends(words, text_of(self.LINES), 1, "streetsim: cannot write /dev/full\n")
            self.assertEqual(told.splitlines(), replies_to(self.LINES)[:2])
        self.assertEqual(self.ends(["--record", "/dev/full"], text_of(self.LINES[:2])).count("\n"), 2)

    def test_standard_output_is_full_too(self):
        """The record's fault is told, which came first."""
        for workers in WORKERS:
            words = [PROGRAM, "--record", "/dev/full", "--workers", str(workers)]
            with open("/dev/full", "wb") as full:
                done = subprocess.run(
                    words, input=text_of(self.LINES), stdout=full, stderr=subprocess.PIPE, text=True, check=False
                )
            self.assertEqual((done.returncode, done.stderr), (1, "streetsim: cannot write /dev/full\n"))

    def test_streams_that_are_closed(self):
        """Neither what is told nor a reply goes into a file."""
        wanted, replies = defined_record(text_of(self.LINES)), text_of(replies_to(self.LINES))
        kept = text_of(line for line in self.LINES if '"count"' not in line).encode()
        ends = {"2>&-": (0, replies), "2>&- >/dev/full": (1, ""), "<&-": (1, ""), "<&- 2>&-": (1, "")}
        for words in ([], ["--endless"], ["--workers", 3], ["--keep", "a.jsonl"]):
            for closed, end in ends.items():
                with self.subTest(words=words, closed=closed):
                    self.write("a.jsonl", "")
                    self.write("r.bin", "")
                    told = self.ends_closed(closed, ["--record", "r.bin", *words], text_of(self.LINES))
                    self.assertEqual(told, end)
                    self.assertEqual(self.record(), b"" if "<" in closed else wanted)
                    self.assertEqual(self.record("a.jsonl"), kept if "--keep" in words and "<" not in closed else b"")

    def test_standard_output_is_closed(self):
        """No reply can be written, and none goes into the record."""
        wanted = defined_record(text_of(self.LINES))
        for words in ([], ["--endless"], ["--workers", 3], ["--keep", "a.jsonl"]):
            for closed in (">&-", ">&- 2>&-", "<&- >&- 2>&-"):
                with self.subTest(words=words, closed=closed):
                    self.write("r.bin", "")
                    told = self.ends_closed(closed, ["--record", "r.bin", *words], text_of(self.LINES))
                    self.assertEqual((told, self.record()), ((1, ""), wanted[: len(self.record())]))

    def test_what_can_not_be_made(self):
        """No line is read."""
        (self.folder / "folder").mkdir()
        self.write("file", "")
        for name in ("folder", "nowhere/r.bin", "file/r.bin", ""):
            with self.subTest(name=name):
                told = self.ends(["--record", name], text_of(self.LINES), 1, f"streetsim: cannot write {name}\n")
                self.assertEqual(told, "")

    def grown_to(self, limit, words):
        """The replies of a run in which no file may grow beyond so many bytes."""
        done = subprocess.run(
            [PROGRAM, "--record", "r.bin", *words], input=text_of(self.LINES), capture_output=True, text=True,
            check=False, cwd=self.folder, preexec_fn=growing_to(limit),
        )
        self.assertEqual((done.returncode, done.stderr), (1, "streetsim: cannot write r.bin\n"))
        return done.stdout.splitlines()

    def test_a_file_that_may_not_grow(self):
        """At each size: the record is the first bytes of the one defined, and those lines are answered whose blocks
        are whole, up to the first whose blocks are not."""
        wanted, sizes = defined_record(text_of(self.LINES)), blocks_after(tuple(self.LINES))
        for limit in range(1, len(wanted)):
            told = self.grown_to(limit, ["--workers", str(WORKERS[limit % 3])])
            self.assertEqual(self.record(), wanted[:limit])
            self.assertEqual(told, replies_to(self.LINES)[: sum(size <= limit for size in sizes)])

    @needs_numpy
    def test_a_torn_block_is_told_behind_whole_ones(self):
        sizes = blocks_after(tuple(self.LINES))
        for limit in (sizes[3] - 1, sizes[3], sizes[3] + 1, sizes[3] + 17):
            self.grown_to(limit, [])
            with open_record(self.folder / "r.bin") as file:
                made, whole = RecordReader(file, "r.bin"), sum(size <= limit for size in sizes[2:8])
                self.assertEqual([made.read().clock for _ in range(whole)], list(range(1, whole + 1)))
                if limit in sizes:
                    self.assertIsNone(made.read())
                else:
                    self.assertRaises(TornBlock, made.read)

    @unittest.skipUnless(os.geteuid() == 0 and shutil.which("mount"), "no right to mount")
    def test_a_disk_that_is_full(self):
        disk = self.folder / "disk"
        disk.mkdir()
        if subprocess.run(["mount", "-t", "tmpfs", "-o", "size=16k", "tmpfs", disk], check=False).returncode:
            self.skipTest("no right to mount")
        self.addCleanup(subprocess.run, ["umount", disk], check=False)
        lines = random_lines(13, 600)
        wanted, sizes = defined_record(text_of(lines)), blocks_after(tuple(lines))
        self.assertGreater(len(wanted), 4 * 4096)
        told = self.ends(["--record", disk / "r.bin"], text_of(lines), 1, f"streetsim: cannot write {disk}/r.bin\n")
        record = (disk / "r.bin").read_bytes()
        self.assertEqual(record, wanted[: len(record)])
        self.assertEqual(told.splitlines(), replies_to(lines)[: sum(size <= len(record) for size in sizes)])

    def test_a_reader_that_goes_away(self):
        for workers in (1, 3):
            file = self.fifo()
            client = Client(self, ["--record", "fifo", "--workers", workers])
            replies = replies_to(self.LINES)
            self.assertEqual([client.ask(line) for line in self.LINES[:3]], replies[:3])
            file.close()
            self.assertEqual(client.ask(ADVANCE), "")
            self.assertEqual(client.end(), (1, "streetsim: cannot write fifo\n"))
            (self.folder / "fifo").unlink()


class Words(ProgramCase):
    def test_what_it_may_not_stand_beside(self):
        why = (
            "the arguments '--endless', '--keep <FILE>' and '--record <FILE>' cannot be used with scripts, "
            "'--calls <N>', '--tape <FILE>', '--replay <FILE>' or '--upgrade <FILE>'"
        )
        self.write("a", (EXAMPLES / "one-vehicle.jsonl").read_text())
        for word in ("--calls=65536", "--tape=a", "--replay=a", "--upgrade=a", "a"):
            for words in (["--record", "r.bin", word], [word, "--endless", "--record", "r.bin"]):
                with self.subTest(words=words):
                    self.is_refused(words, why)
        self.is_refused(["--record", "r.bin", "--keep", "a", "--calls", "9"], why)
        self.assertEqual(sorted(path.name for path in self.folder.iterdir()), ["a"])

    def test_words_that_are_wrong(self):
        twice = ["--record", "a", "--record", "b"]
        self.is_refused(twice, "the argument '--record <FILE>' cannot be used multiple times")
        self.is_refused(["--record"], "a value is required for '--record <FILE>' but none was supplied")
        why = "the argument '--unsynced' is of use only with '--keep <FILE>'"
        self.is_refused(["--record", "a", "--unsynced"], why)


if __name__ == "__main__":
    unittest.main()
