"""Sessions that are kept while calls of the system fail, on a disk that forgets what was not synced: whether a reply is
contradicted by what goes on behind it."""
import errno
import itertools
import json
import os
import re
import shutil
import struct
import subprocess

from disks import NONE, SHORT, Disk
from support import PROGRAM
from test_kept import changes, replies_to

NAME, LOST, RECORD = "day.jsonl", "day.jsonl.lost", "day.record"
COUNT = '{"cmd":"count"}'
ERRORS = (errno.EIO, errno.ENOSPC, errno.EINTR, SHORT)
FAULT = re.compile(rb"streetsim: cannot (read|write) (day\.jsonl|day\.record|standard (input|output))\n\Z")
IN_USE = re.compile(rb"streetsim: day\.jsonl is in use\n\Z")
FAILED = [-error for error in ERRORS if error != SHORT]  # what a call answers that was made to fail
ROW = 16  # bytes of a row of a record, and of the head of a block


class Contradicted(AssertionError):
    """A reply or a byte that is not as it has to be."""


def check(is_so, *told):
    """Sees that something is so; Contradicted else."""
    if not is_so:
        raise Contradicted(*told)


def text_of(lines):
    return "".join(f"{line}\n" for line in lines).encode()


def whole_lines(text):
    """The lines of a file that have ended before its first NUL."""
    return text.split(b"\0")[0].split(b"\n")[:-1]


def record_of(lines, folder):
    """The record of a run that nothing ends."""
    subprocess.run([PROGRAM, "--record", RECORD], input=text_of(lines), capture_output=True, cwd=folder, check=True)
    return (folder / RECORD).read_bytes()


def ends_of_blocks(lines, replies, record):
    """How many bytes a record has after each of the lines of its session, which were answered so."""
    ends, end = [], 0
    for line, reply in zip(lines, replies):
        for _ in range(json.loads(line)["steps"] if "clock" in reply and '"advance"' in line else 0):
            end += ROW + ROW * struct.unpack_from("<I", record, end + 4)[0]
        ends.append(end)
    return ends


def is_told(run):
    """Whether a run ended by telling which file or stream has failed, where that can be told. A file whose name can not
    be looked at is in use."""
    is_hidden = any(call.name == "statx" and call.answer in FAILED for call in run.calls)
    is_mute = any((call.name, call.file) == ("write", 2) and call.answer in FAILED for call in run.calls)
    told = FAULT.search(run.error) or is_hidden and IN_USE.search(run.error)
    return run.status == 1 and bool(told or is_mute)


class Session:
    """The lines of a session, and what is wanted of it: its replies are those of a run that nothing ends."""

    def __init__(self, lines, record=b""):
        """record: that of the lines, where runs of them write one."""
        self.lines, self.replies, self.record = lines, replies_to(lines), record
        # Where the lines stand that are kept, and their text.
        self.places = [at for at, pair in enumerate(zip(lines, self.replies)) if changes(*pair)]
        self.kept = [lines[at].encode() for at in self.places]
        # After so many lines of the file a count is answered so.
        asked = itertools.chain.from_iterable((COUNT, line.decode()) for line in self.kept)
        self.counts = replies_to([*asked, COUNT])[::2]
        # After so many lines the record has so many bytes.
        self.ends = [0, *ends_of_blocks(lines, self.replies, record)] if record else [0] * (len(lines) + 1)

    def begun_at(self, answered, text):
        """From which line on a client goes on: behind all that was answered, and all that the file has."""
        whole = len(whole_lines(text))
        return max(answered, self.places[whole - 1] + 1 if whole else 0)

    def begin(self, count, torn):
        """The text of a file that has so many lines, and behind them what a crash has left."""
        return text_of(line.decode() for line in self.kept[:count]) + torn


class Trial:
    """A session that one run after another goes on with, in a folder of its own."""

    def __init__(self, session, noting, words, folder, text=None):
        """noting: by which the program is run; words: beside the file's; text: of the file at first, none where it is
        not there."""
        self.session, self.noting, self.words, self.folder = session, noting, words, folder
        self.answered = 0
        self.put(text)

    def put(self, text):
        """Has the folder hold the file with this text alone, all of it synced."""
        shutil.rmtree(self.folder, ignore_errors=True)
        self.folder.mkdir()
        if text is not None:
            (self.folder / NAME).write_bytes(text)
        self.disk = Disk(self.folder)
        text = self.held()
        self.answered = self.session.begun_at(self.answered, text)
        self.torn = text[sum(len(line) + 1 for line in whole_lines(text)) :]

    def held(self, name=NAME):
        """What the system shows of a file."""
        file = self.disk.names.get(self.disk.place(name.encode()))
        return file.held if file else b""

    def left(self, name=NAME):
        """What a crash may leave of a file: of the machine, or of the program alone where nothing is synced."""
        return [self.held(name)] if "--unsynced" in self.words else self.disk.texts(name)

    def drawn(self, draw):
        """One text that a crash may leave: of what was not synced also a first part, and behind it NULs or nothing."""
        text, held = draw.choice(self.left()), self.held()
        if "--unsynced" in self.words:
            return text
        more = draw.randint(len(text), len(held)) if held.startswith(text) else 0
        return text + held[len(text) : more] + bytes(draw.choice((0, 0, 100)))

    def next(self):
        """The line that a client goes on with."""
        return self.session.begun_at(self.answered, self.held())

    def go_on(self, fault=NONE, last=None):
        """A run that goes on up to a line, by default all, of which calls fail; its calls. Contradicted where it
        answers, keeps or records otherwise than it has to."""
        first = self.next()
        lines = self.session.lines[first:last]
        run = self.noting.run([PROGRAM, "--keep", NAME, *self.words], text_of(lines), self.folder, fault)
        wanted = text_of(self.session.replies[first : first + len(lines)])
        check(wanted.startswith(run.output), "another reply", run.output)
        is_whole = run.status == 0 and run.output == wanted
        check(is_whole or fault.number and is_told(run), "another end", run.status, run.error, len(run.output))
        self.replay(run, first)
        return run.calls

    def replay(self, run, first):
        """Makes the calls of a run, which began at a line, and looks at the disk at each reply and at the end."""
        self.disk.open.clear()
        written = b""
        for call in run.calls:
            self.disk.do(call)
            if (call.name, call.file) == ("write", 1) and call.answer > 0:
                written += call.words[0]
                # A line is answered with the first byte of its reply.
                self.answered = first + written.count(b"\n") + (not written.endswith(b"\n"))
                self.check_disk()
                self.check_record(first)
        self.check_disk()

    def check_disk(self):
        """What a crash would leave has all that was answered, and nothing that was not sent; what was torn at first is
        there, or saved."""
        changed = sum(at < self.answered for at in self.session.places)
        for text, lost in zip(self.left(), self.left(LOST)):
            lines = whole_lines(text)
            check(lines == self.session.kept[: len(lines)], "a line that was not sent", lines)
            check(len(lines) >= changed, "a line that was answered is lost", len(lines), changed)
            check(text.endswith(self.torn) or self.torn in lost, "what was cut off is lost", text, lost)

    def check_record(self, first):
        """The record of a run, which began at a line, has the steps of all that was answered."""
        if self.session.record:
            begin, end = self.session.ends[first], self.session.ends[self.answered]
            record = self.held(RECORD)
            check(record == self.session.record[begin : begin + len(record)], "another record")
            check(len(record) >= end - begin, "a step that was answered is not recorded", len(record), end - begin)

    def check_crashes(self):
        """A session goes on from what each crash would leave."""
        for text in self.left():
            place = self.folder.with_suffix(".crash")
            shutil.rmtree(place, ignore_errors=True)
            place.mkdir()
            (place / NAME).write_bytes(text)
            run = self.noting.run([PROGRAM, "--keep", NAME], text_of([COUNT]), place)
            wanted = self.session.counts[len(whole_lines(text))]
            check((run.status, run.output.decode().strip()) == (0, wanted), "another count", run, wanted)


class LinkedTrial(Trial):
    """One whose file has a second name, so that it is never written anew under the first."""

    def put(self, text):
        super().put(text)
        if text is not None:
            os.link(self.folder / NAME, self.folder / "other.jsonl")
