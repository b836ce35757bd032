"""The files of a page's session that is kept, so that the page goes on after it, the bridge or the program has ended.

FILE has the lines that were done and may change the traffic, which the program keeps. FILE.page has what the page
alone knows, its changes in words, one note a line, each written before the lines that it is of are sent. FILE.new is a
session in the making, as all is run anew; it takes FILE's place when it is whole. What was kept is run anew by a
program that keeps nothing, from the changes and the clock, so that all is known that was; the program that keeps goes
on from there."""
import fcntl
import hashlib
import json
import os
import time
from collections.abc import Iterable
from pathlib import Path
from typing import Any

from streetsim.base.files import Fault, Json, reading
from streetsim.model.runs import Run, texts_of

PATIENCE = 10  # seconds for a program whose bridge was killed to end


class SessionFiles:
    """The files of a session that is kept."""

    def __init__(self, file: Path, run: Run, settings: Any) -> None:
        """file: of the session; run: the one that it is of; settings: those of that run. Locks FILE.page until close,
        deletes FILE.new, and waits up to PATIENCE seconds for a program that still has the file. Fault, after which the
        files are free, where the file is of another run, another bridge or program has it, or one cannot be read or
        written."""
        self.file, self.making, self.notes_path = file, Path(f"{file}.new"), Path(f"{file}.page")
        self.changes: list[Json] = []
        self.notes = self.lock_notes()
        try:
            self.await_end()
            self.check_run(run, digest_of(run, settings))
        except BaseException:
            self.notes.close()
            raise

    def lock_notes(self) -> Any:
        """The file of the notes, opened, locked for this bridge; Fault where another has it, or it cannot be opened."""
        with reading(self.notes_path):
            notes = open(self.notes_path, "ab")
        try:
            fcntl.flock(notes, fcntl.LOCK_EX | fcntl.LOCK_NB)
        except OSError:
            notes.close()
            raise Fault(f"{self.file}: another streetsim-live keeps its session there") from None
        return notes

    def await_end(self) -> None:
        """Waits up to PATIENCE seconds until no program has the file; Fault where one still has."""
        until = time.monotonic() + PATIENCE
        while self.file.exists() and is_locked(self.file):
            if time.monotonic() > until:
                raise Fault(f"{self.file}: another program keeps its session there")
            time.sleep(0.05)

    def check_run(self, run: Run, digest: str) -> None:
        """Takes the page's changes by its notes; where the bridge ended while all was run anew, those of before or
        after, by whether the new session is in place. A note that was cut off is taken away, and what is left of
        FILE.new. Fault where the file is of another run, or of this one with other options."""
        self.notes.truncate(len(whole_lines(self.notes_path)))
        notes = read_notes(self.notes_path)
        digests = {note["run"] for note in notes if "run" in note}
        lines = lines_of_file(self.file)
        if lines[:1] not in ([], [run.load.text.encode() + b"\n"]):
            raise Fault(f"{self.file}: line 1 is not of this run: it has another session")
        if (lines or digests) and digests != {digest}:
            raise Fault(f"{self.file}: it has the session of another run, or of this one with other options")
        if not digests:
            self.write_note("run", digest)
        self.changes = next((note["changes"] for note in reversed(notes) if "changes" in note), [])
        if notes and "next" in notes[-1] and not self.making.exists():
            self.changes = notes[-1]["next"]
        self.making.unlink(missing_ok=True)

    def steps(self) -> int:
        """How many steps the session has made. Fault where the file cannot be read."""
        commands = map(json.loads, lines_of_file(self.file))
        return sum(command["steps"] for command in commands if command["cmd"] == "advance")

    def keep_changes(self, changes: list[Json]) -> None:
        """Keeps the changes of the page, before the lines that they make are sent."""
        self.write_note("changes", changes)
        self.changes = changes

    def replace_session(self, lines: Iterable[bytes], changes: list[Json]) -> None:
        """Puts a session that was made anew, its lines and changes, in the place of the one before."""
        with reading(self.making):
            with open(self.making, "wb") as file:
                file.writelines(lines)
                file.flush()
                os.fsync(file.fileno())
            self.write_note("next", changes)
            os.replace(self.making, self.file)
            sync_folder(self.file)
        self.keep_changes(changes)

    def write_note(self, kind: str, value: Any) -> None:
        """Writes a note to the disk: "run", "changes", or "next" (kind), the changes of a session in the making."""
        with reading(self.notes_path):
            self.notes.write(json.dumps({kind: value}, separators=(",", ":")).encode() + b"\n")
            self.notes.flush()
            os.fsync(self.notes.fileno())

    def close(self) -> None:
        """Gives the file of the notes free."""
        self.notes.close()


def digest_of(run: Run, settings: Any) -> str:
    """A sum by which the run of a session, and its settings, are known again."""
    digest = hashlib.sha256(json.dumps(settings).encode())
    for text in texts_of(run):
        digest.update(text.encode() + b"\n")
    return digest.hexdigest()


def is_locked(path: Path) -> bool:
    """Whether a program has a file as its kept session; Fault where it cannot be read."""
    with reading(path), open(path, "rb") as file:
        try:
            fcntl.flock(file, fcntl.LOCK_EX | fcntl.LOCK_NB)
        except BlockingIOError:
            return True
    return False


def whole_lines(path: Path) -> bytes:
    """The bytes of a file up to its last LF; empty where there is no file, Fault where it cannot be read."""
    if not path.exists():
        return b""
    with reading(path):
        text = path.read_bytes()
    return text[: text.rfind(b"\n") + 1]


def lines_of_file(path: Path) -> list[bytes]:
    """The commands in a kept file, each with its LF; empty where there is no file, Fault where it cannot be read."""
    return [line for line in whole_lines(path).splitlines(keepends=True) if line.strip()]


def read_notes(path: Path) -> list[Any]:
    """The notes of a session; Fault where one is none."""
    with reading(path):
        return [json.loads(line) for line in whole_lines(path).splitlines()]


def sync_folder(path: Path) -> None:
    """Waits until the disk has the name of a file."""
    folder = os.open(path.resolve().parent, os.O_RDONLY)
    try:
        os.fsync(folder)
    finally:
        os.close(folder)
