"""The program that keeps its session in a file: the same run goes on there after tools, program or machine have ended.

`serving` starts it where a run has --keep."""
from __future__ import annotations

from collections.abc import Sequence

from streetsim.base.client import check_kept
from streetsim.base.files import Fault, FilePath, reading
from streetsim.kernel.program import Blocks, Program

ADVANCE = b'{"cmd":"advance","steps":1}\n'
COUNT = b'{"cmd":"count"}\n'
# Begins of lines that change nothing.
QUESTION_PREFIXES = COUNT[:-2], b'{"cmd":"vehicle"', b'{"cmd":"lane"', b'{"cmd":"read"'


class SessionProgram(Program):
    """The program with its record, which keeps its session in a file and has the file for itself. What the file has is
    done again by a second program, for its record; when the file's last line is done, the first one goes on. So the
    lines that are sent have to begin with those of the file."""

    def __init__(self, path: str, file: FilePath, workers: int = 1) -> None:
        """Starts the program. path, workers: as Program has them; file: made where it is not there. Fault where it is
        no session's, ProgramEnded where another program has it."""
        check_kept(file)
        super().__init__(path, workers, ("--keep", str(file)))
        self.file, self.line_number = file, 1
        self.replay: Program | None = None
        try:
            self.state = super().exchange([COUNT])  # at the file's end
            with reading(file):
                self.session_file = open(file, "rb")
        except BaseException:
            self.process.kill()
            self.end()
            raise
        self.pipes.append(self.session_file)
        self.next_line = self.session_file.readline()  # of the file; empty: all of it is done again
        if self.next_line:
            self.replay = Program(path, workers)

    def end(self) -> tuple[int, str]:
        """Ends both programs; gives (the status, the standard error) of the one that keeps."""
        self.end_replay()
        return super().end()

    def exchange(self, lines: Sequence[bytes]) -> list[bytes]:
        """As Program has it. Fault where a line is not the next one of the file."""
        count = self.count_replayed(lines)
        replies = self.replay.exchange(lines[:count]) if self.replay else []
        if count < len(lines):
            self.go_on()
            replies += super().exchange(lines[count:])
        return replies

    def begin(self, steps: int) -> None:
        """As Program has it. Fault where steps are not the next ones of the file."""
        self.replayed_steps = self.count_replayed(self.advance(steps))
        self.begun_steps = steps - self.replayed_steps
        if self.replay and self.replayed_steps:
            self.replay.begin(self.replayed_steps)
        else:
            self.go_on()
            super().begin(steps)

    def advance(self, steps: int) -> list[bytes]:
        """As Program has it: a line for each, so that a run goes on wherever its file ends."""
        return [ADVANCE] * steps

    def blocks(self) -> Blocks:
        """As Program has it."""
        if not (self.replay and self.replayed_steps):
            return super().blocks()
        begins, block_bytes = self.replay.blocks()
        if self.begun_steps:
            self.go_on()
            super().begin(self.begun_steps)
            later_begins, later_data = super().blocks()
            begins += [len(block_bytes) + begin for begin in later_begins[1:]]
            block_bytes += later_data
        return begins, block_bytes

    def count_replayed(self, lines: Sequence[bytes]) -> int:
        """How many of the lines, from the first on, change nothing or come next in the file, from which these are then
        taken; none behind the file's end."""
        for count, line in enumerate(lines):
            if not self.next_line:
                return count
            if line == self.next_line:
                self.next_line, self.line_number = self.session_file.readline(), self.line_number + 1
            elif not line.startswith(QUESTION_PREFIXES):
                raise Fault(f"{self.file}: line {self.line_number} is not of this run: it has another session")
        return len(lines)

    def go_on(self) -> None:
        """Has the program that keeps go on, where the other one has come to the file's end. Fault where it has come to
        another state."""
        if self.replay:
            if self.replay.exchange([COUNT]) != self.state:
                raise Fault(f"{self.file}: it leads to another state than this run")
            self.end_replay()

    def end_replay(self) -> None:
        """Ends the program that does again what the file has."""
        if self.replay:
            self.replay.process.kill()
            self.replay.end()
            self.replay = None
