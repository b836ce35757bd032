"""The program of a page, with a log of the lines that were sent: by them streetsim does the same again. `world` starts
it."""
import os
from collections import deque
from collections.abc import Iterator, Sequence
from tempfile import SpooledTemporaryFile
from typing import Self

from streetsim.base.files import FilePath
from streetsim.base.limits import STEPS
from streetsim.kernel.program import Blocks, Program
from streetsim.kernel.session_program import QUESTION_PREFIXES
from streetsim.model.record import HEAD

MOST_IN_MEMORY = 1 << 22  # bytes of a log
SHOWN_EXCHANGES = 8  # of the last lines with their replies


class SentLog:
    """Lines that were sent, of advances so many steps on end; in a file without a name where they are many."""

    def __init__(self) -> None:
        """Nothing was sent."""
        self.file = SpooledTemporaryFile(MOST_IN_MEMORY)
        self.steps = 0  # made behind the last line

    def add_line(self, line: bytes) -> None:
        """Takes a line, with its end."""
        self.file.seek(0, os.SEEK_END)
        self.file.writelines([*advances(self.steps), line])
        self.steps = 0

    def close(self) -> None:
        """Forgets all."""
        self.file.close()

    def lines(self) -> Iterator[bytes]:
        """All lines, each with its end."""
        self.file.seek(0)
        yield from self.file
        yield from advances(self.steps)


class LoggedProgram(Program):
    """A program that logs what was sent, but for what only asks or was refused."""

    def __init__(self, path: str, workers: int = 1, arguments: Sequence[str] = ()) -> None:
        """As Program."""
        super().__init__(path, workers, arguments)
        self.log = SentLog()
        self.last_exchanges: deque[tuple[bytes, bytes]] = deque(maxlen=SHOWN_EXCHANGES)  # lines and replies

    def kept_in(self, path: FilePath, workers: int) -> Self:
        """Another process that goes on from a file that has the whole log; this one is killed."""
        successor = type(self)(self.path, workers, ["--keep", os.fspath(path)])
        successor.log.close()
        successor.log, self.log, successor.last_exchanges = self.log, SentLog(), self.last_exchanges
        self.kill()
        return successor

    def kill(self) -> None:
        """Ends the process, whatever it does."""
        self.process.kill()
        self.end()
        self.log.close()

    def exchange(self, lines: Sequence[bytes]) -> list[bytes]:
        """As Program."""
        replies = super().exchange(lines)
        for line, reply in zip(lines, replies, strict=True):
            if not line.startswith(QUESTION_PREFIXES) and b'"error"' not in reply and b'"starved"' not in reply:
                self.log.add_line(line)
                self.last_exchanges.append((line, reply))
        return replies

    def blocks(self) -> Blocks:
        """As Program."""
        steps, (begins, data) = self.begun_steps, super().blocks()
        self.log.steps += steps
        self.last_exchanges.append((advance(steps), b'{"clock":%d}' % HEAD.unpack_from(data, begins[-2])[0]))
        return begins, data

    def session(self) -> Iterator[bytes]:
        """All lines of the log, each with its end."""
        yield from self.log.lines()


def advances(steps: int) -> list[bytes]:
    """The lines that make so many steps."""
    return [advance(STEPS)] * (steps // STEPS) + ([advance(steps % STEPS)] if steps % STEPS else [])


def advance(steps: int) -> bytes:
    """The line that makes so many steps."""
    return b'{"cmd":"advance","steps":%d}\n' % steps
