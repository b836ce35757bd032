"""The program and the kernel of a run under a script, which may send lines of its own between two steps."""
from collections.abc import Iterable, Iterator, Sequence

from streetsim.base.client import Client, NoReply, read_reply
from streetsim.kernel.loop import Kernel, SentLine
from streetsim.kernel.program import Program
from streetsim.kernel.session_program import QUESTION_PREFIXES
from streetsim.model.runs import Line

ADVANCE = b'{"cmd":"advance"'


class RunClient(Client):
    """A client of the program of a run, whose steps a kernel makes. It keeps all lines but questions, those that are
    refused among them (changes)."""

    def __init__(self, program: Program) -> None:
        """program: which runs."""
        self.program, self.process = program, program.process
        self.end_result: tuple[int, str] | None = None
        self.changes: list[bytes] = []
        self.later: list[bytes] = []  # what send_soon has taken and is still to be sent

    def send_soon(self, lines: Iterable[bytes]) -> None:
        """Sends lines ahead of the next ones, or before the next step."""
        new_lines = list(lines)
        self.later += new_lines
        self.changes += new_lines

    def exchange(self, lines: Iterable[bytes]) -> Iterator[bytes]:
        """As Client does. ValueError for steps; what a refusal of a line of `later` is, where one is refused."""
        sent = list(lines)
        if any(line.startswith(ADVANCE) for line in sent):
            raise ValueError("the steps of a run are made by simulationStep")
        earlier_lines, self.later = self.later, []
        self.changes += [line for line in sent if not line.startswith(QUESTION_PREFIXES)]
        replies = Program.exchange(self.program, [*earlier_lines, *sent])
        for reply in replies[: len(earlier_lines)]:
            if b'"error"' in reply or b'"starved"' in reply:
                fault = read_reply(reply)
                raise fault if isinstance(fault, Exception) else NoReply(reply.decode(errors="replace"))
        return iter(replies[len(earlier_lines) :])

    def exchange_one(self, line: bytes) -> bytes:
        """As `exchange`, of one line."""
        [reply] = self.exchange([line])
        return reply

    def end(self) -> tuple[int, str]:
        """Ends the input and waits for the program; gives (its status, its standard error), later the same."""
        if self.end_result is None:
            self.end_result = self.program.end()
        return self.end_result


class OwnProgram(Program):
    """A program whose lines all go through a client, by which a script may send its own."""

    def __init__(self, path: str, workers: int = 1) -> None:
        """Starts the program. path: of the program; workers: its threads."""
        super().__init__(path, workers)
        self.client = RunClient(self)

    def exchange(self, lines: Sequence[bytes]) -> list[bytes]:
        """As Program does."""
        return list(self.client.exchange(lines))

    def begin(self, steps: int) -> None:
        """As Program does."""
        if self.client.later:
            self.exchange([])
        self.client.changes.append(b'%s,"steps":%d}\n' % (ADVANCE, steps))
        super().begin(steps)


class ScriptKernel(Kernel):
    """The kernel of a run under a script."""

    program: OwnProgram

    def send_soon(self, lines: Sequence[Line]) -> None:
        """Sends lines of a controller's own before the next step, or ahead of the next line that is sent."""
        self.program.client.send_soon(line.text.encode() + b"\n" for line in lines)
        self.sent_lines += [SentLine(self.clock, line, False) for line in lines]

    def refusal(self, line: Line, reply: bytes) -> Exception:
        """The reply itself as an exception."""
        fault = read_reply(reply)
        assert isinstance(fault, Exception)
        return fault
