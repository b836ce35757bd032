"""A program that runs beside its caller, with pipes to and from it; the client and the kernel start the simulator by
it."""
import contextlib
import subprocess
import tempfile
from collections.abc import Sequence
from typing import Self


class ProgramEnded(Exception):
    """The program ended before it replied, or, where it is closed, with a status other than 0."""

    def __init__(self, status: int, stderr: str) -> None:
        """status: of the program, 0 too where it ended too early, -N by signal N; stderr: its standard error."""
        self.status, self.stderr = status, stderr
        error_text = ": ".join(stderr.splitlines()) or "nothing on standard error"
        super().__init__(f"the program ended with status {status}: {error_text}")


class Process:
    """A program that runs. Its standard error goes into a file that has no name, so that it never waits for a reader.
    As a block it is closed at the end, as `close` does; after an exception it is killed."""

    def __init__(self, arguments: Sequence[str], buffer: int, files: Sequence[int] = ()) -> None:
        """Starts the program. arguments: its path and what follows it; buffer: bytes of the buffer of each pipe, 0 for
        none; files: descriptors that it inherits beside its streams."""
        self.end_state: tuple[int, str] | None = None
        self.errors = tempfile.TemporaryFile()
        self.process = subprocess.Popen(
            arguments, stdin=subprocess.PIPE, stdout=subprocess.PIPE, stderr=self.errors, bufsize=buffer, pass_fds=files
        )
        assert self.process.stdin and self.process.stdout
        self.input, self.output = self.process.stdin, self.process.stdout
        self.pipes = [self.input, self.output]

    def __enter__(self) -> Self:
        """Gives the program itself, which runs since it was made."""
        return self

    def __exit__(self, kind: type[BaseException] | None, *_: object) -> None:
        """Closes as `close` does; after an exception the program is killed and its status is not looked at."""
        if kind is None:
            self.close()
        else:
            self.process.kill()
            self.end()

    def close(self) -> None:
        """Ends the input and waits for the program; ProgramEnded if its status is not 0."""
        status, error_text = self.end()
        if status:
            raise ProgramEnded(status, error_text)

    def end(self) -> tuple[int, str]:
        """Ends the input and waits for the program; gives (its status, its standard error), later the same."""
        if self.end_state is not None:
            return self.end_state
        for pipe in self.pipes:
            with contextlib.suppress(OSError):
                pipe.close()
        status = self.process.wait()
        with self.errors:
            self.errors.seek(0)
            self.end_state = status, self.errors.read().decode(errors="replace")
        return self.end_state
