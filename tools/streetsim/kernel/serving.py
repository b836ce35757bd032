"""The program with its record, started to serve one run."""
import contextlib
from collections.abc import Iterator

from streetsim.base.client import NoReply, ProgramEnded, Refused, Starved
from streetsim.base.files import Fault, FilePath
from streetsim.base.program import find_program
from streetsim.kernel.program import Program
from streetsim.kernel.session_program import SessionProgram


@contextlib.contextmanager
def serving_program(
    program: str | None, path: FilePath, workers: int = 1, keep: FilePath | None = None
) -> Iterator[Program]:
    """The program, started for the run of a file, and ended after the block. program: as find_program takes it; path:
    the file, for a Fault's words alone; workers: its threads; keep: a file in which its session is kept. Fault where
    the program cannot be found, ends too early or answers in other words than its own."""
    try:
        program_path = find_program(program)
        with Program(program_path, workers) if keep is None else SessionProgram(program_path, keep, workers) as process:
            yield process
    except (Refused, Starved, NoReply, ProgramEnded) as fault:
        raise Fault(f"{path}: {fault}") from None
