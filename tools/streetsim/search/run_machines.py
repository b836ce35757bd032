"""Where runs are done: in processes of this machine, or by a cluster of dask.distributed.

A process of the pool is given its sessions once, and what a run then needs is its signals and its seed; on a cluster
each run has its session too.
"""
from __future__ import annotations

import contextlib
import logging
import multiprocessing
import os
import re
import tempfile
import warnings
import zipfile
from collections.abc import Callable, Iterable, Iterator, Sequence
from concurrent.futures import BrokenExecutor, CancelledError, ProcessPoolExecutor
from pathlib import Path
from typing import Any, Protocol

from streetsim.base.files import Fault
from streetsim.base.jobs import end_with_parent
from streetsim.base.program import program_digest

PATIENCE = 10  # seconds for a cluster to answer
TRIES = 3  # to make its workers ready
Executor = Any  # of concurrent.futures, or Workers
Cluster = Any  # such a client
Function = Callable[..., Any]
HOST = re.compile(r"(\w+://)?.+:\d+")
LOST = (BrokenExecutor, CancelledError)
SESSIONS: list[HasProgram] = []  # in a process of the pool: the sessions


class HasProgram(Protocol):
    """What runs stand on: a session, or anything else with a program."""

    @property
    def program(self) -> str:
        """The path of the program."""

    @property
    def digest(self) -> str | None:
        """The SHA-256 of the program's file; None where it is not there."""


class Workers:
    """The workers of a cluster of dask. Its own executor takes a result for an exception where a worker dies while the
    result is fetched; the futures used here do not."""

    def __init__(self, client: Cluster) -> None:
        """client: of the cluster."""
        self.client = client

    def submit(self, function: Function, *arguments: Any) -> Any:
        """Begins a task, and gives its future; a second task with the same arguments is done too."""
        return self.client.submit(function, *arguments, pure=False)


class Machines:
    """Runs functions of (session, ..) on some workers; a session is named by its index in a list."""

    def __init__(self, executor: Executor, sessions: Sequence[HasProgram | int]) -> None:
        """sessions: by index what a worker is given for a session: itself, or its index where workers hold them."""
        self.executor, self.sessions = executor, sessions

    def submit(self, function: Function, index: int, *arguments: Any) -> Any:
        """Begins a task: a function of the session at an index and of further arguments; gives its future."""
        return self.executor.submit(do_task, function, self.sessions[index], *arguments)

    def ordered(self, tasks: Iterable[Sequence[Any]]) -> Iterator[Any]:
        """What tasks, each (name, function, index, ..), give, in their order, whatever the order in which they end.
        They begin when the first result is asked for; where the caller stops asking, those that have not begun are
        cancelled. What a task raises is raised; Fault, with its name, where its worker was lost."""
        futures = [(name, self.submit(*task)) for name, *task in tasks]
        try:
            for name, future in futures:
                yield result_of(future, name)
        finally:
            for _, future in futures:
                future.cancel()


def do_task(function: Function, session: Any, *arguments: Any) -> Any:
    """Does one task; session: a session, or the index of one that this process holds."""
    return function(SESSIONS[session] if isinstance(session, int) else session, *arguments)


def result_of(future: Any, name: str) -> Any:
    """The result of a task, waited for, or what it raised; a Fault with its name where its worker was lost."""
    try:
        return future.result()
    except LOST as fault:
        raise Fault(f"{name}: a worker ended before its work was done: {exception_told(fault)}") from None
    except Exception as fault:
        if type(fault).__name__ != "KilledWorker":
            raise
        why = "as more of its workers died than the cluster allows (distributed.scheduler.allowed-failures)"
        raise Fault(f"{name} was given up, {why}") from None


def exception_told(fault: BaseException) -> str:
    """What an exception says; where it says nothing, the name of its type."""
    return str(fault) or type(fault).__name__


@contextlib.contextmanager
def machines(jobs: int, cluster: str | None, sessions: Sequence[HasProgram]) -> Iterator[Machines]:
    """The workers of a cluster (HOST:PORT), or without one (None) so many processes of this machine (jobs), until the
    block ends; both know the sessions. Fault as of cluster_of."""
    if cluster:
        with cluster_of(cluster, sessions) as made:
            yield made
        return
    executor = ProcessPoolExecutor(jobs, multiprocessing.get_context("fork"), hold_sessions, (sessions,))
    try:
        yield Machines(executor, range(len(sessions)))
    finally:
        end_pool(executor)


def end_pool(executor: Executor) -> None:
    """Ends a pool: running tasks are waited for, others cancelled. Where a process was lost while a task was written
    for it, a Python before 3.11.5 would wait for ever; so its end of the pipe is closed here."""
    manager, calls = executor._executor_manager_thread, executor._call_queue
    executor.shutdown(wait=False, cancel_futures=True)
    while manager is not None and manager.is_alive():
        manager.join(0.1)
        if executor._broken:
            calls._reader.close()


def hold_sessions(sessions: Sequence[HasProgram]) -> None:
    """Runs first in each process of the pool: puts the sessions into its SESSIONS, and has it end as end_with_parent
    says."""
    SESSIONS[:] = sessions
    end_with_parent()


@contextlib.contextmanager
def cluster_of(address: str, sessions: Sequence[HasProgram]) -> Iterator[Machines]:
    """The workers of a dask scheduler at HOST:PORT, until the block ends; dask's log and warnings are silenced in this
    process for good. Fault where dask is not installed, no scheduler answers or has a worker in PATIENCE seconds, or a
    worker does not have the program or cannot be made ready."""
    try:
        from distributed import Client
    except ImportError:
        raise Fault("--cluster needs dask.distributed (Debian: apt install python3-distributed)") from None
    if not HOST.fullmatch(address):
        raise Fault(f"--cluster {address}: expected HOST:PORT")
    logging.getLogger("distributed").setLevel(logging.CRITICAL)
    warnings.filterwarnings("ignore", module="distributed")
    try:
        client = Client(address, timeout=PATIENCE, set_as_default=False)
    except (OSError, ValueError, TimeoutError) as fault:
        why = exception_told(fault).splitlines()[0]
        raise Fault(f"--cluster {address}: no scheduler answered in {PATIENCE} s ({why})") from None
    with contextlib.closing(client):
        try:
            client.wait_for_workers(1, timeout=PATIENCE)
        except Exception:
            raise Fault(f"--cluster {address}: the scheduler has no worker") from None
        prepare(client, address, sessions)
        # Each task has its session by value, so that no worker needs what one that died had.
        yield Machines(Workers(client), sessions)


def prepare(client: Cluster, address: str, sessions: Sequence[HasProgram]) -> None:
    """Sends this package to the workers of a cluster, and checks their programs; where one of them is lost meanwhile,
    again, TRIES times in all, and then a Fault. Fault at once where a program is another one."""
    for tries_left in reversed(range(TRIES)):
        try:
            send_package(client)
            check_programs(client, sessions)
            return
        except OSError as fault:
            if not tries_left:
                raise Fault(
                    f"--cluster {address}: its workers could not be made ready: {exception_told(fault)}"
                ) from None


def send_package(client: Cluster) -> None:
    """Sends this package to all workers of a cluster, also to those that join it later."""
    package_folder = Path(__file__).resolve().parents[1]
    with tempfile.TemporaryDirectory() as folder:
        path = os.path.join(folder, "streetsim_tools.zip")
        with zipfile.ZipFile(path, "w") as package:
            for source in sorted(package_folder.rglob("*.py")):
                package.write(source, f"streetsim/{source.relative_to(package_folder).as_posix()}")
        client.upload_file(path)


def check_programs(client: Cluster, sessions: Sequence[HasProgram]) -> None:
    """Fault where a worker of a cluster has no program, or another one, at a session's path."""
    for program, digest in sorted({(session.program, session.digest) for session in sessions}):
        for worker, held in sorted(client.run(program_digest, program).items()):
            if held != digest:
                other = f"another program ({held[:12]}, here {(digest or 'none')[:12]})" if held else "no program"
                raise Fault(f"--cluster: worker {worker} has {other} at {program}")
