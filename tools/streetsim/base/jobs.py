"""Runs work in processes side by side: results in order, progress of each, and the first Fault for all. Calibration,
runs of several seeds and runs of SUMO use it."""
from __future__ import annotations

import os
import signal
from collections.abc import Callable, Iterable
from typing import TYPE_CHECKING, Any, TypeVar

from streetsim.base.files import END_SIGNALS, Fault, uninterrupted

if TYPE_CHECKING:  # what takes long to import, and one run does without
    from multiprocessing.connection import Connection
    from multiprocessing.process import BaseProcess

Task = TypeVar("Task")
Outcome = TypeVar("Outcome")
SendProgress = Callable[[Any], object]  # takes any value that says how far a work is
OnProgress = Callable[[int, Any], object]  # takes the index of an task, from 0, and what its work told
Running = dict["Connection", tuple[int, "BaseProcess"]]  # by the pipe that it tells to: index of its task, process
PR_SET_PDEATHSIG = 1  # of Linux' prctl
CORES = len(os.sched_getaffinity(0))  # that this process may use


def side_by_side(
    work: Callable[[Task, SendProgress], Outcome],
    tasks: Iterable[Task],
    jobs: int = CORES,
    on_progress: OnProgress = lambda index, value: None,
) -> list[Outcome]:
    """What a function gives for each task, in the tasks' order. Each runs in a process of its own, at most `jobs` at
    once (one where that is less); results go through a pipe, so they must be what pickle takes.

    The function gets a task and a function to tell how far it is; what it tells goes to `on_progress(index,
    value)`, index: of the task, from 0. A Fault of one ends all the others and is raised; where one fails otherwise,
    its traceback goes to standard error, and a Fault that says so is raised in the same way.
    """
    running: Running = {}
    outcomes: dict[int, Outcome] = {}
    try:
        for index, task in enumerate(tasks):
            start_process(work, index, task, running)
            while running and len(running) >= jobs:
                receive_messages(running, outcomes, on_progress)
        while running:
            receive_messages(running, outcomes, on_progress)
    finally:
        for _, process in running.values():
            process.kill()
            process.join()
    return [outcomes[index] for index in sorted(outcomes)]


def start_process(work: Callable[[Task, SendProgress], object], index: int, task: Task, running: Running) -> None:
    """Starts a process for a task, and notes it in `running`; index: of the task, from 0."""
    import multiprocessing

    pipe, end = multiprocessing.Pipe(duplex=False)
    process = multiprocessing.get_context("fork").Process(target=work_and_send, args=(work, task, end))
    with uninterrupted():  # else a signal would leave a process that nobody ends
        process.start()
        running[pipe] = index, process
    end.close()


def work_and_send(work: Callable[[Task, SendProgress], object], task: Task, pipe: Connection) -> None:
    """Runs inside the process: sends what the work tells, and its result or a Fault, to the pipe."""
    end_with_parent()
    signal.pthread_sigmask(signal.SIG_UNBLOCK, END_SIGNALS)  # which start_process held back
    try:
        pipe.send(("done", work(task, lambda value: pipe.send(("told", value)))))
    except Fault as fault:
        pipe.send(("fault", str(fault)))


def end_with_parent() -> None:
    """Runs first in a process of a pool: SIGTERM and SIGHUP end it at once, Ctrl-C is left to the process that began
    it, and the kernel ends it as soon as the thread that began it has ended, however that was."""
    import ctypes
    from multiprocessing import parent_process

    signal.signal(signal.SIGINT, signal.SIG_IGN)
    for number in (signal.SIGTERM, signal.SIGHUP):
        signal.signal(number, signal.SIG_DFL)
    ctypes.CDLL(None).prctl(PR_SET_PDEATHSIG, signal.SIGKILL)
    if (parent := parent_process()) is not None and parent.pid != os.getppid():
        os._exit(1)  # it ended before


def receive_messages(running: Running, outcomes: dict[int, Outcome], on_progress: OnProgress) -> None:
    """Waits for messages of the processes, and takes one of each that sent some: notes its result and takes it from
    `running`, or passes on what it tells; raises its Fault, or one where it ended without a result."""
    from multiprocessing.connection import Connection, wait

    for pipe in wait(list(running)):
        assert isinstance(pipe, Connection)
        index, process = running[pipe]
        try:
            kind, message = pipe.recv()
        except EOFError:
            process.join()
            raise Fault(f"a process ended before its work was done, with status {process.exitcode}") from None
        if kind == "fault":
            raise Fault(message)
        if kind == "told":
            on_progress(index, message)
        else:
            outcomes[index] = message
            process.join()
            del running[pipe]
