"""The commands: each runs the main function of a tool's module. Those of an installation and those beside this package
begin here. What a command needs is imported when it is known what it is asked for."""
import gc
import os
import signal
import sys
from functools import partial

from streetsim import VERSION

TYPE_CHECKING = False  # of what mypy alone reads, as the module typing takes a while
if TYPE_CHECKING:
    from types import FrameType
    from typing import NoReturn

NAMES = {"command": "sumo"}  # of the commands that are not called as their module
END_SIGNALS = (signal.SIGTERM, signal.SIGHUP)
# New objects after which Python looks for those that hold each other: hardly any of the tools' do.
BEFORE_A_LOOK = 50_000


def end_at_once(number: int, _frame: "FrameType | None") -> None:
    """Handles a signal that comes before anything is begun: ends the command with the line that says so, and with
    status 128 + number."""
    name = "Ctrl-C" if number == signal.SIGINT else signal.Signals(number).name
    os.write(2, f"{os.path.basename(sys.argv[0])}: ended by {name}: nothing was written\n".encode(errors="replace"))
    os._exit(128 + number)


def print_version(name: str) -> None:
    """Prints the version of a command and ends the process, where this is all that it is asked for; where it cannot be
    written nothing, as the command then tells it."""
    try:
        os.write(1, f"{name} {VERSION}\n".encode())
    except OSError:
        return
    os._exit(0)


def run_command(module: str, package: str = "cli", words_module: str = "") -> "NoReturn":
    """Imports a tool's module, by its name in a package, runs it, and ends the process with its status. A signal that
    comes before that ends the command as end_at_once says. words_module: that of
    its words alone, for --help."""
    if sys.argv[1:] == ["--version"]:
        print_version(f"streetsim-{NAMES.get(module, module.rstrip('_'))}")
    from importlib import import_module

    gc.set_threshold(BEFORE_A_LOOK)
    # A command that a script has put into the background does not hear interrupts, and one of nohup no SIGHUP.
    hears = signal.getsignal(signal.SIGINT) is signal.default_int_handler
    for number in (*END_SIGNALS, *([signal.SIGINT] if hears else [])):
        if signal.getsignal(number) is not signal.SIG_IGN:
            signal.signal(number, end_at_once)
    signal.pthread_sigmask(signal.SIG_UNBLOCK, (*END_SIGNALS, signal.SIGINT))  # which the script held back
    from streetsim.base.files import end_by_signal, run_tool
    from streetsim.base.program import tell_at_end
    from streetsim.cli.defaults import tell_completed

    if words_module and import_module(f"streetsim.cli.{words_module}").is_help(sys.argv[1:]):
        module, package = words_module, "cli"
    main = import_module(f"streetsim.{package}.{module}").main

    def run_main(arguments: list[str]) -> int:
        """Takes Ctrl-C over, runs the tool, and says where it wrote what no word named, and whether its program is not
        known to be proved; gives its status."""
        if hears:
            signal.signal(signal.SIGINT, end_by_signal)
        status = main(arguments)
        tell_completed()
        tell_at_end()
        return status

    run_tool(run_main)


import_ = partial(run_command, "import_")
open_ = partial(run_command, "open_")
run = partial(run_command, "run")
plot = partial(run_command, "plot")
play = partial(run_command, "play")
compare = partial(run_command, "compare")
signals = partial(run_command, "signals")
study = partial(run_command, "study")
live = partial(run_command, "live")
route = partial(run_command, "route")
report = partial(run_command, "report")
export = partial(run_command, "export")
demand = partial(run_command, "demand")
calibrate = partial(run_command, "calibrate")
junction = partial(run_command, "junction")
example = partial(run_command, "example")
check = partial(run_command, "check")
sumo = partial(run_command, "command", "traci", "sumo_words")
