"""streetsim-sumo: SUMO's command line over streetsim: a run to its end, or TraCI's protocol for clients."""
import os
import sys
import time
from collections.abc import Mapping, Sequence
from math import inf

import streetsim.traci as traci
from streetsim.base.client import ProgramEnded, Refused
from streetsim.base.files import Fault, quoteattr, seconds, whole_file
from streetsim.cli.sumo_words import parser
from streetsim.model import trust
from streetsim.simulation.confining import confined
from streetsim.simulation.errors import FatalTraCIError
from streetsim.simulation.opening import is_on
from streetsim.simulation.options import NO_FILE, SAVED, read_options
from streetsim.simulation.session import TraciSession
from streetsim.simulation.statistics import WaitingCount, doubts_of, statistics_of
from streetsim.sumo.configuration import FILES, WRITTEN
from streetsim.traci.checking import check_script
from streetsim.traci.server import HOST, Server, listen, turn_away

PORTS, CLIENTS, WRITES, CHECK = "remote-port", "num-clients", "writes", "--check"
MINUTE, MOST_CLIENTS = 60, 64
ALL_LEFT = "All vehicles have left the simulation."


def main(arguments: list[str]) -> int:
    """Runs streetsim-sumo; gives 0, or 1 where a client went away without closing or a script has calls that are not
    here. Fault for wrong words, files that cannot be read, and a port that is taken."""
    if {"-V", "--version"} & set(arguments):
        parser().parse_args(["--version"])
    if arguments[0].partition("=")[0] == CHECK:
        args = parser().parse_args(arguments)
        return check_script(args.check)
    try:
        options = read_options(arguments)
        if options.get(SAVED, NO_FILE[0]) not in NO_FILE:
            left_out = (SAVED, "configuration-file")
            kept = {name: value for name, value in options.items() if name not in left_out}
            write_configuration(options[SAVED], kept)
            return 0
        return run_with_options(arguments, options)
    except (FatalTraCIError, Refused, ProgramEnded) as fault:
        raise Fault(str(fault)) from None


def run_with_options(arguments: Sequence[str], options: Mapping[str, str]) -> int:
    """Makes the run that SUMO's words ask for, which have these options, by clients or alone; gives the status."""
    count, port = number_in(options, CLIENTS, 1, 1, MOST_CLIENTS), number_in(options, PORTS, 0, 0, (1 << 16) - 1)
    writes = folder_in(options, WRITES, port)
    listening = listen(port) if port else None
    is_verbose, started = "verbose" in options and is_on(options["verbose"]), time.monotonic()
    if listening is not None:
        print(f"streetsim-sumo listens at port {port} of {HOST} for {count} clients", flush=True)
    try:
        traci.start(["sumo", *arguments])
    except BaseException:
        if listening is not None:
            turn_away(listening)
        raise
    session, start_clock = traci.simulation.session(), traci.simulation.getTime()
    if is_verbose:
        print(f"Loading done.\nSimulation version streetsim started with time: {start_clock:.2f}.", flush=True)
    lost_clients, reason, waiting_by_minute = 0, "TraCI requested termination.", list[WaitingCount]()
    try:
        if listening is not None:
            with confined(writes):
                lost_clients = Server(listening, count, lambda text: print(text, file=sys.stderr)).serve()
            session = traci.simulation.session()
        else:
            reason, waiting_by_minute = run_to_end(session, seconds(options["end"]) if "end" in options else inf)
    except BaseException:
        session.kill()
        raise
    print_end(session, options, reason, time.monotonic() - started, waiting_by_minute)
    traci.close()
    return int(lost_clients > 0)


def write_configuration(path: str, options: Mapping[str, str]) -> None:
    """Writes options as a configuration of SUMO's, with paths from its folder. Fault where it cannot be written."""
    folder = os.path.dirname(os.path.abspath(path))
    with whole_file(path) as file:
        file.write('<?xml version="1.0" encoding="UTF-8"?>\n\n<configuration>\n')
        for name, option_text in options.items():
            parts = option_text.split(",") if name in FILES else [option_text]
            if name in (*FILES, *WRITTEN) and option_text not in NO_FILE:
                parts = [os.path.relpath(part.strip(), folder) for part in parts if part.strip()]
            file.write(f"    <{name} value={quoteattr(','.join(parts) or 'true')}/>\n")
        file.write("</configuration>\n")


def number_in(options: Mapping[str, str], name: str, default: int, least: int, most: int) -> int:
    """The whole number of an option; Fault where it is none from least to most."""
    text = options.get(name, str(default))
    if not text.isdecimal() or len(text) > 9 or not least <= int(text) <= most:
        raise Fault(f"--{name} {text}: is not {least} to {most:,}")
    return int(text)


def folder_in(options: Mapping[str, str], name: str, port: int) -> str | None:
    """The folder of an option, or None; Fault where it is none, and without a port, as no client has a word then."""
    folder = options.get(name)
    if folder is not None and not port:
        raise Fault(f"--{name} {folder}: is for clients, who come with --{PORTS}")
    if folder is not None and not os.path.isdir(folder):
        raise Fault(f"--{name} {folder}: is no folder")
    return folder


def run_to_end(session: TraciSession, end: float) -> tuple[str, list[WaitingCount]]:
    """Makes a run to its end: until no vehicle is left, or to a clock; gives (why it has ended, in SUMO's words; how
    many waited to enter at each minute)."""
    waiting_by_minute, last_departure = [], max((line.command["depart"] for line in session.source.enters), default=0)
    while session.clock < end and session.count_not_ended() > 0:
        minute = session.clock - session.clock % MINUTE + MINUTE
        session.step(min(minute, end) if session.clock < last_departure else 0)
        if session.clock % MINUTE == 0:
            waiting_by_minute.append(WaitingCount(session.clock, len(session.waiting_to_depart())))
    return "The final simulation step has been reached." if session.clock >= end else ALL_LEFT, waiting_by_minute


def print_end(
    session: TraciSession, options: Mapping[str, str], reason: str, wall_seconds: float,
    waiting_by_minute: Sequence[WaitingCount],
) -> None:  # fmt: skip
    """Prints SUMO's last lines, as far as the options ask for them, and that a run is not to be trusted, if so."""
    with_means = is_on(options.get("duration-log.statistics", "false"))
    if with_means or is_on(options.get("verbose", "false")):
        print(f"Simulation ended at time: {session.clock:.2f}\nReason: {reason}")
        print(f"Performance:\n Duration: {wall_seconds:.2f}s")
        print(*statistics_of(session).lines(with_means), sep="\n")
    if doubts := doubts_of(session, waiting_by_minute):
        print(trust.verdict(doubts), flush=True)
