"""Serves the page of streetsim-live, by its parsed arguments."""
import argparse
import sys
import webbrowser
from functools import partial
from pathlib import Path

from streetsim.base import limits
from streetsim.base.files import Fault, refuse_equal, until_interrupted
from streetsim.base.program import find_program
from streetsim.base.words import names_in
from streetsim.cli.defaults import complete_run
from streetsim.cli.running import with_lights_and_buses
from streetsim.control.settings import Settings
from streetsim.live.bridge import HOST, Bridge
from streetsim.live.joining import Joining
from streetsim.live.session import PageSession
from streetsim.live.session_files import SessionFiles
from streetsim.model.mapping import Map
from streetsim.model.replications import LISTED
from streetsim.model.runs import Run, read_with_map

# Words that a kept session is of.
SESSION_WORDS = ("rescue", "merge", "stops", "lights", "priority", "seen", "rounds", "joint")


def page_settings(args: argparse.Namespace, run: Run, mapping: Map) -> Settings:
    """What the words ask of the run of a page, which has no end."""
    settings = Settings(limits.CLOCK, 0, rescue=args.rescue, merging=args.merge == "turns")
    return with_lights_and_buses(args, run, mapping, settings)


def serve(bridge: Bridge, opens: bool) -> None:
    """Prints the address of a page and serves it until Ctrl-C; opens: whether a browser is started with it."""
    print(f"{bridge.address}\n(on this machine alone, for one page at a time; Ctrl-C ends)", flush=True)
    if opens:
        webbrowser.open(bridge.address)
    with until_interrupted():
        bridge.serve_forever()


def serve_by(args: argparse.Namespace) -> int:
    """Serves the page until Ctrl-C; gives status 0. Fault where files, words or the port are wrong."""
    complete_run(args)
    if args.keep:
        outputs = {"--keep": args.keep, "its page": f"{args.keep}.page"}
        refuse_equal(outputs, (args.run, args.map))
    run, mapping = read_with_map(args.run, args.map)
    program = find_program(args.program)
    names, rounds = tuple(names_in(args.joint)), args.rounds if mapping.yields else 0
    joining = Joining(
        run, mapping, args.map, program, partial(page_settings, args), names, rounds, args.workers,
        args.departures or LISTED,
    )
    page_run, messages = joining.page_run()
    print(*messages, sep="\n", end="\n" if messages else "", file=sys.stderr)
    page = joining.page(page_run)
    past = [getattr(args, name) for name in SESSION_WORDS]
    session_files = SessionFiles(Path(args.keep), page_run.run, past) if args.keep else None
    session = PageSession(page_run, session_files)
    try:
        with Bridge(session, page, args.port, None if session_files else joining.join) as bridge:
            serve(bridge, not args.no_open)
    except OSError as fault:
        raise Fault(f"--port {args.port} of {HOST}: {fault.strerror}") from None
    finally:
        session.close()
    return 0
