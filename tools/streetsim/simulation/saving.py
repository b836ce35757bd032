"""States of a session: what a script has done, as a run that it does nothing else to repeats exactly."""
import json
from collections.abc import Sequence
from hashlib import sha256

from streetsim.base.files import Fault, open_text, whole_file
from streetsim.base.unpacking import refuse_crowded
from streetsim.simulation.confining import why_not_written
from streetsim.simulation.deeds import NAMES
from streetsim.simulation.errors import TraCIException
from streetsim.simulation.session import TraciSession

FORMAT = "streetsim state 7"


def save_state(session: TraciSession, path: str) -> None:
    """Writes to a file what restores a session: the clock, and what a script has done up to it. What merging holds
    closed is opened. TraCIException where the file may not be written there, Fault where it cannot be."""
    if (why := why_not_written([path])) is not None:
        raise TraCIException(f"simulation.saveState: {why}")
    session.open_held_lanes()
    state = {"format": FORMAT, "of": digests_of(session), "clock": session.clock, "done": session.deeds.entries}
    with whole_file(path) as file:
        json.dump(state, file, separators=(",", ":"))


def digests_of(session: TraciSession) -> dict[str, str]:
    """By what a state of another session is known: {in words, what it is of if this differs: digest (SHA-256)}."""
    run, mapping = session.source, session.map
    timed = (line for _, line in run.timed)
    driven = [f"{controller.name} {controller.light.program}" for controller in session.driver.controllers]
    parts = {
        "another --lights": driven,
        "another network, or of other options": [run.load.text],
        "other routes": [*(line.text for line in session.of_file), *mapping.cars, json.dumps(mapping.kinds)],
        "other additional files, or of other options": [line.text for line in (*run.first, *timed)],
    }
    return {text: sha256("\n".join(lines).encode()).hexdigest() for text, lines in parts.items()}


def load_state(session: TraciSession, path: str) -> None:
    """Brings a session to a state that was saved of the same files and words; output files are written anew, as of a
    run that came to the state. TraCIException where the file has no such state. Fault where it was changed after it was
    saved, or the program is gone; the run can only be closed then."""
    try:
        with open_text(path) as file:
            text = file.read()
        refuse_crowded(text)
        state = json.loads(text)
    except (OSError, ValueError, RecursionError) as fault:
        raise TraCIException(f"{path}: cannot be read: {fault}") from None
    if not isinstance(state, dict) or state.get("format") != FORMAT:
        raise TraCIException(f"{path}: not a state that simulation.saveState of streetsim wrote")
    try:
        if differing := [text for text, digest in digests_of(session).items() if state["of"].get(text) != digest]:
            raise TraCIException(f"{path}: a state of {differing[0]}")
        clock, deeds = state["clock"], state["done"]
        check_rising([session.source.start(), *(clock for clock, *_ in deeds), clock])
    except (AttributeError, LookupError, TypeError, ValueError) as fault:
        raise changed_state_fault(path, fault) from fault
    try:
        repeat_deeds(session, clock, deeds)
    except (AttributeError, LookupError, TypeError, ValueError, TraCIException) as fault:
        raise changed_state_fault(path, fault) from fault


def changed_state_fault(path: str, fault: Exception) -> Fault:
    """What is raised for a state that cannot have been written so."""
    return Fault(f"{path}: was changed after saveState wrote it ({fault!r}): close the run")


def check_rising(clocks: Sequence[int]) -> None:
    """ValueError where clocks do not rise."""
    if sorted(clocks) != list(clocks):
        raise ValueError("its clocks do not rise")


def repeat_deeds(session: TraciSession, clock: int, deeds: Sequence[tuple[int, str, str, list]]) -> None:
    """Starts the program anew and does some deeds again, up to a clock. LookupError for what is no deed."""
    session.restart()
    for deed_clock, part, name, args in deeds:
        session.go_to(deed_clock)
        getattr({"session": session, "control": session.control}[part], name if name in NAMES else "")(*args)
    session.go_to(clock)
    session.forget_steps()
