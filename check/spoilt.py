"""One definition changed in each file that is evaluated, and what notices: a session, a worked row, a tape."""
from __future__ import annotations

import re
import shutil
from collections.abc import Iterator
from pathlib import Path

from definitions import TOP, Definitions
from kept import Left, defined as kept_by
from stored import MOST_CELLS, cells_of, session_and_tape_of_page, session_fault, stored_sessions
from tapes import Replay

# A file below crates/, what stands there, and what is put in its place.
Change = tuple[str, str, str]
BASE = "street_base/specs"
SPOILT: list[Change] = [
    (f"{BASE}/Search.antt", "first_among test (low + 1) count", "first_among test (low + 2) count"),
    (f"{BASE}/Limits.antt", "most_size = 4", "most_size = 5"),
    (f"{BASE}/Network.antt", "(t.lane == place.lane)", "(t.lane == place.link)"),
    (
        f"{BASE}/Vehicle.antt",
        "next_link v = slice_get (remaining_plan v) 1",
        "next_link v = slice_get (remaining_plan v) 0",
    ),
    (f"{BASE}/Lane.antt", "rear x v = x - (v.size - 1)", "rear x v = x - v.size"),
    (f"{BASE}/Draw.antt", "* 1000 / 2 ^ 32", "* 1000 / 2 ^ 31"),
    (f"{BASE}/Signal.antt", "((step + plan.offset) % cycle plan)", "((step - plan.offset) % cycle plan)"),
    (f"{BASE}/State.antt", "place.lane no_lane", "0 no_lane"),
    (f"{BASE}/LaneChange.antt", "nat_lt 5 (free_behind", "nat_le 5 (free_behind"),
    (f"{BASE}/Motion.antt", "min (speed + 1) limit", "min (speed + 2) limit"),
    (f"{BASE}/Release.antt", "nat_le q.ready m.clock", "nat_le (q.ready + 1) m.clock"),
    (f"{BASE}/Departure.antt", "nat_le w.depart clock", "nat_lt w.depart clock"),
    (f"{BASE}/Detector.antt", "nat_lt c (x + v.speed)", "nat_lt c (x + v.speed + 1)"),
    (f"{BASE}/Step.antt", "(lane_at m place).queue) node.capacity", "(lane_at m place).queue) (node.capacity + 1)"),
    (f"{BASE}/Faults.antt", "not (is_within 1 most_lanes link.lanes)", "not (is_within 2 most_lanes link.lanes)"),
    (f"{BASE}/Closing.antt", "(length marks) - 1 }", "(length marks) - 2 }"),
    (f"{BASE}/Effects.antt", "Some (Taken m.clock)", "Some (Taken 0)"),
    (f"{BASE}/Shown.antt", "length lane.queue", "length lane.waiting"),
    (f"{BASE}/Machine.antt", "nat_lt last_clock (m.clock + n)", "nat_lt last_clock m.clock"),
    (f"{BASE}/Outcomes.antt", "state_of_whole m c (Some r) = m", "state_of_whole m c (Some r) = None"),
    (f"{BASE}/Record.antt", "slot_of place = 2 * place.link", "slot_of place = 3 * place.link"),
    (f"{BASE}/Refusals.antt", "number_of Gone = 11", "number_of Gone = 12"),
    ("street_gap/specs/Closed.antt", "last x = nat_le first x", "last x = nat_lt first x"),
    ("street_gap/specs/Sight.antt", "lesser (Some a) None = Some a", "lesser (Some a) None = None"),
    ("street_rule/specs/Sight.antt", "(λ y. y - x - 1) obstacle) 16", "(λ y. y - x - 1) obstacle) 15"),
    (
        "street_text/specs/LineCommands.antt",
        "option_and_then node_from (row_in 3 d)",
        "option_and_then node_from (row_in 4 d)",
    ),
    ("street_text/specs/Faults.antt", "Some 20", "Some 22"),
    ("street_text/specs/ReplyLines.antt", "(e.car ∷ e.cell ∷ e.speed", "(e.car ∷ e.speed ∷ e.cell"),
    ("street_text/specs/FaultLines.antt", "(error_data n (name_of fault))", "(error_data 21 (name_of fault))"),
    ("street_text/specs/CommandTexts.antt", "(codes \"start\") net.start", "(codes \"start\") net.seed"),
    ("street_line/specs/Runs.antt", "said_by (Err f) = faulty f", "said_by (Err f) = silent"),
    ("street_line/specs/KeptSessions.antt", "entry_of (is_change (reply_to", "entry_of (is_done (reply_to"),
    ("street_line/specs/Redo.antt", "is_done (Refused refusal) = false", "is_done (Refused refusal) = true"),
    ("street_line/specs/Kept.antt", "is_change (Clock clock) = true", "is_change (Clock clock) = false"),
    ("street_line/specs/KeptFiles.antt", "sound_len (zero ∷ xs) = 0", "sound_len (zero ∷ xs) = suc (sound_len xs)"),
    ("street_stream/specs/Lines.antt", "is_blank [] = true", "is_blank [] = false"),
    ("street_tape/specs/Tapes.antt", "(codes \"session\") e.session", "(codes \"session\") 1"),
    ("street_tape/specs/Entries.antt", "(codes \"session\") d", "(codes \"outcome\") d"),
    ("street_tape/specs/Replies.antt", "m c (Short k) = MayBeShort m c k", "m c (Short k) = ⊤"),
    ("street_desk/specs/History.antt", "(reply_to m e.command e.outcome, e.outcome) ∷", ""),
]
# Sessions that are stored nowhere, each with its places for calls and its replies, by LINES.md.
COUNT = b'{"cmd":"count"}'
WORKED_SESSIONS = [
    ("without a second place", [COUNT, COUNT], 1, [b'{"error":1,"name":"NotLoaded"}', b'{"error":23,"name":"Full"}']),
    ("with a line too long", [b"x" * 1_048_577], 1, [b'{"error":22,"name":"LineTooLong"}']),
]
# Tapes, and what a replay writes, reckoned by hand from LINES.md: of a short advance the steps that were made are made
# again; the tape is bad where so many steps cannot have been a part of what was asked for.
LOAD = (
    b'{"command":{"change":0,"cmd":"load","dawdle":0,"links":[],"nodes":[[1,1,1]],"seed":0,"start":0,"turns":[],'
    b'"zone":0},"outcome":"whole","session":0}'
)
LOADED = b'{"links":0,"nodes":1,"turns":0}'
SHORT = b'{"command":{"cmd":"advance","steps":4},"outcome":3,"session":0}'
HEAD = b'{"calls":2,"tape":2}'
WORKED_TAPES = [
    (
        [HEAD, LOAD, SHORT],
        [
            LOADED, b'{"clock":3,"short":3}',
            b'{"admitted":0,"arrived":0,"buffers":0,"cells":0,"clock":3,"taken":0,"waiting":0}',
        ],
    ),
    ([HEAD.replace(b"2", b"1", 1), SHORT], [b"status 1: streetsim: bad tape at line 2"]),
    ([HEAD, LOAD, SHORT.replace(b"3", b"4")], [LOADED, b"status 1: streetsim: bad tape at line 3"]),
    ([HEAD, LOAD, SHORT.replace(b"3", b"0")], [LOADED, b"status 1: streetsim: bad tape at line 3"]),
    (
        [HEAD, LOAD, b'{"command":{"cmd":"count"},"outcome":1,"session":0}'],
        [LOADED, b"status 1: streetsim: bad tape at line 3"],
    ),
]
# Kept sessions: what the file has, what is read, and what is left, reckoned by hand from LINES.md.
LOADING = (
    b'{"cmd":"load","nodes":[[1,1,1]],"links":[],"turns":[],"zone":0,"dawdle":0,"change":0,"seed":0,"start":0}\n'
)
TWO_STEPS, TAKING = b'{"cmd":"advance","steps":2}\n', b'{"cmd":"takeout","car":0}\n'
COUNTED = b'{"admitted":0,"arrived":0,"buffers":0,"cells":0,"clock":2,"taken":0,"waiting":0}\n'
WORKED_KEPT = [
    # A line is torn; a question, a refused and a faulty line are not kept.
    (
        LOADING + TWO_STEPS + b'{"cmd":"adv',
        COUNT + b"\n" + TAKING + b"\nx\n" + TWO_STEPS[:-1],
        Left(
            COUNTED + b'{"error":10,"name":"NoVehicle"}\n{"error":20,"name":"NotJson"}\n{"clock":4}\n',
            b"streetsim: 11 bytes behind the lines of FILE are now in FILE.lost\n"
            b"streetsim: 2 lines of FILE were done again\n",
            LOADING + TWO_STEPS + TWO_STEPS,
        ),
    ),
    # A line of the file is refused where it stands: the file stays.
    (LOADING + TAKING, COUNT, Left(b"", b"streetsim: bad tape at line 2\n", LOADING + TAKING)),
    # A disk has left NULs, and an LF behind them.
    (
        LOADING + TWO_STEPS + bytes(3) + b"\n",
        COUNT,
        Left(
            COUNTED,
            b"streetsim: 4 bytes behind the lines of FILE are now in FILE.lost\n"
            b"streetsim: 2 lines of FILE were done again\n",
            LOADING + TWO_STEPS,
        ),
    ),
]
# What is told where a reply, a row or a tape differs; a definition that cannot be evaluated any more tells nothing.
DIFFERS = re.compile(
    r"row \S+ \w+: is not true|session .*(, reply \d+: .* and not |: \d+ replies and not )|tape |kept session "
)


def spoil(top: Path, file: str, word: str, other: str) -> None:
    """A copy of the definitions and the rows, with a word of a file spoilt."""
    for folder in [*TOP.glob("crates/*/specs"), *TOP.glob("crates/*/proofs/rows")]:
        shutil.copytree(folder, top / folder.relative_to(TOP))
    for rows in TOP.glob("crates/*/proofs/Rows.antt"):
        (top / rows.relative_to(TOP)).parent.mkdir(exist_ok=True)
        shutil.copy(rows, top / rows.relative_to(TOP))
    path = top / "crates" / file
    text = path.read_text()
    if word not in text:
        raise ValueError(f"{file} has no {word!r}")
    path.write_text(text.replace(word, other, 1))


def short_sessions() -> list[tuple[str, list[bytes], list[bytes]]]:
    """The stored sessions that take the definitions little time."""
    return [session for session in stored_sessions() if len(session[1]) < 40 and cells_of(session[1]) <= MOST_CELLS]


def faults(definitions: Definitions) -> Iterator[str]:
    """What the definitions do not fulfil: of the stored sessions of few lines, of the rows, and of tapes."""
    sessions = short_sessions()
    yield from (fault for session in sessions if (fault := session_fault(definitions, *session)))
    for path, name, row in definitions.rows():
        if fault := definitions.row_fault(path, row):
            yield f"row {path} {name}: {fault}"
    yield from (fault for name, lines, _ in sessions if (fault := tape_fault(definitions, name, lines)))
    lines, tape = session_and_tape_of_page()
    if definitions.tape(definitions.serve(lines).calls) != tape:
        yield "tape of the page: another one"
    yield from worked_faults(definitions)


def tape_fault(definitions: Definitions, name: str, lines: list[bytes]) -> str | None:
    """What is wrong with the tape of a session: it says the calls, and is replayed to their replies."""
    served = definitions.serve(lines)
    if definitions.calls_of_tape(definitions.tape(served.calls).split(b"\n")[:-1]) != served.calls:
        return f"tape of {name}: it says other calls"
    return None if definitions.replay(served.calls) == served.answers else f"tape of {name}: other replies"


def worked_faults(definitions: Definitions) -> Iterator[str]:
    """What is wrong with the sessions, tapes and kept sessions that were worked out by hand."""
    for name, lines, most, replies in WORKED_SESSIONS:
        if definitions.serve(lines, most).replies != replies:
            yield f"session {name}, reply 1 or 2: {definitions.serve(lines, most).replies} and not {replies}"
    for at, (lines, wanted) in enumerate(WORKED_TAPES, 1):
        got = Replay(definitions).output(lines)
        if got != wanted:
            yield f"tape {at}, worked out by hand: {got} and not {wanted}"
    for at, (had, text, left) in enumerate(WORKED_KEPT, 1):
        if (given := kept_by(definitions, had, text)) != left:
            yield f"kept session {at}, worked out by hand: {given} and not {left}"


def fault_of(top: Path) -> str | None:
    """The first thing that the definitions there do not fulfil, or none."""
    return next(faults(Definitions(top)), None)
