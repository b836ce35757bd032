"""The sessions that the repository keeps with their replies: those of LINES.md,
and each `.jsonl` with a `.out` beside it."""
import json
import re

from definitions import TOP

LINES = ["docs/LINES.md", "crates/street_examples/data/LINES.md"]
FOLDERS = ["examples", "crates/street_examples/data/examples", "crates/street_examples/data/worked"]
# A network of more cells than this takes the definitions minutes a step, and more memory than there is.
MOST_CELLS = 100_000


def stored_sessions():
    """Each session: its name, its lines, and the replies, all as bytes."""
    found = list(sessions_of_page(page()))
    for folder in FOLDERS:
        for script in sorted((TOP / folder).glob("*.jsonl")):
            if script.with_suffix(".out").exists():
                lines = script.read_bytes().split(b"\n")[:-1]
                replies = script.with_suffix(".out").read_bytes().split(b"\n")[:-1]
                found.append((f"{folder}/{script.name}", lines, replies))
    return found


def page():
    """The text of LINES.md."""
    return next(TOP / path for path in LINES if (TOP / path).exists()).read_text()


def session_and_tape_of_page():
    """The lines of the example whose tape stands on the page, and this tape."""
    tape = re.search(r'^```\n(\{[^\n]*"tape":.*?)^```', page(), re.MULTILINE | re.DOTALL)[1].encode()
    script = next(
        TOP / folder / "one-vehicle.jsonl" for folder in FOLDERS if (TOP / folder / "one-vehicle.jsonl").exists()
    )
    return script.read_bytes().split(b"\n")[:-1], tape


def sessions_of_page(text):
    """The sessions of a page: in each of its sections the blocks marked so together, and each row of a table that
    has a line and its reply."""
    for section in re.split(r"^## ", text, flags=re.MULTILINE)[1:]:
        title = section.split("\n")[0]
        blocks = "".join(re.findall(r"^```session\n(.*?)^```", section, re.MULTILINE | re.DOTALL)).encode().splitlines()
        if blocks:
            sent = [line[2:] for line in blocks if line[:2] == b"> "]
            yield f"LINES.md, {title}", sent, [line for line in blocks if line[:2] != b"> "]
        for line, reply in re.findall(r"^\| `(\{.*\})` \| `(\{.*\})` \|$", section, re.MULTILINE):
            yield f"LINES.md, {title}: {line}", [line.encode()], [reply.encode()]


def cells_of(lines):
    """How many cells the loads of a session have."""
    loads = [json.loads(line) for line in lines if b'"load"' in line]
    return sum(link[3] * link[4] for load in loads for link in load["links"])


def session_fault(definitions, name, lines, wanted):
    """What is wrong with a session by the definitions, or none."""
    try:
        replies = [reply for reply in definitions.serve(lines).replies if reply is not None]
    except Exception as error:  # of a spoilt definition, or what is not understood
        return f"session {name}: {type(error).__name__} {error}"
    for at, (reply, right) in enumerate(zip(replies, wanted)):
        if reply != right:
            return f"session {name}, reply {at + 1}: {reply.decode()} and not {right.decode()}"
    return None if len(replies) == len(wanted) else f"session {name}: {len(replies)} replies and not {len(wanted)}"
