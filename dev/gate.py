"""What the kit's gate (rt ci) comes to: ./test and ./build go by its last line, not by its status alone."""
import re
from collections.abc import Iterable

COUNT = re.compile(r"(\d+) passed, (\d+) failed\n?")
# The begin of what is said of a crate, or of its tests.
PART = "== "
# How many functions a check has proved, whose check it was, and what is said once all is proved and each edit refused.
VERDICT = re.compile(r"logic=proved functions=(\d+)")
PROVED = re.compile(r"rt: (\w+) proved")
ALL_IS_WELL = re.compile(r"rt: (ok; .*)")
REFUSED = re.compile(r"must-fail edits: (\d+) refused")


def result_of(last: str, status: int) -> tuple[int, int]:
    """What passed and failed, by the gate's last line and its status.

    One failed where the line has no count, where nothing passed, and where the status is that of a failure.
    """
    counted = COUNT.fullmatch(last)
    passed, failed = map(int, counted.groups()) if counted else (0, 0)
    if not failed and (status or not passed):
        failed = 1
    return passed, failed


def functions_in(lines: Iterable[str]) -> dict[str, int]:
    """How many functions of each crate a run has proved itself; what it took from an earlier run it does not say."""
    counts: dict[str, int] = {}
    count = None
    for line in lines:
        if verdict := VERDICT.match(line):
            count = int(verdict[1])
        elif crate := PROVED.fullmatch(line.rstrip("\n")):
            counts |= {} if count is None else {crate[1]: count}
            count = None
        elif line.startswith(PART):
            count = None
    return counts


def summary_in(lines: Iterable[str]) -> str:
    """What the gate says of all at last: handles, edits, how much was done anew; nothing where it has not passed."""
    return next((well[1] for line in lines if (well := ALL_IS_WELL.fullmatch(line.rstrip("\n")))), "")
