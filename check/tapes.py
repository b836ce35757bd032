"""Tapes that are changed at random, and what their replay gives by the definitions: replies, a count,
or where the tape is bad."""
import json

from words import NONE

HEADS = [
    '{"tape":1}', '{"tape":2}', '{"tape":3}', '{"tape":"2"}', '{"calls":%d,"tape":2}',
    '{ "tape" : 2, "calls" : %d, "x" : null }', '{"calls":-1,"tape":2}', "", "tape",
]
OUTCOMES = ['"whole"', '"starved"', '"half"', "0", "1", "2", "3", "-1", "18446744073709551616", "null"]
TAPES = "street_tape.specs.Entries"


def changed_tape(random, lines):
    """The lines of a tape with a few changes; lines are bytes."""
    lines = list(lines)
    for _ in range(random.choice([0, 1, 1, 2])):
        at = random.randrange(len(lines))
        kind = random.randrange(6)
        if kind == 0:
            head = random.choice(HEADS)
            lines[0] = (head % (len(lines) - 1 + random.choice([0, 0, 1])) if "%d" in head else head).encode()
        elif kind == 1:
            del lines[at]
        elif kind == 2:
            lines.insert(at, random.choice([lines[at], b"", b" ", lines[at][:-1], b"{}"]))
        else:
            lines[at] = changed_call(random, lines[at])
        if not lines:
            lines = [b""]
    return lines


def changed_call(random, line):
    """A call with another outcome, another session, or a field less."""
    try:
        call = json.loads(line)
    except ValueError:
        return line
    if not isinstance(call, dict) or "outcome" not in call:
        return line
    change = random.randrange(5)
    if change == 0:
        del call[random.choice(list(call))]
    if change == 1:
        call["session"] = random.choice([5, -1, "0"])
    if change >= 2 and "outcome" in call:
        call["outcome"] = "here"
    return (
        json.dumps(call, separators=random.choice([(",", ":"), (", ", ": ")]))
        .replace('"here"', random.choice(OUTCOMES))
        .encode()
    )


class Replay:
    """What the definitions say of a tape that is replayed."""

    def __init__(self, definitions):
        self.definitions = definitions

    def calls_in(self, lines):
        """The calls that the first lines of a tape say, or none."""
        found = self.definitions.word(TAPES, "calls_in")([list(line) for line in lines])
        return None if found is NONE else found.parts[0]

    def output(self, lines):
        """The lines that a replay writes, and behind them how it fails, if it does."""
        read = self.longest_good(lines)
        calls = self.calls_in(lines[:read])
        fit, state = self.first_fit(calls)
        replies = self.definitions.replay(calls[:fit])
        if fit < len(calls):
            bad = fit + 2
        elif read == len(lines) and self.definitions.calls_of_tape(lines) is not None:
            return [*replies, self.definitions.count(state)]
        else:
            bad = read + 1
        return [*replies, b"status 1: streetsim: bad tape at line %d" % bad]

    def longest_good(self, lines):
        """How many of the first lines say calls, or are the first line of a tape; with one more they do not."""
        low, high = 0, len(lines)
        while low < high:
            middle = (low + high + 1) // 2
            if self.calls_in(lines[:middle]) is None:
                high = middle - 1
            else:
                low = middle
        return low

    def first_fit(self, calls):
        """How many of the first calls the machine can have answered so, and the state after these."""
        state = NONE
        for at, call in enumerate(calls):
            told = state, call.v_command, call.v_outcome
            if not self.definitions.word("street_tape.specs.Replies", "IsReplayable")(*told):
                return at, state
            state = self.definitions.word("street_base.specs.Outcomes", "state_after")(*told)
            self.definitions.program.forget()
        return len(calls), state
