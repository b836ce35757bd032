#!/usr/bin/env python3
"""The definitions as a program: worked rows, sessions and tapes, evaluated word by word.

    check/definitions.py rows             evaluates every worked row; the status is 0 if all are true
    check/definitions.py serve < LINES    serves a session from nothing loaded, as the program does
    check/definitions.py record < LINES   the record of such a session, as the program writes it
    check/definitions.py words            lists which words of which files are evaluated, and which are not

`--top FOLDER` names another repository, or a copy of its folder `crates`. \
What is not understood is refused by file and line.
"""
import argparse
import contextlib
import sys
from collections.abc import Iterator
from dataclasses import dataclass
from pathlib import Path

from antt import Parser, Refused
from translate import Program
from words import NONE, Record, Variant, some

TOP = Path(__file__).resolve().parent.parent
MACHINE = "street_base.specs.Outcomes"
RUNNING = "street_line.specs.Runs"
RECORD = "street_base.specs.Record"
KEPT = "street_line.specs.KeptSessions"
KEPT_LINES = "street_line.specs.Kept"
WHOLE = Variant("Outcome.Whole")
# A row about all states, numbers or lists is evaluated at these, as far as its premises leave them free.
STATES = "street_base.proofs.rows.States"
GREEN = Record({"v_link": 10, "v_lane": 0, "v_next": 20})
# A list is evaluated by calls within calls, up to so many.
MOST_DEEP = 100_000


@contextlib.contextmanager
def deep_calls() -> Iterator[None]:
    """Python's limit of calls within calls, raised to what long lists take, and set back at the end.

    It is the whole process's: what reads nested text in C would overflow the stack under it.
    """
    before = sys.getrecursionlimit()
    sys.setrecursionlimit(max(before, MOST_DEEP))
    try:
        yield
    finally:
        sys.setrecursionlimit(before)


def without_end(line):
    """The bytes of a line, without its LF."""
    if line[-1] != 10:
        raise Refused("a reply has no line end")
    return bytes(line[:-1])


@dataclass
class Served:
    """The reply to each line of a session, none for a blank one; the calls that were made, the reply to each,
    and the state that they leave; of each line what a kept session keeps of it, and the blocks of its steps, as the
    record has them."""

    replies: list
    calls: list
    answers: list
    state: object
    kept: list
    blocks: list


class Definitions:
    """The definitions of a repository."""

    def __init__(self, top=TOP):
        self.program = Program(Path(top))

    def word(self, path, name):
        return self.program.word(path, name)

    # ---- sessions

    def serve(self, lines, most=65536):
        """What a session gives from nothing loaded; a command after `most` calls has no place."""
        said, served_line = self.word(RUNNING, "said"), self.word(RUNNING, "served_line")
        fault_line = self.word("street_text.specs.FaultLines", "fault_line")
        entry = self.word("street_desk.specs.History", "entry")
        served = Served([], [], [], NONE, [], [])
        for line in lines:
            what, kept, blocks = said(list(line)), b"", b""
            if what.name == "silent":
                served.replies.append(None)
            elif what.name == "faulty":
                served.replies.append(without_end(fault_line(what.parts[0]).parts[0]))
            elif len(served.calls) == most:
                served.replies.append(without_end(served_line(Variant("Served.Full")).parts[0]))
            else:
                reply, served.state, blocks = self.call(served.state, what.parts[0])
                kept = self.kept(line, reply)
                served.answers.append(without_end(served_line(Variant("Served.Answered", (reply,))).parts[0]))
                served.replies.append(served.answers[-1])
                served.calls.append(entry(0, what.parts[0], WHOLE))
            served.kept.append(kept)
            served.blocks.append(blocks)
        return served

    def call(self, state, command):
        """The reply to a command, the state after it, and the blocks of its steps in the record."""
        reply = self.word(MACHINE, "reply_to")(state, command, WHOLE)
        after = self.word(MACHINE, "state_after")(state, command, WHOLE)
        blocks = b""
        if command.name == "Command.Advance" and reply.name == "Reply.Clock":
            blocks = bytes(self.word(RECORD, "blocks")(command.parts[0], state.parts[0]))
        self.program.forget()
        return reply, after, blocks

    def kept(self, line, reply):
        """What is kept of a line whose command was answered so."""
        return bytes(self.word(KEPT_LINES, "entry_of")(self.word(KEPT_LINES, "is_change")(reply), list(line)))

    def lines(self, text):
        """The lines of a text, by the definition; for short texts alone, since each line doubles its work."""
        return [bytes(line) for line in self.word("street_stream.specs.Lines", "lines_of")(list(text))]

    # ---- sessions that are kept

    def keep(self, had, text):
        """What a kept session leaves, where its file had the first text and it reads the second: `Ok` of how many lines
        were done again, the replies and the file; or `Err` of the file's first bad line."""
        left = self.word(KEPT, "kept_session")(list(had), list(text))
        self.program.forget()
        return left

    def ended(self, had):
        """The lines of a kept file that have ended."""
        return bytes(self.word(KEPT, "ended")(list(had)))

    # ---- tapes

    def tape(self, calls):
        """The tape of these calls."""
        return bytes(self.word("street_tape.specs.Tapes", "tape_text")(calls))

    def calls_of_tape(self, lines):
        """The calls that the lines of a tape say, or none if it is no whole tape."""
        found = self.word("street_tape.specs.Entries", "tape_in")([list(line) for line in lines])
        return None if found is NONE else found.parts[0]

    def replay(self, calls):
        """The replies to these calls from nothing loaded."""
        answers = self.word("street_desk.specs.History", "answers_of")(calls)
        self.program.forget()
        return [without_end(self.word("street_text.specs.ReplyLines", "reply_line")(reply)) for reply, _ in answers]

    def count(self, state):
        """The reply to a count, with which a replay ends."""
        return without_end(
            self.word("street_text.specs.ReplyLines", "reply_line")(self.call(state, Variant("Command.Count"))[0])
        )

    # ---- rows

    def row_files(self):
        """The paths of all files of worked rows: they begin with these words."""
        crates = self.program.top / "crates"
        files = [
            file for file in sorted(crates.glob("*/proofs/**/*.antt")) if file.read_text().startswith("-- Worked rows")
        ]
        return [".".join(file.relative_to(crates).with_suffix("").parts) for file in files]

    def rows(self):
        """Each worked row: the path of its file, its name, and its statement."""
        for path in self.row_files():
            source = self.program.source(path)
            for name, statement in source.statements.items():
                yield path, name, statement

    def row_fault(self, path, statement):
        """What is wrong with a row, or none if it is true."""
        title = self.program.source(path).title
        try:
            true = self.holds(path, Parser(statement.type, title).whole(), {})
        except Refused as refused:
            return str(refused)
        except Exception as error:  # of a spoilt definition
            return f"cannot be evaluated: {type(error).__name__} {error}"
        finally:
            self.program.forget()
        return None if true is True else "is not true"

    def holds(self, path, tree, given):
        """A statement, for samples of what it is about, that meet its premises."""
        if tree[0] == "quantified":
            return all(self.holds(path, tree[3], {**given, **chosen}) is True for chosen in self.samples(path, tree))
        if tree[0] == "operator" and tree[1] == "→" and given:
            given = self.meeting(path, tree[2], given)
            if self.program.evaluated(path, tree[2], given) is not True:
                raise Refused(f"{path} line {tree[4]}: no sample meets this premise")
            return self.holds(path, tree[3], given)
        return self.program.evaluated(path, tree, given)

    def samples(self, path, tree):
        """Values for the names of a statement, by their type."""
        _, names, kind, _, line = tree
        loaded = self.word("street_base.specs.Machine", "loaded")(self.word(STATES, "two_links"))
        known = {
            "ℕ": [0, 1, 7], "Traffic": [loaded], "State": [NONE, some(loaded)], "List ℕ": [[], [10]],
            "List GreenSpec": [[GREEN]],
        }
        word = kind[1] if kind[0] == "name" else f"{kind[1][1]} {kind[2][0][1]}" if kind[0] == "apply" else None
        if word not in known:
            raise Refused(f"{path} line {line}: no samples of this type")
        return [{name: value for name in names} for value in known[word]]

    def meeting(self, path, premise, given):
        """The same values, one of them changed so that it meets a premise `x.field ≡ value` or `length x ≡ number`."""
        if premise[0] != "operator" or premise[1] != "≡":
            return given
        place, value = premise[2], self.program.evaluated(path, premise[3], given)
        if place[0] == "apply" and place[1][1] == "length":
            place = place[2][0]
            first = (self.program.evaluated(path, place, given) or [NONE])[0]
            value = [first] * value
        if place[0] == "name":
            return {**given, place[1]: value}
        if place[0] == "field" and place[1][0] == "name":
            return {**given, place[1][1]: given[place[1][1]].updated({f"v_{place[2]}": value})}
        return given


def show_rows(definitions):
    """Evaluates all rows, and tells of each that is not true."""
    count = bad = 0
    for path, name, statement in definitions.rows():
        fault = definitions.row_fault(path, statement)
        count, bad = count + 1, bad + (fault is not None)
        if fault is not None:
            print(f"{path} {name}: {fault}")
    print(f"{count - bad} rows are true, {bad} are not")
    return 1 if bad or not count else 0


def show_words(definitions):
    """Lists, file by file, how many words the rows and a session stand on, and which others are not evaluated."""
    for path, _, statement in definitions.rows():
        definitions.row_fault(path, statement)
    definitions.tape(definitions.serve([b'{"cmd":"count"}', b"count"]).calls)
    definitions.calls_of_tape([])
    evaluated = definitions.program.functions
    for path, source in sorted(definitions.program.sources.items()):
        others = [name for name in [*source.definitions, *source.records] if (path, name) not in evaluated]
        count = len(source.definitions) + len(source.records) - len(others)
        print(f"{source.title}: {count} evaluated" + (f"; not: {' '.join(others)}" if others else ""))
    return 0


def serve_input(definitions):
    """Serves standard input."""
    for reply in definitions.serve(input_lines()).replies:
        if reply is not None:
            sys.stdout.buffer.write(reply + b"\n")
    return 0


def record_input(definitions):
    """Writes the record of standard input's session."""
    lines = input_lines()
    sys.stdout.buffer.write(b"".join(definitions.serve(lines, len(lines)).blocks))
    return 0


def input_lines():
    return sys.stdin.buffer.read().split(b"\n")


def main():
    parser = argparse.ArgumentParser(description=__doc__, formatter_class=argparse.RawDescriptionHelpFormatter)
    parser.add_argument("what", choices=["rows", "serve", "record", "words"])
    parser.add_argument("--top", type=Path, default=TOP)
    words = parser.parse_args()
    definitions = Definitions(words.top)
    with deep_calls():
        doing = {"rows": show_rows, "serve": serve_input, "record": record_input, "words": show_words}
        return doing[words.what](definitions)


if __name__ == "__main__":
    sys.exit(main())
