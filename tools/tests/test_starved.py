"""The program itself while memory is refused: each of its requests alone, and all from one on,
whatever it was asked to do.

It ends as it would with ample memory, or with status 1, `streetsim: out of memory` and whole replies; in
either case all that it was given is freed. A starved command has changed nothing: the other replies are those
to the other lines alone.
"""
import functools
import json
import re
import subprocess
import tempfile
import unittest
from pathlib import Path

from preloaded import why_not
from refusing import NEVER, RefusingCase
from support import PROGRAM, TOOLS, needs_simulator

TOP = TOOLS.parent
LINES = (TOP / "docs/LINES.md").read_text()
PLANNER = TOP / "examples/clients/planner.jsonl"
COUNTER = TOP / "examples/clients/counter.jsonl"
ENDED = b"streetsim: out of memory\n"
STARVED = b'{"starved":true}\n'
COUNTS = re.compile(
    rb'({"error":1,"name":"NotLoaded"}\n)*({"admitted":[01],"arrived":[01],"buffers":0,"cells":[01],"clock":[0-5],'
    rb'"taken":0,"waiting":[01]}\n)*'
)
# Six vehicles drive on to a street of another tile, where the last cell is closed, and queue up.
QUEUE = (
    b'{"cmd":"load","nodes":[[1,1,2],[2,1,2],[3,1,2]],"links":[[10,1,2,1,10,5],[20,2,3,1,10,5]],"turns":[[10,0,20,0]],'
    b'"zone":0,"dawdle":0,"change":0,"seed":0}\n',
    b'{"cmd":"close","link":20,"lane":0,"first":9,"last":9}\n',
    *[b'{"cmd":"enter","plan":[10,20],"lane":0,"depart":0}\n'] * 6,
    b'{"cmd":"advance","steps":20}\n',
    b'{"cmd":"lane","link":20,"lane":0}\n',
)
QUEUED = (
    b'{"links":2,"nodes":3,"turns":1}\n',
    b'{"closed":1}\n',
    *[b'{"car":%d}\n' % car for car in range(6)],
    b'{"clock":20}\n',
    b'{"buffer":[],"cells":[[0,8,0],[1,7,0],[2,6,0],[3,5,0],[4,4,0],[5,3,0]],"closed":[[9,9]],"waiting":[]}\n',
)
REASON = why_not()


def session_of_chapter(number):
    """The session that a chapter of LINES.md is: its lines, and its replies."""
    chapter = LINES[LINES.index(f"\n## {number}. ") :].partition(f"\n## {number + 1}. ")[0]
    shown = "".join(re.findall(r"```session\n(.*?)```", chapter, re.S)).encode().splitlines(keepends=True)
    lines = [line[2:] for line in shown if line.startswith(b"> ")]
    return lines, [line for line in shown if not line.startswith(b"> ")]


@functools.cache
def replies_to(lines):
    """What the program replies to some lines when memory is there."""
    done = subprocess.run([PROGRAM], input=b"".join(lines), capture_output=True, timeout=60, check=True)
    return tuple(done.stdout.splitlines(keepends=True))


@functools.cache
def record_of(lines):
    """The record of some lines when memory is there."""
    with tempfile.TemporaryDirectory() as folder:
        file = Path(folder) / "record"
        words = [PROGRAM, "--record", file]
        subprocess.run(words, input=b"".join(lines), capture_output=True, timeout=60, check=True)
        return file.read_bytes()


def short_steps(reply):
    """How many steps were made of an advance that stopped short, or none."""
    return json.loads(reply).get("short")


def done_of(line, reply):
    """The line that does what was done where a line was answered so, and its reply; nothing where it was starved."""
    if reply == STARVED:
        return []
    steps = short_steps(reply)
    if steps is None:
        return [(line, reply)]
    return [(b'{"cmd":"advance","steps":%d}\n' % steps, b'{"clock":%d}\n' % json.loads(reply)["clock"])]


def may_starve(line, reply):
    """Whether a command that would be answered so may be starved (section 9 of LINES.md)."""
    command = json.loads(line)
    takes_none = (
        reply.startswith(b'{"error":')
        or b'"step":' in reply
        or command["cmd"] in ("takeout", "count")
        or command.get("steps") == 0
    )
    return command["cmd"] == "load" or not takes_none


def are_replies(lines, told):
    """Whether these are the replies to the first lines of a session alone, some of them starved or short."""
    done = ()
    for line, reply in zip(lines, told):
        if reply == STARVED and not may_starve(line, replies_to((*(line for line, _ in done), line))[-1]):
            return False
        done = (*done, *done_of(line, reply))
    return len(told) <= len(lines) and tuple(reply for _, reply in done) == replies_to(tuple(line for line, _ in done))


def are_counts(told):
    """Whether these may be the counter's replies beside the planner: nothing is loaded at first,
    then there is a vehicle at most."""
    return len(told) <= 4 and COUNTS.fullmatch(b"".join(told)) is not None


def parts_of(told):
    """The ways in which the replies may be those to the planner and then those to the counter."""
    return [(told[:at], told[at:]) for at in range(len(told) + 1)]


def is_whole(tape):
    """Whether a tape was written to its end."""
    lines = tape.splitlines()
    return tape.endswith(b"\n") and json.loads(lines[0])["calls"] == len(lines) - 1


@needs_simulator
@unittest.skipIf(REASON, REASON or "")
class StarvedProgram(RefusingCase):
    def ample(self, words, text=b""):
        """A run to which nothing is refused."""
        run = self.run_refusing([PROGRAM, *words], NEVER, NEVER, text, self.folder)
        self.assertEqual((run.unfreed, run.requests > 0), (0, True))
        return run

    def refuse(self, words, check, text=b""):
        """Checks the runs to which each request is refused, alone and with all after it."""
        requests = self.ample(words, text).requests
        for last_of in (lambda number: number, lambda number: NEVER):
            met = self.refuse_each(
                lambda n: self.run_refusing([PROGRAM, *words], n, last_of(n), text, self.folder), check
            )
            # Threads may make a request more or less.
            self.assertGreater(met, requests // 2)

    def check_end(self, run, wanted=(0, b"")):
        """It ends as it would with ample memory, or out of memory, and all is freed. Whether it ended as it would."""
        self.assertIn((run.status, run.error), (wanted, (1, ENDED)), run)
        self.assertEqual(run.unfreed, 0, run)
        self.assertTrue(run.output.endswith(b"\n") or not run.output, run)
        return run.status == wanted[0]

    def check_prefix(self, run, output, wanted=(0, b"")):
        """What it writes are the first lines of this, and all of them where it ends as it would."""
        told = output if self.check_end(run, wanted) else output[: len(run.output)]
        self.assertEqual(run.output, told, run)

    def test_standard_input(self):
        met = set()
        for workers, (lines, replies) in (
            (1, session_of_chapter(2)),
            (1, session_of_chapter(5)),
            (1, session_of_chapter(6)),
            (3, (QUEUE, QUEUED)),
        ):
            with self.subTest(lines[0]):
                words, text = ["--workers", str(workers)], b"".join(lines)
                self.assertEqual(self.ample(words, text).output, b"".join(replies))
                self.refuse(words, functools.partial(self.check_session, lines, met), text)
        self.assertIn(STARVED, met)
        self.assertTrue(any(map(short_steps, met)))

    def check_session(self, lines, met, run):
        """Its replies are those to the lines alone; all lines have one where it ends as it would.
        What was told is added to `met`."""
        told = run.output.splitlines(keepends=True)
        met.update(told)
        self.assertTrue(are_replies(lines, told), run)
        if self.check_end(run):
            self.assertEqual(len(told), len(lines), run)

    def test_two_scripts_and_a_tape(self):
        self.refuse_scripts(lambda number: number)
        self.refuse_scripts(lambda number: NEVER)

    def refuse_scripts(self, last_of):
        """Checks the runs of both scripts, each in a folder of its own, to which the requests up to the last of
        each number are refused."""
        words = [PROGRAM, "--tape", "run.tape", PLANNER, COUNTER]

        def folder_of(number):
            return self.folder / f"{number}-{last_of(number)}"

        def run_of(number):
            folder_of(number).mkdir()
            return self.run_refusing(words, number, last_of(number), folder=folder_of(number))

        self.assertGreater(
            self.refuse_each(run_of, lambda run: self.check_scripts(run, folder_of(run.number) / "run.tape")), 100
        )

    def check_scripts(self, run, tape):
        """Both scripts are answered in full where it ends as it would. A tape that is whole replays to the replies."""
        planner = PLANNER.read_bytes().splitlines(keepends=True)
        told = run.output.splitlines(keepends=True)
        parts = [(one, two) for one, two in parts_of(told) if are_replies(planner, one) and are_counts(two)]
        self.assertTrue(parts, run)
        if self.check_end(run):
            self.assertIn((4, 4), [(len(one), len(two)) for one, two in parts], run)
            self.assertTrue(is_whole(tape.read_bytes()), run)
        if tape.exists() and is_whole(tape.read_bytes()):
            self.check_tape(run, tape, parts)

    def check_tape(self, run, tape, parts):
        """A replay gives each script its replies; one that found no memory for the reply to its last
        call is not told that."""
        done = subprocess.run([PROGRAM, "--replay", tape], capture_output=True, timeout=60, check=True)
        *replies, _count = done.stdout.splitlines(keepends=True)
        sessions = [json.loads(line)["session"] for line in tape.read_bytes().splitlines()[1:]]
        wanted = [[reply for reply, caller in zip(replies, sessions) if caller == session] for session in (0, 1)]
        spared = 0 if run.status == 0 else 1
        self.assertTrue(
            any(
                all(len(told) + spared >= len(want) and told == want[: len(told)] for told, want in zip(part, wanted))
                for part in parts
            ),
            run,
        )

    def test_a_session_that_is_kept(self):
        """Two lines are done again, and the others served: what was answered is in the file."""
        self.keep_refused(lambda number: number)
        self.keep_refused(lambda number: NEVER)

    def keep_refused(self, last_of):
        def file_of(number):
            return self.folder / f"{number}-{last_of(number)}.jsonl"

        def run_of(number):
            file_of(number).write_bytes(b"".join(QUEUE[:2]))
            words = [PROGRAM, "--keep", file_of(number)]
            return self.run_refusing(words, number, last_of(number), b"".join(QUEUE[2:]))

        self.assertGreater(self.refuse_each(run_of, lambda run: self.check_kept(run, file_of(run.number))), 50)

    def check_kept(self, run, file):
        again = f"streetsim: 2 lines of {file} were done again\n".encode()
        self.assertIn((run.status, run.error), ((0, again), (1, again + ENDED), (1, ENDED)), run)
        self.assertEqual(run.unfreed, 0, run)
        told = run.output.splitlines(keepends=True)
        self.assertTrue(are_replies(QUEUE, (*QUEUED[:2], *told)), run)
        if run.status == 0:
            self.assertEqual(len(told), len(QUEUE) - 2, run)
        changes = [line for line, reply in zip(QUEUE[2:-1], told) if reply != STARVED]
        kept = file.read_bytes()
        self.assertTrue(kept.startswith(b"".join([*QUEUE[:2], *changes])), run)
        # No advance that stopped short is answered, and the file is whole lines.
        self.assertNotIn(b"short", run.output)
        self.assertTrue(kept.endswith(b"\n"))

    def test_a_session_with_a_record(self):
        """Alone, and behind two lines that are done again."""
        for again in (0, 2):
            with self.subTest(again=again):
                self.record_refused(again, lambda number: number)
                self.record_refused(again, lambda number: NEVER)

    def record_refused(self, again, last_of):
        lines, replies = map(tuple, session_of_chapter(14))

        def file_of(number):
            return self.folder / f"{again}-{number}-{last_of(number)}.bin"

        def run_of(number):
            words = [PROGRAM, "--workers", "3", "--record", file_of(number)]
            if again:
                log = file_of(number).with_suffix(".jsonl")
                log.write_bytes(b"".join(lines[:again]))
                words += ["--keep", log]
            return self.run_refusing(words, number, last_of(number), b"".join(lines[again:]))

        def check(run):
            told = (*replies[:again], *run.output.splitlines(keepends=True))
            self.check_record(run, lines, told, file_of(run.number), again)

        self.assertGreater(self.refuse_each(run_of, check), 50)

    def check_record(self, run, lines, told, file, again):
        """The record is that of what was answered; behind it stand at most the blocks of an advance that could not."""
        self.assertTrue(are_replies(lines, told), run)
        message = f"streetsim: 2 lines of {file.with_suffix('.jsonl')} were done again\n".encode() if again else b""
        self.assertIn((run.status, run.error), ((0, message), (1, message + ENDED), (1, ENDED)), run)
        self.assertEqual(run.unfreed, 0, run)
        done = tuple(one for line, reply in zip(lines, told) for one, _ in done_of(line, reply))
        record = file.read_bytes() if file.exists() else b""
        if run.status == 0:
            self.assertEqual((len(told), record), (len(lines), record_of(done)), run)
        else:
            self.assertEqual(record[: len(record_of(done))], record_of(done), run)
        if run.status and not again:
            # Of lines that were not answered the first alone was perhaps done.
            more = record_of((*done, *lines[len(told) : len(told) + 1]))
            self.assertEqual(record, more[: len(record)], run)

    def test_a_replay_and_an_upgrade(self):
        tape = (TOP / "docs/LINES.md").read_text()
        tape = tape[tape.index('{"calls":') :].partition("```")[0]
        replies = (TOP / "examples/one-vehicle.out").read_bytes()
        count = b'{"admitted":1,"arrived":1,"buffers":0,"cells":0,"clock":5,"taken":0,"waiting":0}\n'
        self.write("run.tape", tape)
        self.write("old.tape", tape.replace(tape.splitlines()[0], '{"tape":1}'))
        for words, wanted in (
            (["--replay", "run.tape"], replies + count),
            (["--workers", "2", "--replay", "old.tape"], replies + count),
            (["--upgrade", "run.tape"], tape.encode()),
            (["--upgrade", "old.tape"], tape.encode()),
        ):
            with self.subTest(words=words):
                self.assertEqual(self.ample(words).output, wanted)
                self.refuse(words, functools.partial(self.check_prefix, output=wanted))

    def test_help_and_wrong_words(self):
        self.refuse(["--help"], functools.partial(self.check_prefix, output=(TOP / "docs/help.txt").read_bytes()))
        for words, why in (
            (["--fast"], b"unexpected argument '--fast' found\n"),
            (["--workers", "65"], b"invalid value '65' for '--workers <N>': it is not a number from 1 to 64\n"),
            (
                ["--replay", "a", "b"],
                b"the argument '--replay <FILE>' cannot be used with scripts or with '--tape <FILE>'\n",
            ),
            ([b"a\xffz"], b"a word is not UTF-8\n"),
        ):
            with self.subTest(words=words):
                self.refuse(words, functools.partial(self.check_words, why=why))

    def check_words(self, run, why):
        """Where there is no memory for it, the line that says why is left out."""
        bad = b"streetsim: bad arguments\n"
        self.assertIn((run.status, run.error), ((2, bad + why), (2, bad), (1, ENDED)))
        self.assertEqual((run.output, run.unfreed), (b"", 0))


if __name__ == "__main__":
    unittest.main()
