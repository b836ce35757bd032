"""The program's words: standard input, scripts, tapes and replays, what it says on standard error, and its status.

What is wanted is told by docs/LINES.md, docs/help.txt and examples/ (stored sessions with their replies).
"""
import json
import os
import resource
import shutil
import signal
import socket
import subprocess
import sys
import time
import unittest

from support import PROGRAM, TOOLS, Case, needs_simulator

TOP = TOOLS.parent
EXAMPLES = TOP / "examples"
PLANNER = EXAMPLES / "clients/planner.jsonl"
COUNTER = EXAMPLES / "clients/counter.jsonl"
ONE_VEHICLE = (EXAMPLES / "one-vehicle.out").read_text()
HEAD = '{"calls":4,"tape":2}\n'
OLD_HEAD = '{"tape":1}\n'
FULL = '{"error":23,"name":"Full"}\n'
NOT_LOADED = '{"error":1,"name":"NotLoaded"}\n'
NO_VEHICLES = '{"admitted":0,"arrived":0,"buffers":0,"cells":0,"clock":0,"taken":0,"waiting":0}\n'
ONE_WAITS = '{"admitted":1,"arrived":0,"buffers":0,"cells":0,"clock":0,"taken":0,"waiting":1}\n'
AFTER_ONE_VEHICLE = '{"admitted":1,"arrived":1,"buffers":0,"cells":0,"clock":5,"taken":0,"waiting":0}\n'
NOT_JSON = '{"error":20,"name":"NotJson"}\n'
BAD_COMMAND = '{"error":21,"name":"BadCommand"}\n'
TOO_LONG = '{"error":22,"name":"LineTooLong"}\n'
BAD_RANGE = '{"error":7,"name":"BadRange"}\n'
TOO_MANY = '{"error":13,"name":"TooMany"}\n'
BAD_COUNT = '{"error":14,"name":"BadCount"}\n'


def tape_in_lines():
    """The tape of examples/one-vehicle.jsonl, as LINES.md has it."""
    text = (TOP / "docs/LINES.md").read_text()
    return HEAD + text.split(f"```\n{HEAD}")[1].split("```")[0]


def calls_of(tape, session):
    """The commands of a session on a tape, in order."""
    entries = [json.loads(line) for line in tape.splitlines()[1:]]
    return [entry["command"] for entry in entries if entry["session"] == session]


def commands_of(script):
    """The commands of a script, with a load's start, which may be left out."""
    commands = [json.loads(line) for line in script.read_text().splitlines()]
    return [{**command, "start": 0} if command["cmd"] == "load" else command for command in commands]


@needs_simulator
class ProgramCase(Case):
    """A test that runs the program in a folder of its own."""

    def ends(self, words, text="", status=0, error=""):
        """What the program writes to standard output; its status and its standard error are these."""
        done = subprocess.run(
            [PROGRAM, *map(str, words)], input=text, capture_output=True, text=True, timeout=60, cwd=self.folder,
            check=False,
        )
        self.assertEqual((done.returncode, done.stderr), (status, error))
        return done.stdout

    def ends_closed(self, closed, words, text=""):
        """The status of a run whose streams the shell has closed so, and what it writes to standard output."""
        done = subprocess.run(
            ["bash", "-c", f'"$0" "$@" {closed}', PROGRAM, *map(str, words)], input=text, capture_output=True,
            text=True, timeout=60, cwd=self.folder, check=False,
        )
        return done.returncode, done.stdout

    def is_refused(self, words, why):
        """The words are bad: nothing is written to standard output,
        and standard error says which word is bad and why."""
        done = subprocess.run(
            [PROGRAM, *map(str, words)], input=PLANNER.read_text(), capture_output=True, text=True, timeout=60,
            cwd=self.folder, check=False,
        )
        self.assertEqual((done.returncode, done.stdout, done.stderr), (2, "", f"streetsim: bad arguments\n{why}\n"))


class Input(ProgramCase):
    def test_each_example_for_each_number_of_workers(self):
        for session in sorted(EXAMPLES.glob("*.jsonl")):
            for workers in (1, 2, 3, 64):
                with self.subTest(session=session.stem, workers=workers):
                    told = self.ends(["--workers", workers], session.read_text())
                    self.assertEqual(told, session.with_suffix(".out").read_text())

    def test_no_input_gives_no_reply(self):
        self.assertEqual(self.ends([]), "")

    def test_a_call_without_a_place_is_full_and_changes_nothing(self):
        lines = PLANNER.read_text() + '{"cmd":"enter","plan":[10],"lane":0,"depart":0}\n{"cmd":"count"}\n'
        told = self.ends(["--calls", 4, "--tape", "run.tape"], lines)
        self.assertEqual(told, ONE_VEHICLE + FULL + FULL)
        self.assertEqual((self.folder / "run.tape").read_text(), tape_in_lines())


    def test_without_a_number_there_is_a_place_for_65536_calls(self):
        self.assertEqual(self.ends([], '{"cmd":"count"}\n' * 65_538), NOT_LOADED * 65_536 + FULL * 2)

    def test_a_million_calls_admit_all_vehicles_but_one(self):
        # The load takes a place.
        load, enter = PLANNER.read_text().splitlines(keepends=True)[:2]
        told = self.ends(["--calls", 1_000_000], load + enter * 1_000_001)
        self.assertTrue(told.endswith('{"car":999997}\n{"car":999998}\n' + FULL * 2))
        self.assertEqual(told.count("\n"), 1_000_002)


class Scripts(ProgramCase):
    def test_replies_come_in_the_order_of_the_words(self):
        planner, queue = PLANNER, EXAMPLES / "queue.jsonl"
        alone = self.ends([planner])
        self.assertEqual(alone, ONE_VEHICLE)
        for workers in (1, 3):
            told = self.ends(["--workers", workers, planner, COUNTER]).splitlines(keepends=True)
            self.assertEqual("".join(told[:4]), ONE_VEHICLE)
            self.assertEqual(len(told), 8)
            told = self.ends(["--workers", workers, COUNTER, planner]).splitlines(keepends=True)
            self.assertEqual("".join(told[4:]), ONE_VEHICLE)
        self.assertEqual(self.ends([queue]), queue.with_suffix(".out").read_text())

    def test_the_tape_has_each_scripts_calls_in_their_order(self):
        told = self.ends(["--tape", "run.tape", PLANNER, COUNTER]).splitlines(keepends=True)
        tape = (self.folder / "run.tape").read_text()
        self.assertEqual(tape.splitlines()[0], '{"calls":8,"tape":2}')
        self.assertEqual(len(tape.splitlines()), 9)
        self.assertEqual(calls_of(tape, 0), commands_of(PLANNER))
        self.assertEqual(calls_of(tape, 1), commands_of(COUNTER))
        for line in tape.splitlines()[1:]:
            entry = json.loads(line)
            self.assertEqual(list(entry), ["command", "outcome", "session"])
            self.assertEqual(entry["outcome"], "whole")
            self.assertEqual(json.dumps(entry, sort_keys=True, separators=(",", ":")), line)
        self.replays_to(tape, {0: told[:4], 1: told[4:]}, AFTER_ONE_VEHICLE)

    def test_a_count_is_answered_at_its_place_on_the_tape(self):
        # What a count answers after none of the planner's calls, one, two, three and all four.
        counts = [NOT_LOADED, NO_VEHICLES, ONE_WAITS, AFTER_ONE_VEHICLE, AFTER_ONE_VEHICLE]
        told = self.ends(["--tape", "run.tape", COUNTER, PLANNER]).splitlines(keepends=True)
        sessions = [json.loads(line)["session"] for line in (self.folder / "run.tape").read_text().splitlines()[1:]]
        wanted = [counts[sessions[:place].count(1)] for place, session in enumerate(sessions) if session == 0]
        self.assertEqual(told[:4], wanted)

    def replays_to(self, tape, told, count):
        """A replay gives each session the replies that it was told, in the tape's order, and then the count."""
        wanted = "".join(told[json.loads(line)["session"]].pop(0) for line in tape.splitlines()[1:])
        self.assertEqual(self.ends(["--replay", "run.tape"]), wanted + count)

    def test_as_many_scripts_as_may_be(self):
        # All scripts are open at once.
        soft, hard = resource.getrlimit(resource.RLIMIT_NOFILE)
        if hard != resource.RLIM_INFINITY and hard < 1_100:
            self.skipTest("too few files may be open here")
        self.addCleanup(resource.setrlimit, resource.RLIMIT_NOFILE, (soft, hard))
        resource.setrlimit(resource.RLIMIT_NOFILE, (hard, hard))
        self.assertEqual(self.ends([COUNTER] * 1_024), NOT_LOADED * 4 * 1_024)

    def test_scripts_are_opened_in_the_order_of_the_words(self):
        # The writing end of a FIFO opens once the program opens it too, and the program waits there.
        names = ("first", "second", "third")
        for name in names:
            os.mkfifo(self.folder / name)
        with subprocess.Popen([PROGRAM, *names], stdout=subprocess.PIPE, text=True, cwd=self.folder) as process:
            self.addCleanup(process.kill)
            try:
                for name, script in zip(names, (PLANNER, COUNTER, COUNTER)):
                    self.write_to_reader(self.folder / name, script.read_bytes())
            except TimeoutError:
                process.kill()
                raise
            told = process.communicate(timeout=60)[0].splitlines(keepends=True)
        self.assertEqual("".join(told[:4]), ONE_VEHICLE)
        self.assertEqual((process.returncode, len(told)), (0, 12))

    def write_to_reader(self, fifo, data):
        """Writes to a FIFO, when a reader has come to it."""
        until = time.monotonic() + 20
        while time.monotonic() < until:
            try:
                end = os.open(fifo, os.O_WRONLY | os.O_NONBLOCK)
            except OSError:
                time.sleep(0.01)
                continue
            with open(end, "wb") as writer:
                writer.write(data)
            return
        raise TimeoutError(f"nobody opens {fifo.name}")

    def test_a_script_that_is_not_there_is_told_and_the_others_are_printed(self):
        told = self.ends([PLANNER, "none.jsonl"], status=1, error="streetsim: cannot read none.jsonl\n")
        self.assertEqual(told, ONE_VEHICLE)
        told = self.ends(
            ["--tape", "run.tape", PLANNER, "none.jsonl"], status=1, error="streetsim: cannot read none.jsonl\n"
        )
        self.assertEqual(told, ONE_VEHICLE)
        self.assertEqual((self.folder / "run.tape").read_text(), tape_in_lines())

    def test_a_tape_that_cannot_be_made_is_told_after_the_replies(self):
        told = self.ends(
            ["--tape", "none/run.tape", PLANNER], status=1, error="streetsim: cannot write none/run.tape\n"
        )
        self.assertEqual(told, ONE_VEHICLE)

    def test_many_scripts_share_one_network(self):
        load = self.write("load.jsonl", PLANNER.read_text().splitlines(keepends=True)[0])
        told = self.ends(["--tape", "run.tape", load, *[COUNTER] * 7]).splitlines(keepends=True)
        self.assertEqual(told[0], ONE_VEHICLE.splitlines(keepends=True)[0])
        self.assertEqual(len(told), 29)
        for script in range(7):
            answered = told[1 + 4 * script : 5 + 4 * script]
            before = answered.count(NOT_LOADED)
            self.assertEqual(answered, [NOT_LOADED] * before + [NO_VEHICLES] * (4 - before))
        tape = (self.folder / "run.tape").read_text()
        self.replays_to(tape, {0: told[:1], **{n: told[4 * n - 3 : 4 * n + 1] for n in range(1, 8)}}, NO_VEHICLES)


class Tapes(ProgramCase):
    def test_the_tape_of_the_first_example(self):
        for words, text in ([[], PLANNER.read_text()], [[PLANNER], ""]):
            self.assertEqual(self.ends(["--tape", "run.tape", *words], text), ONE_VEHICLE)
            self.assertEqual((self.folder / "run.tape").read_text(), tape_in_lines())

    def test_a_replay_prints_the_replies_and_then_a_count(self):
        tape = self.write("run.tape", tape_in_lines())
        for workers in (1, 2, 64):
            self.assertEqual(self.ends(["--workers", workers, "--replay", tape]), ONE_VEHICLE + AFTER_ONE_VEHICLE)

    def test_faulty_and_blank_lines_are_on_no_tape(self):
        self.ends(["--tape", "run.tape"], "\nadvance\n{}\n" + PLANNER.read_text() + " \n")
        self.assertEqual((self.folder / "run.tape").read_text(), tape_in_lines())

    def test_entries_that_starved_or_stopped_short_are_told_so(self):
        _, load, enter, _advance, vehicle = tape_in_lines().splitlines()
        starved = enter.replace('"whole"', '"starved"')
        short = '{"command":{"cmd":"advance","steps":5},"outcome":2,"session":0}'
        tape = self.write("run.tape", "\n".join(['{"calls":5,"tape":2}', load, starved, enter, short, vehicle]))
        told = self.ends(["--replay", tape])
        # It departs in step 0, and comes to cell 1 in step 1.
        self.assertEqual(
            told,
            '{"links":2,"nodes":3,"turns":1}\n{"starved":true}\n{"car":0}\n{"clock":2,"short":2}\n'
            '{"car":0,"cell":1,"lane":0,"link":10,"plan":[10],"speed":1,"state":"cell"}\n'
            '{"admitted":1,"arrived":0,"buffers":0,"cells":1,"clock":2,"taken":0,"waiting":0}\n',
        )

    def test_streams_that_are_closed(self):
        """Neither what is told nor a reply goes into the tape."""
        ends = {"2>&-": (0, ONE_VEHICLE), "2>&- >/dev/full": (1, ""), ">&-": (1, ""), ">&- 2>&-": (1, "")}
        for closed, end in ends.items():
            with self.subTest(closed=closed):
                self.assertEqual(self.ends_closed(closed, ["--tape", "run.tape"], PLANNER.read_text()), end)
                self.assertEqual((self.folder / "run.tape").read_text(), tape_in_lines())
        for closed in ("<&-", "<&- 2>&-"):
            self.assertEqual(self.ends_closed(closed, ["--tape", "run.tape"]), (1, ""))
            self.assertEqual((self.folder / "run.tape").read_text(), '{"calls":0,"tape":2}\n')

    def test_no_tape_does_nothing(self):
        entries = "".join(tape_in_lines().splitlines(keepends=True)[1:])
        heads = ('{"tape":2}', '{"calls":"4","tape":2}', '{"calls":-1,"tape":2}', '{"calls":4,"tape":3}', '{"calls":4}')
        for text in ("", "\n", "[1]\n", "{}\n", entries, *(f"{head}\n{entries}" for head in heads)):
            for word in ("--replay", "--upgrade"):
                with self.subTest(first=text[:24], word=word):
                    tape = self.write("run.tape", text)
                    told = self.ends([word, tape], status=1, error="streetsim: bad tape at line 1\n")
                    self.assertEqual(told, "")

    def test_a_line_of_a_tape_has_a_greatest_length(self):
        lines = tape_in_lines().splitlines()
        for place in (0, 2):
            long = [*lines[:place], lines[place].ljust(2_097_152), *lines[place + 1 :]]
            tape = self.write("run.tape", "\n".join(long) + "\n")
            self.assertEqual(self.ends(["--replay", tape]), ONE_VEHICLE + AFTER_ONE_VEHICLE)
            long[place] += " "
            tape = self.write("run.tape", "\n".join(long) + "\n")
            told = self.ends(["--replay", tape], status=1, error=f"streetsim: bad tape at line {place + 1}\n")
            self.assertEqual(told, ONE_VEHICLE.splitlines(keepends=True)[0] if place else "")

    def test_a_tape_may_be_written_otherwise(self):
        entries = [json.loads(line) for line in tape_in_lines().splitlines()]
        other = [json.dumps({"note": [-1.5], **dict(reversed(entry.items())), "session": 7}) for entry in entries]
        tape = self.write("run.tape", "\r\n".join(other))
        self.assertEqual(self.ends(["--replay", tape]), ONE_VEHICLE + AFTER_ONE_VEHICLE)

    def test_a_bad_line_ends_a_replay_after_the_calls_before_it(self):
        lines = tape_in_lines().splitlines(keepends=True)
        for bad in ("\n", lines[3][:20] + "\n", lines[2].replace('"whole"', "1"), lines[3].replace('"whole"', "5")):
            with self.subTest(bad=bad):
                tape = self.write("run.tape", "".join([*lines[:3], bad, *lines[4:]]))
                told = self.ends(["--replay", tape], status=1, error="streetsim: bad tape at line 4\n")
                self.assertEqual(told, "".join(ONE_VEHICLE.splitlines(keepends=True)[:2]))

    def test_a_tape_that_is_not_there(self):
        for word in ("--replay", "--upgrade"):
            self.assertEqual(self.ends([word, "none.tape"], status=1, error="streetsim: cannot read none.tape\n"), "")

    def test_a_tape_of_version_1(self):
        tape = self.write("old.tape", OLD_HEAD + tape_in_lines().removeprefix(HEAD))
        self.assertEqual(self.ends(["--replay", tape]), ONE_VEHICLE + AFTER_ONE_VEHICLE)
        upgraded = self.ends(["--upgrade", tape])
        self.assertEqual(upgraded, tape_in_lines())
        self.assertEqual(self.ends(["--upgrade", self.write("new.tape", upgraded)]), upgraded)

    def test_a_size_counts_on_a_tape_of_version_2_alone(self):
        _, load, enter, _, vehicle = tape_in_lines().splitlines(keepends=True)
        bus = enter.replace('"plan":[10]', '"plan":[10],"size":3')
        waits = '{"car":0,"depart":0,"lane":0,"link":10,"plan":[10],%s"state":"waiting"}\n'
        for head, size in ((OLD_HEAD, ""), ('{"calls":3,"tape":2}\n', '"size":3,')):
            tape = self.write("run.tape", head + load + bus + vehicle)
            told = self.ends(["--replay", tape])
            self.assertEqual(told, '{"links":2,"nodes":3,"turns":1}\n{"car":0}\n' + waits % size + ONE_WAITS)
        old = self.write("old.tape", OLD_HEAD + load + bus)
        self.assertEqual(self.ends(["--upgrade", old]), '{"calls":2,"tape":2}\n' + load + enter)

    def test_a_size_is_on_the_tape_where_it_is_not_1(self):
        load = PLANNER.read_text().splitlines(keepends=True)[0]
        self.ends(
            ["--tape", "run.tape"],
            load + "".join(f'{{"cmd":"enter","plan":[10],"lane":0,"depart":0,"size":{size}}}\n' for size in (1, 4, 5)),
        )
        sizes = [command.get("size") for command in calls_of((self.folder / "run.tape").read_text(), 0)[1:]]
        self.assertEqual(sizes, [None, 4, 5])

    def test_fewer_and_more_calls_than_the_first_line_says(self):
        _, load, enter, *_ = tape_in_lines().splitlines(keepends=True)
        replies = ONE_VEHICLE.splitlines(keepends=True)
        for calls, served, bad in ((3, 2, 4), (1, 1, 3), (0, 0, 2)):
            tape = self.write("run.tape", f'{{"calls":{calls},"tape":2}}\n' + load + enter)
            error = f"streetsim: bad tape at line {bad}\n"
            self.assertEqual(self.ends(["--replay", tape], status=1, error=error), "".join(replies[:served]))
            self.assertEqual(self.ends(["--upgrade", tape], status=1, error=error), "")


    def test_a_replay_admits_a_million_vehicles(self):
        _, load, enter, *_ = tape_in_lines().splitlines(keepends=True)
        last = '{"command":{"cmd":"enter","depart":0,"lane":7,"plan":[]},"outcome":"whole","session":0}\n'
        with open(self.folder / "run.tape", "w") as tape:
            tape.write('{"calls":1000002,"tape":2}\n' + load)
            tape.writelines([enter] * 1_000_000)
            tape.write(last)
        told = self.ends(["--replay", "run.tape"])
        count = ONE_WAITS.replace(":1,", ":1000000,").replace(":1}", ":1000000}")
        self.assertTrue(told.endswith('{"car":999998}\n{"car":999999}\n' + TOO_MANY + count))


class LastNumbers(ProgramCase):
    """The numbers up to which LINES.md says that something goes, and what is answered one beyond."""

    LOAD = (
        '{"cmd":"load","nodes":[[1,1,2]],"links":[[10,1,1,1,10,5]],"turns":[[10,0,10,0]],"zone":0,"dawdle":0,'
        '"change":0,"seed":0}\n'
    )
    LOADED = '{"links":1,"nodes":1,"turns":1}\n'

    def answers(self, *pairs):
        """In one session on a link that runs in a circle, each line gets its reply."""
        self.assertEqual(
            self.ends([], self.LOAD + "".join(f"{line}\n" for line, _ in pairs)),
            self.LOADED + "".join(reply for _, reply in pairs),
        )

    def test_the_greatest_network(self):
        greatest = 4_294_967_295
        nodes = [[id, 60, 64] for id in (*range(4_095), greatest)]
        links = [[id, 0, 0, 2, 1_000_000, 5] for id in range(128)] + [
            [id, 0, greatest, 1, 1, 1] for id in (*range(128, 4_095), greatest)
        ]
        turns = [[link, lane, next, 0] for link in range(128) for lane in (0, 1) for next in range(128)]
        network = {
            "nodes": nodes, "links": links, "turns": turns, "zone": 1_000, "dawdle": 1_000, "change": 1_000,
            "seed": 2**64 - 1, "start": 10**9,
        }
        another = [4_095, 0, 0, 1, 1, 1]
        bad_nodes = [greatest + 1, 1, 1], [4_095, 0, 1], [4_095, 61, 1], [4_095, 1, 0], [4_095, 1, 65]
        bad_lanes_lengths_and_limits = [0, 1, 1], [3, 1, 1], [1, 0, 1], [1, 1_000_001, 1], [1, 1, 0], [1, 1, 6]
        bad_links = [greatest + 1, 0, 0, 1, 1, 1], *([4_095, 0, 0, *rest] for rest in bad_lanes_lengths_and_limits)
        faults = [
            ("nodes", 4_096, {"nodes": [*nodes, [4_095, 1, 1]]}),
            ("links", 4_096, {"links": [*links, another]}),
            ("turns", 32_768, {"links": [*links[:-1], another], "turns": [*turns, [4_095, 0, 0, 0]]}),
            *(("nodes", 4_095, {"nodes": [*nodes[:-1], node]}) for node in bad_nodes),
            *(("links", 4_095, {"links": [*links[:-1], link]}) for link in bad_links),
            *(
                ("values", at, {name: network[name] + 1})
                for at, name in enumerate(("zone", "dawdle", "change", "start"))
            ),
        ]
        loads = [{"cmd": "load", **network, **other} for *_, other in faults] + [{"cmd": "load", **network}]
        told = self.ends([], "".join(json.dumps(load, separators=(",", ":")) + "\n" for load in loads))
        wanted = [f'{{"at":{at},"error":3,"name":"BadNetwork","part":"{part}"}}' for part, at, _ in faults]
        self.assertEqual(told.splitlines(), [*wanted, '{"links":4096,"nodes":4096,"turns":32768}'])

    def test_the_longest_plan_and_the_last_depart(self):
        enter = '{"cmd":"enter","plan":[%s],"lane":0,"depart":%d,"size":%d}'
        plan = ",".join(["10"] * 1_024)
        self.answers(
            (enter % (f"{plan},10", 0, 1), '{"at":1024,"error":8,"name":"BadPlan"}\n'),
            (enter % (plan, 10**9 + 1, 1), BAD_RANGE),
            (enter % (plan, 10**9, 5), BAD_RANGE),
            (enter % (plan, 10**9, 4), '{"car":0}\n'),
        )

    def test_the_most_steps_and_the_last_clock(self):
        advance = '{"cmd":"advance","steps":%d}'
        self.answers((advance % 10_001, BAD_COUNT), (advance % 10_000, '{"clock":10000}\n'))
        ended = '{"error":15,"name":"ClockEnd"}\n'
        late = self.LOAD.replace('"seed":0', f'"seed":0,"start":{10**9 - 10_000}')
        told = self.ends([], late + f"{advance % 1}\n{advance % 10_000}\n{advance % 9_999}\n{advance % 1}\n")
        self.assertEqual(told, f'{self.LOADED}{{"clock":999990001}}\n{ended}{{"clock":1000000000}}\n{ended}')

    def test_the_longest_signal_plan(self):
        def signal_of(offset, *phases):
            return json.dumps({"cmd": "signal", "node": 1, "offset": offset, "phases": phases}, separators=(",", ":"))

        def refused(at):
            return f'{{"at":{at},"error":9,"name":"BadSignal"}}\n'

        greens = [[10, 0, 10]] * 32_768
        phase = [600, []]
        self.answers(
            (signal_of(0, *[phase] * 17), refused(16)),
            (signal_of(0, phase, [601, []]), refused(1)),
            (signal_of(0, [0, []]), refused(0)),
            (signal_of(0, [1, [*greens, [10, 0, 10]]]), refused(0)),
            (signal_of(9_600, *[phase] * 16), refused(16)),
            (signal_of(9_599, *[phase] * 15, [600, greens]), '{"cycle":9600}\n'),
        )

    def test_the_most_detectors_and_rows(self):
        meter = '{"cmd":"meter","link":10,"lane":0,"cell":9,"period":%d}'
        rows = ",".join(f"[{start},0,0,0]" for start in range(2, 34))
        self.answers(
            (meter % 100_001, BAD_COUNT),
            (meter % 1, '{"meter":0}\n'),
            *((meter % 100_000, f'{{"meter":{number}}}\n') for number in range(1, 1_024)),
            (meter % 1, TOO_MANY),
            (meter % 100_001, BAD_COUNT),
            ('{"cmd":"advance","steps":34}', '{"clock":34}\n'),
            ('{"cmd":"read","meter":0}', f'{{"now":[34,0,0,0,0],"rows":[{rows}]}}\n'),
            ('{"cmd":"read","meter":1023}', '{"now":[0,34,0,0,0],"rows":[]}\n'),
            ('{"cmd":"read","meter":1024}', '{"error":12,"name":"NoMeter"}\n'),
        )

    def test_the_longest_line(self):
        count = '{"cmd":"count"}'
        told = self.ends(
            [], f"{count:1048576}\n{count:1048577}\n{' ' * 3_000_000}\n{'x' * 1_048_576}\n{'x' * 1_048_577}\n{count}"
        )
        self.assertEqual(told, NOT_LOADED + TOO_LONG + NOT_JSON + TOO_LONG + NOT_LOADED)

    def test_the_deepest_line_and_the_greatest_number(self):
        # The command itself is the first level.
        for begin, end in (("[", "]"), ('{"x":', "}")):
            deep = ['{"cmd":"count","x":' + begin * levels + "1" + end * levels + "}" for levels in (126, 127)]
            self.assertEqual(self.ends([], "\n".join(deep)), NOT_LOADED + NOT_JSON)
        self.answers(
            ('{"cmd":"advance","steps":18446744073709551615}', BAD_COUNT),
            ('{"cmd":"advance","steps":18446744073709551616}', BAD_COMMAND),
        )


class Limits(ProgramCase):
    """Under limits that the system sets."""

    def limited(self, words, text, limit, value, program=PROGRAM, **more):
        """What a run under a limit wrote to standard output, and how it ended."""
        def set_limit():
            resource.setrlimit(limit, (value, value))

        with open(self.folder / "replies", "w+") as output:
            done = subprocess.run(
                [program, *map(str, words)], input=text, stdout=output, stderr=subprocess.PIPE, text=True, timeout=60,
                cwd=self.folder, check=False, preexec_fn=set_limit, **more
            )
        return (self.folder / "replies").read_text(), done.returncode, done.stderr

    def test_128_kib_of_stack_are_enough(self):
        lines = [
            '{"cmd":"count","x":' + begin * 126 + "1" + end * 126 + "}\n" for begin, end in (("[", "]"), ('{"x":', "}"))
        ]
        script = self.write("deep.jsonl", "".join(lines))
        for words, text in (([], "".join(lines)), ([script], "")):
            told = self.limited(words, text, resource.RLIMIT_STACK, 128 << 10, env={})
            self.assertEqual(told, (NOT_LOADED * 2, 0, ""))
        for session in sorted(EXAMPLES.glob("*.jsonl")):
            told = self.limited(["--workers", 2], session.read_text(), resource.RLIMIT_STACK, 128 << 10, env={})
            self.assertEqual(told, (session.with_suffix(".out").read_text(), 0, ""))

    def test_a_refused_enter_of_100_links_keeps_a_kib_at_most(self):
        calls = 60_000
        load = PLANNER.read_text().splitlines(keepends=True)[0]
        lines = load + f'{{"cmd":"enter","plan":[{",".join(["10"] * 100)}],"lane":0,"depart":0}}\n' * (calls - 1)
        told, status, error = self.limited(["--calls", calls], lines, resource.RLIMIT_AS, (calls << 10) + (8 << 20))
        self.assertEqual((status, error), (0, ""))
        self.assertEqual(
            told, ONE_VEHICLE.splitlines(keepends=True)[0] + '{"at":1,"error":8,"name":"BadPlan"}\n' * (calls - 1)
        )

    def test_the_largest_network_takes_no_memory_for_its_cells(self):
        """A vehicle in each of 8,192 lanes of 1,000,000 cells: a bit for each cell would be 1 GB,
        in lanes with somebody alone too."""
        links = [[link, 1, 2, 2, 1_000_000, 5] for link in range(4_096)]
        load = {
            "cmd": "load", "nodes": [[1, 1, 2], [2, 1, 2]], "links": links, "turns": [], "zone": 0, "dawdle": 0,
            "change": 0, "seed": 0,
        }
        enters = [
            f'{{"cmd":"enter","plan":[{link}],"lane":{lane},"depart":0}}' for link in range(4_096) for lane in (0, 1)
        ]
        asked = ['{"cmd":"advance","steps":5}', '{"cmd":"count"}', '{"cmd":"lane","link":4095,"lane":1}']
        told, status, error = self.limited(
            [], "\n".join([json.dumps(load), *enters, *asked]), resource.RLIMIT_AS, 64 << 20
        )
        self.assertEqual((status, error), (0, ""))
        # Departed in step 0, and 1, 2, 3 and 4 cells on.
        self.assertEqual(told.splitlines(), [
            '{"links":4096,"nodes":2,"turns":0}', *(f'{{"car":{car}}}' for car in range(8_192)), '{"clock":5}',
            '{"admitted":8192,"arrived":0,"buffers":0,"cells":8192,"clock":5,"taken":0,"waiting":0}',
            '{"buffer":[],"cells":[[8191,10,4]],"closed":[],"waiting":[]}',
        ])  # fmt: skip

    def test_a_file_that_may_not_grow_is_a_failed_write(self):
        # Python ignores SIGXFSZ, and a program that it starts so does too, as ./streetsim does.
        lines = PLANNER.read_text() + '{"cmd":"count"}\n' * 100
        wanted = ONE_VEHICLE + AFTER_ONE_VEHICLE * 100
        for words, text, error in (
            ([], lines, "cannot write standard output"),
            ([self.write("long.jsonl", lines)], "", "cannot write standard output"),
            (["--tape", "run.tape"], "x\n" + PLANNER.read_text() * 12, "cannot write run.tape"),
        ):
            with self.subTest(words=words):
                told, status, said = self.limited(words, text, resource.RLIMIT_FSIZE, 4_096, restore_signals=False)
                self.assertEqual((status, said), (1, f"streetsim: {error}\n"))
                if "tape" in error:
                    self.assertEqual((self.folder / "run.tape").stat().st_size, 4_096)
                else:
                    self.assertEqual(told, wanted[:4_096])

    def test_a_program_that_is_started_otherwise_is_ended_by_the_signal(self):
        _, status, said = self.limited([], '{"cmd":"count"}\n' * 400, resource.RLIMIT_FSIZE, 4_096)
        self.assertEqual((status, said), (-signal.SIGXFSZ, ""))

    def test_the_script_at_the_top_starts_the_program_with_the_signal_ignored(self):
        top = self.folder / "clone"
        for name in ("streetsim", "dev/built.py", "dev/unproved.py", "tools/streetsim/__init__.py"):
            (top / name).parent.mkdir(parents=True, exist_ok=True)
            shutil.copy(TOP / name, top / name)
        shutil.copytree(TOP / "tools/streetsim/base", top / "tools/streetsim/base")
        (top / "crates.txt").write_text("street_sim:\n")
        (top / "crates/street_sim/out").mkdir(parents=True)
        shutil.copy(PROGRAM, top / "crates/street_sim/out/street_sim")
        subprocess.run([sys.executable, "-c", "import built; built.mark()"], cwd=top / "dev", check=True)
        _, status, said = self.limited(
            [], '{"cmd":"count"}\n' * 400, resource.RLIMIT_FSIZE, 4_096, program=top / "streetsim"
        )
        self.assertEqual((status, said), (1, "streetsim: cannot write standard output\n"))


class Workers(ProgramCase):
    def test_more_workers_make_no_run_slow(self):
        """A network with nobody in it: ten times the seconds of one worker would be a start of threads in each step."""
        nodes = [[id, 1, 1] for id in range(7)]
        links = [[id, id, (id + 1) % 7, 1, 10, 5] for id in range(7)]
        turns = [[id, 0, (id + 1) % 7, 0] for id in range(7)]
        load = json.dumps(
            {
                "cmd": "load", "nodes": nodes, "links": links, "turns": turns, "zone": 0, "dawdle": 0, "change": 0,
                "seed": 0,
            }
        )
        text = f'{load}\n{{"cmd":"advance","steps":10000}}\n'

        def seconds(workers):
            began = time.monotonic()
            self.assertEqual(
                self.ends(["--workers", workers], text), '{"links":7,"nodes":7,"turns":7}\n{"clock":10000}\n'
            )
            return time.monotonic() - began

        alone = min(seconds(1) for _ in range(3))
        for workers in (4, 64):
            with self.subTest(workers=workers):
                self.assertLess(min(seconds(workers) for _ in range(3)), 10 * alone + 0.2)


@needs_simulator
class Faults(Case):
    """Files that cannot be read or written to their end, and which of several faults is told."""

    def opened(self, name, mode):
        """A file that is closed after the test."""
        file = open(name, mode)
        self.addCleanup(file.close)
        return file

    def fails(self, words, error, stdin=PLANNER, stdout=None):
        """What the program writes to standard output, if that is no file; it ends with status 1 and this fault."""
        source = stdin if isinstance(stdin, socket.socket) else self.opened(stdin, "rb")
        target = subprocess.PIPE if stdout is None else self.opened(stdout, "wb")
        done = subprocess.run(
            [PROGRAM, *map(str, words)], stdin=source, stdout=target, stderr=subprocess.PIPE, text=True, timeout=60,
            cwd=self.folder, check=False
        )
        self.assertEqual((done.returncode, done.stderr), (1, f"streetsim: {error}\n"))
        return done.stdout

    def test_what_was_read_before_a_read_failed_is_answered_and_taped(self):
        ours, theirs = socket.socketpair()
        self.addCleanup(theirs.close)
        # A socket closed with something unread in it: the other side reads what was sent, and then a read fails.
        theirs.sendall(b"x")
        ours.sendall(PLANNER.read_bytes() + b'{"cmd":"count"}')
        ours.close()
        self.assertEqual(self.fails(["--tape", "run.tape"], "cannot read standard input", theirs), ONE_VEHICLE)
        self.assertEqual((self.folder / "run.tape").read_text(), tape_in_lines())

    def test_what_opens_and_cannot_be_read(self):
        self.assertEqual(self.fails([self.folder, PLANNER], f"cannot read {self.folder}"), ONE_VEHICLE)
        self.assertEqual(self.fails(["--replay", self.folder], f"cannot read {self.folder}"), "")

    def test_a_standard_output_that_takes_nothing(self):
        tape = self.write("given.tape", tape_in_lines())
        for words in ([], [PLANNER], ["--replay", tape], ["--upgrade", tape], ["--help"]):
            self.fails(words, "cannot write standard output", stdout="/dev/full")

    def test_scripts_are_on_the_tape_also_where_their_replies_cannot_be_written(self):
        self.fails(["--tape", "run.tape", PLANNER], "cannot write standard output", stdout="/dev/full")
        self.assertEqual((self.folder / "run.tape").read_text(), tape_in_lines())

    def test_a_tape_that_takes_nothing(self):
        for words in ([], [PLANNER]):
            self.assertEqual(self.fails(["--tape", "/dev/full", *words], "cannot write /dev/full"), ONE_VEHICLE)

    def test_the_first_fault_is_told(self):
        for words, error, full in (
            (["--tape", "none/run.tape", "none.jsonl", PLANNER, "other.jsonl"], "cannot read none.jsonl", False),
            (["--tape", "none/run.tape", PLANNER, "other.jsonl", "none.jsonl"], "cannot read other.jsonl", True),
            (["--tape", "none/run.tape", PLANNER], "cannot write standard output", True),
            (["--tape", "none/run.tape"], "cannot write standard output", True),
        ):
            with self.subTest(words=words):
                told = self.fails(words, error, stdout="/dev/full" if full else None)
                self.assertEqual(told, None if full else ONE_VEHICLE)


class Words(ProgramCase):
    def test_help_is_the_one_in_docs(self):
        wanted = (TOP / "docs/help.txt").read_text()
        self.assertEqual(self.ends(["--help"]), wanted)
        self.assertEqual(self.ends(["-h"]), wanted)

    def test_bad_words(self):
        workers = "invalid value '{}' for '--workers <N>': it is not a number from 1 to 64"
        calls = "invalid value '{}' for '--calls <N>': it is not a number from 1 to 1000000"
        twice = "the argument '{}' cannot be used multiple times"
        no_value = "a value is required for '{}' but none was supplied"
        upgrade_alone = (
            "the argument '--upgrade <FILE>' cannot be used with scripts, '--tape <FILE>' or '--replay <FILE>'"
        )
        alone = "the argument '--replay <FILE>' cannot be used with scripts or with '--tape <FILE>'"
        for words, why in (
            (["--fast"], "unexpected argument '--fast' found"),
            (["--workers", -1], "unexpected argument '-1' found"),
            (["--workers", 0], workers.format(0)),
            (["--workers", 65], workers.format(65)),
            (["--workers", "two"], workers.format("two")),
            (["--workers", ""], workers.format("")),
            (["--calls", 0], calls.format(0)),
            (["--calls", 1_000_001], calls.format(1_000_001)),
            (["--workers", 1, "--workers", 2], twice.format("--workers <N>")),
            (["--calls", 5, "--calls", 5], twice.format("--calls <N>")),
            (["--tape", "run.tape", "--tape", "run.tape"], twice.format("--tape <FILE>")),
            (["--replay", "run.tape", "--replay", "run.tape"], twice.format("--replay <FILE>")),
            (["--workers"], no_value.format("--workers <N>")),
            (["--replay"], no_value.format("--replay <FILE>")),
            (["--tape"], no_value.format("--tape <FILE>")),
            (["--upgrade"], no_value.format("--upgrade <FILE>")),
            (["--upgrade", "run.tape", PLANNER], upgrade_alone),
            (["--upgrade", "run.tape", "--tape", "other.tape"], upgrade_alone),
            (["--upgrade", "run.tape", "--replay", "run.tape"], upgrade_alone),
            (["--replay", "run.tape", PLANNER], alone),
            (["--replay", "run.tape", "--tape", "other.tape"], alone),
            ([PLANNER] * 1_025, "more than 1024 scripts"),
        ):
            with self.subTest(words=words[:4]):
                self.is_refused(words, why)
        self.assertEqual(list(self.folder.iterdir()), [])

    def test_a_word_that_is_no_utf_8(self):
        done = subprocess.run(
            [PROGRAM, b"a\xffz"], input=b"", capture_output=True, timeout=60, cwd=self.folder, check=False
        )
        self.assertEqual(
            (done.returncode, done.stdout, done.stderr), (2, b"", b"streetsim: bad arguments\na word is not UTF-8\n")
        )


if __name__ == "__main__":
    unittest.main()
