"""streetsim-sumo and TraCI's protocol: a conversation that was recorded of SUMO, hostile bytes, SUMO's own clients."""
import contextlib
import glob
import importlib
import json
import os
import random
import re
import shutil
import socket
import struct
import subprocess
import sys
import threading
import unittest
import xml.etree.ElementTree as ElementTree
from fnmatch import fnmatchcase
from statistics import fmean
from unittest.mock import patch

from support import DATA, PROGRAM, TOOLS, Case, needs_package, needs_simulator, needs_sumo_tools

import streetsim.traci as traci
from streetsim.base.files import Fault
from streetsim.simulation.confining import confined
from streetsim.simulation.errors import FatalTraCIError
from streetsim.simulation.options import read_options
from streetsim.traci import constants as tc, domain, meeting, server
from streetsim.traci.answering import ReadCall
from streetsim.traci.absent import ABSENT
from streetsim.traci.checking import QUIET, ScriptCall, classify_call
from streetsim.traci.protocol import (
    MOST_MESSAGE, BadMessage, ValueReader, command, commands_in_message, double, string, strings, text,
)  # fmt: skip
from streetsim.traci.server import OK_STATES, Server, TraciClient, listen
from streetsim.traci.table import DOMAINS, GETS, SETS

CROSS = TOOLS / "examples/actuated"
WORDS = ["-n", str(CROSS / "cross.net.xml.gz"), "-r", str(CROSS / "cross.rou.xml"), "-W"]
EVERY = DATA / "traci/every_call"
CONVERSATION = DATA / "traci/conversation.txt"
SUMO, DEBIAN = "/usr/share/sumo", "/usr/lib/python3/dist-packages"
LISTENS = r"streetsim-sumo listens at port (\d+) of 127.0.0.1 for \d+ clients\n"


def message(*commands):
    """A message of commands, each (code, body)."""
    data = b"".join(command(*one) for one in commands)
    return struct.pack("!i", len(data) + 4) + data


def asked(domain, variable, name="", words=b""):
    """The command that asks for a variable."""
    return DOMAINS[domain].get, bytes((variable,)) + text(name) + words


def step(until=0.0):
    return tc.CMD_SIMSTEP, struct.pack("!d", until)


def answers(data):
    """The messages in some bytes, each the (code, result, text) of the states in it that are no answers of values;
    AssertionError where the bytes are none."""
    found = []
    while data:
        (size,) = struct.unpack_from("!i", data)
        assert 4 < size <= len(data), (size, len(data))
        states, at, body = [], 0, data[4:size]
        while at < len(body):
            length, head = body[at], 1
            if not length:
                (length,), head = struct.unpack_from("!i", body, at + 1), 5
            assert head < length <= len(body) - at, (length, body[at:])
            words = ValueReader(body, at + head + 1, at + length)
            result = words.byte()
            if not states or at >= skipped:
                states.append((body[at + head], result, words.text()))
                skipped = at + length + values_behind(body, at + length, states[-1])
            at = max(at + length, skipped)
        found.append(states)
        data = data[size:]
    return found


def values_behind(body, at, state):
    """The bytes of the answer that stands behind a state: a count and so many answers after a step, or one, or none."""
    code, result, _ = state
    if result or at >= len(body):
        return 0
    begin, count = at, 1
    if code == tc.CMD_SIMSTEP:
        (count,), at = struct.unpack_from("!i", body, at), at + 4
    elif code != tc.CMD_GETVERSION and code not in {one for of in DOMAINS.values() for one in of if one != of.set}:
        return 0
    for _ in range(count):
        length = body[at] or struct.unpack_from("!i", body, at + 1)[0]
        if code != tc.CMD_SIMSTEP and body[at + (1 if body[at] else 5)] not in (code, code + 16):
            break
        at += length
    return at - begin


class Answers(unittest.TestCase):
    def test_a_message_begins_with_its_length(self):
        """The four bytes of the length count too, as SUMO's pages on TraCI's messages have it."""
        whole = ReadCall(0xA4, lambda: 7, (), b"head", "i", struct.Struct(">i").pack)
        sized = ReadCall(0xA4, lambda: ("a", "bc"), (), b"head", "l")
        self.assertEqual(whole.message()(), struct.pack(">i4si", 12, b"head", 7))
        for one in (whole, sized):
            made = one.message()()
            self.assertEqual((int.from_bytes(made[:4], "big"), made[4:]), (len(made), one.answer()))


@needs_simulator
class Served(Case):
    def setUp(self):
        super().setUp()
        self.enterContext(patch.dict(os.environ, STREETSIM_PROGRAM=PROGRAM))
        self.addCleanup(lambda: traci.isLoaded() and traci.close())
        self.told = []

    def talk(self, data, clients=1):
        """What a client gets that sends some bytes and then nothing more; the run goes on."""
        ours, theirs = socket.socketpair()
        with theirs, socket.socket() as unused:
            serving = Server(unused, 0, self.told.append)
            serving.clients = [TraciClient(ours)]
            thread = threading.Thread(target=lambda: (theirs.sendall(data), theirs.shutdown(socket.SHUT_WR)))
            thread.start()
            parts = []
            reading = threading.Thread(target=lambda: parts.extend(iter(lambda: theirs.recv(1 << 16), b"")))
            reading.start()
            serving.serve()
            thread.join()
            reading.join()
            return b"".join(parts)


class Protocol(Served):
    def test_what_sumo_has_said_is_said_word_for_word(self):
        """Recorded of SUMO 1.15, whose client spoke with it: of the network, lights, a subscription, a context, a
        vehicle and its looks, routes and changes; the bytes of each answer are SUMO's."""
        traci.start(["sumo", *WORDS])
        lines = CONVERSATION.read_text().split("\n")
        sent, wanted = ([bytes.fromhex(line[2:]) for line in lines[at::2] if line] for at in (0, 1))
        self.assertEqual(len(sent), 100)
        self.assertEqual(self.talk(b"".join(sent)), b"".join(wanted))
        self.assertEqual(self.told, [])

    def test_states_of_the_protocol(self):
        """What is not here is not implemented, and names the call; unknown objects, wrong types and clocks beyond the
        last are errors; the conversation goes on."""
        traci.start(["sumo", *WORDS])
        said = self.talk(message(
            (0x77, b""), (DOMAINS["vehicle"].set, bytes((tc.VAR_SPEED,)) + text("east.0") + b"\x0b" + bytes(8)),
            asked("lane", tc.VAR_LENGTH, "nowhere"), asked("trafficlight", 0xFE, "J"), step(1e300), step(float("nan")),
            (DOMAINS["trafficlight"].set, bytes((tc.TL_PHASE_INDEX,)) + text("J") + string("1")),
            (DOMAINS["trafficlight"].set, bytes((tc.TL_PHASE_INDEX,)) + text("J") + b"\x09\x00\x00\x00\x09"),
            (DOMAINS["trafficlight"].set, bytes((tc.TL_PHASE_DURATION,)) + text("J") + double(float("inf"))),
            (tc.CMD_LOAD, strings(["-n", "nothing.net.xml", "--wrong"])), asked("simulation", tc.VAR_TIME),
            (tc.CMD_CLOSE, b""),
        ))  # fmt: skip
        [states] = answers(said)
        refused, error = tc.RTYPE_NOTIMPLEMENTED, tc.RTYPE_ERR
        self.assertEqual(
            [result for _, result, _ in states],
            [refused, refused, error, refused, error, error, error, error, error, error, 0, 0],
        )
        self.assertIn("command 0x77", states[0][2])
        self.assertIn("vehicle.setSpeed is not here: speeds follow the rules alone", states[1][2])
        self.assertIn("'nowhere'", states[2][2])
        self.assertIn("'wrong'", states[9][2])
        self.assertEqual((self.told, traci.simulation.getTime()), ([], 0.0))

    def test_a_version_that_says_what_it_is(self):
        traci.start(["sumo", *WORDS])
        said = self.talk(message((tc.CMD_GETVERSION, b""), (tc.CMD_CLOSE, b"")))
        self.assertIn(struct.pack("!i", tc.TRACI_VERSION) + text("streetsim"), said)

    def test_hostile_lengths(self):
        """Nothing but an error, after which the client is cut off; the run goes on for the next one."""
        traci.start(["sumo", *WORDS])
        whole = message(asked("simulation", tc.VAR_TIME))
        for data, why in (
            (struct.pack("!i", 2**31 - 1), "2,147,483,647 bytes"), (struct.pack("!i", -1), "-1 bytes"),
            (struct.pack("!i", 5), "5 bytes"), (struct.pack("!i", MOST_MESSAGE + 1), "bytes"),
            (struct.pack("!ib", 7, 100) + b"xy", "a command of 100 bytes"), (b"\0\0\0\x09\0\x7f\xff\xff\xff", "bytes"),
            (b"\0\0\0\x07\0ab", "ends in the length"), (whole[:4] + b"\x01" + whole[5:], "a command of 1 bytes"),
        ):
            with self.subTest(data=data):
                [states] = answers(self.talk(data))
                self.assertEqual([result for _, result, _ in states], [tc.RTYPE_ERR])
                self.assertIn(why, states[0][2])
                self.assertIn("cut off", self.told[-1])
        for at in range(1, len(whole)):
            self.assertEqual(self.talk(whole[:at]), b"")  # it went away
            self.assertIn("went away", self.told[-1])
        self.assertEqual(answers(self.talk(whole)), [[(DOMAINS["simulation"].get, 0, "")]])

    def test_what_is_announced_within_a_command_takes_no_memory(self):
        traci.start(["sumo", *WORDS])
        deep = b"".join(b"\x0f\0\0\0\x01" for _ in range(2000))
        huge = b"\x7f\xff\xff\xff"
        for words in (b"\x0e" + huge, b"\x0f" + huge, deep, b"\x0c" + huge, b"\x06\0" + huge):
            for variable in (tc.VAR_EDGE_TRAVELTIME, tc.LANE_ALLOWED):
                body = bytes((variable,)) + text("WJ") + words
                [states] = answers(self.talk(message((DOMAINS["edge"].set, body))))
                self.assertEqual([result for _, result, _ in states], [tc.RTYPE_ERR])
        with patch.object(server, "MOST_ANSWER", 1000):
            [*_, states] = answers(self.talk(message(*100 * [asked("lane", tc.TRACI_ID_LIST)])))
        self.assertIn("would have more than 1,000 bytes", states[-1][2])

    def test_parameters_are_bounded(self):
        """What a domain keeps is bounded: more is an error, and nothing changes; what is replaced makes room."""
        traci.start(["sumo", *WORDS])

        def setting(key, value):
            words = b"\x0f\0\0\0\x02" + string(key) + string(value)
            return DOMAINS["lane"].set, bytes((tc.VAR_PARAMETER,)) + text("WJ_0") + words

        with patch.object(domain, "MOST_LETTERS", 1000 + 2 * domain.OVERHEAD):
            said = self.talk(message(
                setting("a", "x" * 900), setting("b", "y" * 900), setting("a", "z"), setting("b", "y" * 900),
                setting("a", "x" * 900),
            ))  # fmt: skip
            [states] = answers(said)
            self.assertEqual([result for _, result, _ in states], [0, tc.RTYPE_ERR, 0, 0, tc.RTYPE_ERR])
            self.assertIn("lane: parameters of more than 1,200 letters are not kept", states[1][2])
            self.assertEqual([traci.lane.getParameter("WJ_0", key) for key in "ab"], ["z", "y" * 900])
        self.assertLessEqual(domain.MOST_LETTERS, 1 << 24)

    def test_two_thousand_random_conversations(self):
        """Random bytes, random commands, random words behind known ones, and recorded commands with changed bytes: the
        answers are messages of the protocol, and the run is there at the end."""
        traci.start(["sumo", *WORDS])
        draws = random.Random(7)
        lines = CONVERSATION.read_text().split("\n")
        recorded = [bytes.fromhex(line[2:]) for line in lines[::2] if line]
        with patch.object(server, "LAST_CLOCK", 40):
            for _ in range(2000):
                said = self.talk(draws.choice((random_bytes, random_commands, random_words, changed))(draws, recorded))
                for states in answers(said):
                    results = {result for _, result, _ in states}
                    self.assertLessEqual(results, {0, tc.RTYPE_NOTIMPLEMENTED, tc.RTYPE_ERR})
        self.assertLessEqual(traci.simulation.getTime(), 40)
        self.assertEqual(traci.trafficlight.getIDList(), ("J",))
        traci.simulationStep()

    def test_a_port_is_free_after_its_clients(self):
        traci.start(["sumo", *WORDS])
        listening = listen(0)
        port = listening.getsockname()[1]
        with self.assertRaisesRegex(Fault, f"--remote-port {port}: "):
            listen(port)
        serving = threading.Thread(target=Server(listening, 1, self.told.append).serve)
        serving.start()
        with socket.create_connection(("127.0.0.1", port)) as client:
            client.sendall(message(step()) + b"rubbish")
            self.assertEqual(read(client.makefile("rb"))[:2], OK_STATES[tc.CMD_SIMSTEP][:2])
        serving.join()
        listen(port).close()

    def test_what_is_no_client_is_dropped_and_the_next_one_served(self):
        """A page of the web, one that goes away, a byte, silence, and too many of them: a line tells of each."""
        traci.start(["sumo", *WORDS])
        with patch.object(meeting, "FIRST_WAIT", 1.0), patch.object(meeting, "MOST_NEW", 4):
            listening = listen(0)
            address = listening.getsockname()
            lost = []
            serving = threading.Thread(target=lambda: lost.append(Server(listening, 1, self.told.append).serve()))
            serving.start()
            for data, why in (
                (b"GET / HTTP/1.1\r\nHost: localhost\r\n\r\n", "TraCI's protocol: 1,195,725,856 bytes"),
                (b"\0\0\0\x09\0\x7f\xff\xff\xff", "a command of 2,147,483,647 bytes"),
                (b"\x00", "within 1 s"), (b"", "within 1 s"),
            ):  # fmt: skip
                with self.subTest(data=data), socket.create_connection(address, timeout=10) as stray:
                    stray.sendall(data)
                    self.assertEqual(told_until_end(stray), b"")
                    self.assertIn(why, self.told[-1])
            with socket.create_connection(address):
                pass
            with contextlib.ExitStack() as strays:
                for _ in range(6):
                    strays.enter_context(socket.create_connection(address))
                with socket.create_connection(address, timeout=10) as client:
                    client.sendall(message(asked("simulation", tc.VAR_TIME)) + message((tc.CMD_CLOSE, b"")))
                    self.assertIn(b"\x0b" + struct.pack("!d", 0.0), told_until_end(client))
            serving.join()
        self.assertEqual(lost, [0])
        self.assertTrue(any("it ended" in line for line in self.told), self.told)
        self.assertTrue(any("4 others came" in line for line in self.told), self.told)

    def test_many_commands_and_parts_are_refused_before_they_take_memory(self):
        """Eight million commands were 1.2 GB; more than 65,536 of a message, or parts of a command, are an error."""
        commands = struct.pack("!BB", 2, tc.CMD_GETVERSION)
        self.assertEqual(len(commands_in_message(commands * 65_536)), 65_536)
        with self.assertRaisesRegex(BadMessage, "more than 65,536 commands"):
            commands_in_message(commands * 65_537)
        part = bytes((tc.TYPE_UBYTE, 0))
        for count, is_taken in ((65_536, True), (65_537, False)):
            data = bytes((tc.TYPE_COMPOUND,)) + struct.pack("!i", count) + count * part
            reader = ValueReader(data, 0, len(data))
            if is_taken:
                self.assertEqual(len(reader.typed()[1]), count)
            else:
                self.assertRaisesRegex(BadMessage, "more than 65,536 parts", reader.typed)

    def test_files_that_clients_name_are_written_in_one_folder(self):
        """States, logs, outputs, and what additional files ask for; names with dots and links lead nowhere else. The
        conversation goes on."""
        inside = self.folder / "inside"
        inside.mkdir()
        (inside / "link").symlink_to(self.folder)
        asks = '<additional><edgeData id="e" freq="60" file="edges.xml"/></additional>'
        outer, inner = self.write("outer.add.xml", asks), self.write("inside/inner.add.xml", asks)
        traci.start(["sumo", *WORDS])
        paths = self.folder / "x", inside / "../x", inside / "link/x", inside, inside / "x"
        save = bytes((tc.CMD_SAVE_SIMSTATE,)) + text("")
        saves = [(DOMAINS["simulation"].set, save + string(str(path))) for path in paths]
        loads = [(tc.CMD_LOAD, strings([*WORDS, *words])) for words in (
            ["--log", f"{self.folder}/x"], ["--tripinfo-output", f"{inside}/../x"], ["--writes", str(self.folder)],
            ["--tripinfo-output", f"{inside}/y", "--output-prefix", "../z"],
            ["--tripinfo-output", f"{inside}/trips.xml"], ["-a", f"{outer},{inner}"],
        )]  # fmt: skip
        with confined(str(inside)):
            [states] = answers(self.talk(message(*saves, *loads, (tc.CMD_CLOSE, b""))))
        error = tc.RTYPE_ERR
        self.assertEqual([result for _, result, _ in states], [*4 * [error], 0, *4 * [error], 0, 0, 0])
        for _, _, why in (*states[:4], *states[5:7], states[8]):
            self.assertIn(f"are written in {inside} alone (--writes)", why)
        self.assertIn("--writes is no word of a client's", states[7][2])
        traci.close()
        self.assertEqual({path.name for path in self.folder.iterdir()}, {"inside", "outer.add.xml"})
        written = {path.name for path in inside.iterdir()}
        self.assertEqual(written, {"link", "inner.add.xml", "trips.xml", "edges.xml", "x"})

    def test_two_clients_step_in_their_order(self):
        """The second one asks at each clock what the first one has set; a step is made when both have asked for it, and
        who asked for a later clock is heard then. One that goes away leaves the run to the other."""
        traci.start(["sumo", *WORDS])
        listening = listen(0)
        port, heard = listening.getsockname()[1], []
        shown = asked("trafficlight", tc.TL_RED_YELLOW_GREEN_STATE, "J")
        lights = DOMAINS["trafficlight"].set

        def first():
            with socket.create_connection(("127.0.0.1", port)) as client:
                said = client.makefile("rb")
                for at, letter in enumerate("rG"):
                    body = bytes((tc.TL_RED_YELLOW_GREEN_STATE,)) + text("J") + string(12 * letter)
                    order = [(tc.CMD_SETORDER, struct.pack("!i", 1))] if not at else []
                    client.sendall(message(*order) if order else b"")
                    heard.append(("first", read(said))) if order else None
                    client.sendall(message((lights, body)) + message(step()))
                    heard.extend(("first", read(said)) for _ in range(2))

        def second():
            with socket.create_connection(("127.0.0.1", port)) as client:
                said = client.makefile("rb")
                client.sendall(message((tc.CMD_SETORDER, struct.pack("!i", 2))))
                read(said)
                for _ in range(2):
                    client.sendall(message(shown) + message(step()))
                    heard.append(("second", read(said)))
                    read(said)
                last = message(asked("simulation", tc.VAR_TIME)) + message((tc.CMD_CLOSE, b""))
                client.sendall(message(step(9.5)) + last)
                heard.extend(("second", read(said)) for _ in range(3))

        threads = [threading.Thread(target=one) for one in (first, second)]
        for one in threads:
            one.start()
        lost = Server(listening, 2, self.told.append).serve()
        for one in threads:
            one.join()
        seen = [said for who, said in heard if who == "second"]
        self.assertEqual(lost, 1)
        self.assertIn(string(12 * "r"), seen[0])
        self.assertIn(string(12 * "G"), seen[1])
        self.assertIn(b"\x0b" + struct.pack("!d", 10.0), seen[3])
        self.assertEqual(traci.simulation.getTime(), 10.0)

    def test_equal_places_in_the_order_are_refused(self):
        traci.start(["sumo", *WORDS])
        ours, theirs = socket.socketpair()
        with ours, theirs, socket.socket() as unused:
            serving = Server(unused, 0, self.told.append)
            serving.clients = [TraciClient(ours, 3), TraciClient(ours)]
            words = ValueReader(struct.pack("!i", 3), 0, 4)
            said = serving.answer_command(serving.clients[1], tc.CMD_SETORDER, words)
        self.assertIn(b"another client has the place 3", said)

    def test_a_run_begins_anew_by_load(self):
        traci.start(["sumo", *WORDS])
        subscribed = struct.pack("!dd", *2 * (tc.INVALID_DOUBLE_VALUE,)) + text("") + bytes((1, tc.VAR_TIME))
        said = self.talk(
            message((DOMAINS["simulation"].subscribe, subscribed)) + message(step(5.0))
            + message((tc.CMD_LOAD, strings([*WORDS, "--seed", "5"])))
            + message(asked("simulation", tc.VAR_TIME)) + message(step()) + message((tc.CMD_CLOSE, b""))
        )  # fmt: skip
        self.assertEqual([result for states in answers(said) for _, result, _ in states], 6 * [0])
        self.assertEqual((traci.simulation.getTime(), traci.simulation.getOption("seed")), (1.0, "5"))
        self.assertEqual(said.count(b"\x0b" + struct.pack("!d", 5.0)), 1)  # subscriptions are over


def told_until_end(connection):
    """All that comes from a connection until it ends."""
    with contextlib.suppress(ConnectionResetError):
        return b"".join(iter(lambda: connection.recv(1 << 16), b""))
    return b""


def read(said):
    """The next message of what a client gets."""
    (size,) = struct.unpack("!i", said.read(4))
    return said.read(size - 4)


def random_bytes(draws, _):
    return draws.randbytes(draws.randrange(1, 200))


def random_commands(draws, _):
    """Commands with lengths that are right, and random bodies."""
    codes = [code for code in range(256) if code not in (tc.CMD_LOAD,)]
    return message(*((draws.choice(codes), draws.randbytes(draws.randrange(40))) for _ in range(draws.randrange(1, 5))))


def random_words(draws, _):
    """Known commands and variables with random objects and words; no states are written."""
    found = []
    for _ in range(draws.randrange(1, 5)):
        domain, name = draws.choice(list(GETS)), draws.choice(("J", "WJ_0", "WJ", "", "east.0", "DEFAULT_VEHTYPE", "x"))
        number = draws.choice(DOMAINS[domain])
        variables = [one for one in (*GETS[domain], *SETS.get(domain, {})) if one != tc.CMD_SAVE_SIMSTATE]
        numbers = b"\x09" + draws.randbytes(4), b"\x0b" + draws.randbytes(8)
        typed = (*numbers, string("x"), strings(["WJ", "JE"]), b"\x0f\0\0\0\x02")
        head = draws.randbytes(16) if number in DOMAINS[domain][2:] else bytes((draws.choice(variables),))
        words = b"".join(draws.choices(typed, k=draws.randrange(4)))
        found.append((number, head + text(name) + words))
    return message(*found)


def changed(draws, recorded):
    """A few recorded messages, some bytes of which are others."""
    data = bytearray(b"".join(draws.choices(recorded, k=3)))
    for _ in range(draws.randrange(1, 4)):
        data[draws.randrange(len(data))] = draws.randrange(256)
    return bytes(data)


@needs_simulator
class Command(Case):
    """The command itself, as users start it."""

    def run_command(self, *words, status=0):
        variables = {**os.environ, "STREETSIM_PROGRAM": PROGRAM}
        done = subprocess.run(
            [sys.executable, TOOLS / "streetsim-sumo", *map(str, words)], env=variables, capture_output=True, text=True,
            check=False, cwd=self.folder,
        )  # fmt: skip
        self.assertEqual(done.returncode, status, done.stderr)
        return done

    def test_sumos_last_lines_are_the_means_of_its_own_files(self):
        files = [word for kind in ("tripinfo", "summary", "statistic") for word in (f"--{kind}-output", f"{kind}.xml")]
        self.run_command(*WORDS, "-e", "900", *files)
        told = self.run_command(*WORDS, "-e", "900", "-v", "--duration-log.statistics").stdout
        lines = dict(re.findall(r"^ (\w+): ([\d.]+)$", told, re.MULTILINE))
        trips = ElementTree.parse(self.folder / "tripinfo.xml").getroot()
        statistic = ElementTree.parse(self.folder / "statistic.xml").getroot()
        told_means = statistic.find("vehicleTripStatistics")
        self.assertIn(f"Statistics (avg of {len(trips)}):", told)
        self.assertIn("Simulation ended at time: 900.00\nReason: The final simulation step has been reached.", told)
        for name, attribute, off in (
            ("RouteLength", "routeLength", 0.006), ("Duration", "duration", 0.006), ("TimeLoss", "timeLoss", 0.006),
            ("DepartDelay", "departDelay", 0.006), ("WaitingTime", "waitingTime", 0.2),
        ):  # fmt: skip
            self.assertAlmostEqual(float(lines[name]), fmean(float(one.get(attribute)) for one in trips), delta=off)
            self.assertAlmostEqual(float(lines[name]), float(told_means.get(attribute)), delta=off)
        self.assertEqual((lines["Speed"], told_means.get("count")), (told_means.get("speed"), str(len(trips))))
        last = ElementTree.parse(self.folder / "summary.xml").getroot()[-1]
        self.assertEqual((lines["Inserted"], lines["Running"]), (last.get("inserted"), last.get("running")))

    def test_equal_words_give_equal_files_byte_for_byte(self):
        """Of a run to its end, and of the same steps by traci.start."""
        files = ("tripinfo", "summary", "queue", "fcd")
        words = [*WORDS, "--seed", "3", "--end", "400"]
        self.run_command(*words, *(word for one in files for word in (f"--{one}-output", f"{one}.command")))
        with patch.dict(os.environ, STREETSIM_PROGRAM=PROGRAM):
            traci.start(["sumo", *words, *(f"--{one}-output={self.folder}/{one}.script" for one in files)])
            while traci.simulation.getTime() < 400:
                traci.simulationStep()
            traci.close()
        for one in files:
            told = [(self.folder / f"{one}.{by}").read_bytes() for by in ("command", "script")]
            self.assertEqual(*told, one)
            self.assertGreater(len(told[0]), 1000)

    def test_words(self):
        """Unknown ones are refused with the nearest one, and what has no effect says what is otherwise."""
        for words, why in (
            (["--tripinfo-ouput", "x"], "The nearest is --tripinfo-output."),
            (["--scale", "2"], "make the routes of the demand"), (["--num-clients", "0"], "is not 1 to 64"),
            (["--writes", "."], "is for clients, who come with --remote-port"),
            (["--remote-port", "9", "--writes", "none"], "is no folder"),
            (["--remote-port", "70000"], "is not 0 to 65,535"),
        ):  # fmt: skip
            told = self.run_command(*WORDS, *words, status=2).stderr
            self.assertRegex(told, f"^streetsim-sumo: .*{re.escape(why)}")
            self.assertEqual(told.count("\n"), 1, told)
        words = ["-e", "2", "--collision.action", "none", "--waiting-time-memory", "100", "--no-internal-links"]
        told = self.run_command(*WORDS[:4], *words).stderr
        for name, how in (
            ("collision.action none", "vehicles do not collide"), ("no-internal-links", "nobody drives inside"),
            ("waiting-time-memory 100", "accumulated waiting times are of the whole trip"),
        ):  # fmt: skip
            self.assertIn(f"warning: --{name} has no effect here: {how}", told)

    def test_a_seed_that_is_drawn_is_told_and_repeats_the_run(self):
        words = [*WORDS, "-e", "200", "--fcd-output"]
        told = [self.run_command(*words, f"{name}.xml", "--random").stderr for name in "ab"]
        seeds = [re.search(r"--random drew --seed (\d+)", text)[1] for text in told]
        self.run_command(*words, "c.xml", "--seed", seeds[0])
        files = [(self.folder / f"{name}.xml").read_bytes() for name in "abc"]
        self.assertNotEqual(files[0], files[1])
        self.assertEqual(files[0], files[2])

    def test_options_are_saved_as_a_configuration(self):
        """Without a run; its paths are those from its folder, and it gives the run of the words."""
        words = [*WORDS, "-e", "200", "--tripinfo-output"]
        self.run_command(*words, "a.xml")
        (self.folder / "sub").mkdir()
        self.assertEqual(self.run_command(*words, "b.xml", "-C", "sub/x.sumocfg").stdout, "")
        self.assertFalse((self.folder / "b.xml").exists())
        self.run_command("-c", "sub/x.sumocfg")
        self.assertEqual((self.folder / "a.xml").read_bytes(), (self.folder / "b.xml").read_bytes())
        if shutil.which("sumo"):
            subprocess.run(["sumo", "-c", "sub/x.sumocfg", "--no-step-log"], cwd=self.folder, check=True)

    def test_a_run_that_is_not_to_be_trusted_says_so_last(self):
        routes = "".join(f'<vehicle id="{at}" depart="0"><route edges="WJ JE"/></vehicle>' for at in range(300))
        path = self.write("x.rou.xml", f"<routes>{routes}</routes>")
        told = self.run_command(*WORDS[:2], "-r", path, "-W", "-e", "300").stdout
        self.assertRegex(told.splitlines()[-1], "not to be trusted")

    def test_trips_and_flows_between_edges(self):
        """As SUMO takes them: each gets a way."""
        path = self.write("x.rou.xml", """<routes><trip id="t" depart="0" from="WJ" to="JE"/>
            <flow id="f" begin="0" end="20" number="2" from="NJ" to="JS"/></routes>""")
        told = self.run_command(*WORDS[:2], "-r", path, "-t").stdout
        self.assertIn("Statistics (avg of 3):", told)

    def test_a_script_is_checked_without_running_it(self):
        path = self.write("script.py", "\n".join((
            "import os, traci as t", "from traci import constants as tc", "import libsumo", "",
            "def loop(conn):", "    light = conn.trafficlight", "    light.setPhase('J', 2)",
            "    t.vehicle.setSpeed('v', 3)", "    t.vehicle.subscribe('v', [tc.VAR_SPEED, tc.VAR_CO2EMISSION])",
            "    t.vehicle.getAccumulatedWaitingTime('v')", "    libsumo.person.getIDList()", "t.start(['sumo'])",
            "loop(t.getConnection('x'))", "print(os.path.exists('x'))", "t.gui.setZoom('v', 3)",
        )))  # fmt: skip
        told = self.run_command("--check", path, status=1).stdout
        for part in (
            r"5 here:.*person.getIDList \(line 11\).*start \(line 12\).*vehicle.subscribe \(line 9\)",
            "2 otherwise:.*gui.setZoom: shows nothing.*getAccumulatedWaitingTime: of the whole trip",
            r"2 not here:.*VAR_CO2EMISSION: .*\(line 9\).*vehicle.setSpeed: speeds follow the rules",
        ):
            self.assertRegex(told, f"(?s){part}")
        self.assertRegex(told, r"\Awarning: libsumo \(line 3\) runs SUMO itself within the script: import traci")
        good = "import traci\ntraci.simulationStep()\n"
        self.assertNotIn("warning", self.run_command("--check", self.write("good.py", good)).stdout)
        os_words = "import os, simpla\nos.environ['LIBSUMO_AS_TRACI'] = '1'\n" + good
        told = self.run_command("--check", self.write("good.py", os_words)).stdout
        pattern = r"warning: simpla \(line 1\) platoons are not here: .*\nwarning: LIBSUMO_AS_TRACI \(line 2\)"
        self.assertRegex(told, pattern)
        told = self.run_command("--check", self.write("x.py", "import ("), status=2).stderr
        self.assertIn("is no script of Python", told)


def sumo_calls():
    """Each call of the domains of SUMO's own traci, as "domain.call"."""
    with patch.object(sys, "path", [f"{SUMO}/tools", *sys.path]):
        theirs = importlib.import_module("traci")
    domains = [(name, getattr(theirs, name)) for name in DOMAINS]
    return [
        f"{name}.{call}" for name, domain in domains for call in dir(domain)
        if call[0].islower() and callable(getattr(domain, call))
    ]


def matches(call, pattern):
    """Whether "domain.call", or the call alone, is as a pattern has it."""
    return fnmatchcase(call if "." in pattern else call.split(".")[1], pattern)


LOOP = """
import sys
import traci
from traci import constants as tc

traci.start([sys.argv[1], *sys.argv[2:], "--no-step-log"])
halting = 0
for lane in traci.lane.getIDList():
    if not lane.startswith(":"):
        traci.lane.subscribe(lane, [tc.LAST_STEP_VEHICLE_HALTING_NUMBER])
traci.junction.subscribeContext("J", tc.CMD_GET_VEHICLE_VARIABLE, 60, [tc.VAR_SPEED])
arrived = near = 0
while traci.simulation.getTime() < 600:
    traci.simulationStep()
    arrived += traci.simulation.getArrivedNumber()
    values = traci.lane.getAllSubscriptionResults().values()
    halting += sum(one[tc.LAST_STEP_VEHICLE_HALTING_NUMBER] for one in values)
    near += len(traci.junction.getContextSubscriptionResults("J") or {})
    if traci.simulation.getTime() % 90 == 0:
        traci.trafficlight.setPhase("J", 0)
traci.close()
print(arrived, halting, near)
"""
CPP = r"""
#include <iostream>
#include <libsumo/libtraci.h>
int main(int argc, char** argv) {
    std::vector<std::string> words(argv + 1, argv + argc);
    std::pair<int, std::string> version = libtraci::Simulation::start(words);
    int arrived = 0;
    libtraci::Lane::subscribe("WJ_0", {libsumo::LAST_STEP_VEHICLE_NUMBER});
    while (libtraci::Simulation::getTime() < 300) {
        libtraci::Simulation::step();
        arrived += libtraci::Simulation::getArrivedNumber();
    }
    for (const std::string& name : libtraci::Vehicle::getIDList())
        if (libtraci::Vehicle::getSpeed(name) < 0 || libtraci::Vehicle::getRoute(name).empty()) return 1;
    std::cout << arrived << " " << libtraci::TrafficLight::getAllProgramLogics("J").size() << " "
              << libtraci::Lane::getLinks("WJ_0").size() << " " << version.second << "\n";
    libtraci::Simulation::close();
}
"""


@needs_simulator
class Clients(Case):
    """SUMO's own clients, which know nothing of streetsim."""

    def setUp(self):
        super().setUp()
        self.variables = {
            **os.environ, "STREETSIM_PROGRAM": PROGRAM, "SUMO_HOME": SUMO, "PYTHONPATH": f"{SUMO}/tools",
        }

    def run_client(self, *words):
        done = subprocess.run(
            list(map(str, words)), env=self.variables, capture_output=True, text=True, check=False, cwd=self.folder,
        )
        self.assertEqual(done.returncode, 0, done.stderr)
        return [line for line in done.stdout.splitlines() if re.match(r"\d+ ", line)][-1]

    @needs_sumo_tools
    def test_sumos_traci_unmodified(self):
        """The same script over streetsim-sumo and over SUMO, and with another import over streetsim.traci."""
        path = self.write("loop.py", LOOP)
        here = self.run_client(sys.executable, path, TOOLS / "streetsim-sumo", *WORDS)
        there = self.run_client(sys.executable, path, "sumo", *WORDS)
        (arrived, _, near), (theirs, _, around) = (list(map(int, told.split())) for told in (here, there))
        self.assertAlmostEqual(arrived / theirs, 1, delta=0.05)
        self.assertAlmostEqual(near / around, 1, delta=0.25)
        text = LOOP.replace("import traci\nfrom traci", "import streetsim.traci as traci\nfrom streetsim.traci")
        self.variables["PYTHONPATH"] = str(TOOLS)
        self.assertEqual(self.run_client(sys.executable, self.write("own.py", text), "sumo", *WORDS), here)

    @needs_package("sumo", glob.glob(f"{DEBIAN}/libtraci/_libtraci.*.so"))
    @needs_sumo_tools
    def test_libtraci_of_python(self):
        """It says what SUMO's traci says."""
        of_libtraci = LOOP.replace("import traci\nfrom traci", "import libtraci as traci\nfrom libtraci")
        binary = "/usr/bin/python3", TOOLS / "streetsim-sumo"
        by_traci = self.run_client(binary[0], self.write("loop.py", LOOP), binary[1], *WORDS)
        self.variables["PYTHONPATH"] = DEBIAN
        told = self.run_client(binary[0], self.write("other.py", of_libtraci), binary[1], *WORDS)
        self.assertEqual(told, by_traci)

    def answers_of(self, client, path):
        """By call that is said to be here what it says over a client of SUMO's; path: Python's, which has that."""
        calls = [call for call in sumo_calls() if classify_call(ScriptCall(*call.split("."), 1))[0] != "not here"]
        self.assertGreater(len(calls), 370)
        listed = self.write("calls.json", json.dumps(calls))
        words = ["-n", CROSS / "cross.net.xml.gz", *(f"--classes=passenger,bus,truck -W -r {EVERY}.rou.xml".split())]
        self.variables["PYTHONPATH"] = path
        done = subprocess.run(
            list(map(str, [
                "/usr/bin/python3", f"{EVERY}.py", client, listed, TOOLS / "streetsim-sumo", *words,
                "-a", f"{EVERY}.add.xml",
            ])), env=self.variables, capture_output=True, text=True, check=False, cwd=self.folder,
        )  # fmt: skip
        self.assertIn("TOLD ", done.stdout, done.stderr)
        return json.loads(done.stdout.split("TOLD ")[1])

    @needs_sumo_tools
    def test_each_call_that_is_said_to_be_here_answers(self):
        """Over SUMO's traci, unmodified, with words that make sense."""
        told = self.answers_of("traci", f"{SUMO}/tools")
        self.assertEqual({call: text for call, text in told.items() if re.match(r"\w*(Error|Exception)\b", text)}, {})
        for call, text in (
            ("busstop.getVehicleIDs", "('bus',)"), ("busstop.getName", "'Market'"), ("vehicle.getStopState", "17"),
            ("busstop.subscribe", "None"), ("rerouter.getIDList", "()"), ("simulation.getIDCount", "1"),
            ("person.getTaxiReservations", "()"), ("vehicle.rerouteTraveltime", "None"),
            ("vehicle.getRoutingMode", "0"), ("route.getEdges", "('WJ', 'JE')"),
        ):  # fmt: skip
            self.assertEqual(told[call], text, call)

    @needs_sumo_tools
    def test_the_page_has_each_call_that_is_not_here(self):
        """Each is in the table of PYTHON.md, where each pattern names some of them, and none that is here."""
        page = (TOOLS / "PYTHON.md").read_text(encoding="utf-8")
        table = page.split("| Calls that are not here |")[1].split("\n\n")[0]
        patterns = [part for line in table.splitlines()[2:] for part in re.findall("`([^`]+)`", line.split("|")[1])]
        here, absent = [], []
        for call in sumo_calls():
            domain, name = call.split(".")
            is_here = classify_call(ScriptCall(domain, name, 1))[0] != "not here"
            (here if is_here and domain not in (*ABSENT, *QUIET, "person") else absent).append(call)
        found = {part: {call for call in [*here, *absent] if matches(call, part)} for part in patterns}
        self.assertEqual([part for part in patterns if not found[part] or found[part] & {*here}], [])
        self.assertEqual({*absent} - set().union(*found.values()), set())

    @needs_package("sumo", glob.glob(f"{DEBIAN}/libtraci/_libtraci.*.so"))
    @needs_sumo_tools
    def test_each_call_answers_libtraci(self):
        """But for those that libtraci itself lacks."""
        told = self.answers_of("libtraci", DEBIAN)
        failed = {call for call, text in told.items() if re.match(r"\w*(Error|Exception)\b", text)}
        self.assertEqual(failed, {"edge.setAllowed", "edge.setDisallowed", "simulation.getIDCount"})
        self.assertTrue(all(told[call].startswith("AttributeError") for call in failed))

    @needs_package("g++", shutil.which("g++"))
    @needs_package("sumo", os.path.exists("/usr/include/libsumo/libtraci.h"))
    def test_libtracicpp(self):
        made, source = self.folder / "loop", self.write("loop.cpp", CPP)
        subprocess.run(["g++", "-O0", "-o", made, source, "-ltracicpp"], check=True, capture_output=True)
        arrived, logics, links, name = self.run_client(made, TOOLS / "streetsim-sumo", *WORDS).split()
        self.assertEqual((logics, links, name), ("1", "3", "streetsim"))
        self.assertGreater(int(arrived), 30)


class Options(unittest.TestCase):
    def test_the_nearest_word_is_named(self):
        with self.assertRaisesRegex(FatalTraCIError, "'net-fil' exists. The nearest is --net-file"):
            read_options(["--net-fil", "x"])
        with self.assertRaisesRegex(FatalTraCIError, "'qqqq' exists.$"):
            read_options(["--qqqq"])


if __name__ == "__main__":
    unittest.main()
