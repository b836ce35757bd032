"""Works that are closed by hand in the live page: the same lines at the same clocks as streetsim-run sends."""
import json
import unittest
from unittest import mock

from pages import told_by
from seen import made
from support import PROGRAM, Case, needs_simulator
from streetsim.base import limits
from streetsim.control.settings import Settings
from streetsim.live.session import PageSession
from streetsim.live.world import PageRun, World
from streetsim.model.mapping import Map, MapLink
from streetsim.model.runs import Line, Run


def street(lanes=2):
    """A link of 100 cells with 1,800 vehicles an hour; as one of two lanes, or as two of one lane each."""
    each, links = (lanes, 1) if lanes == 2 else (1, 2)
    load = {"cmd": "load", "nodes": [[0, 1, 4], [1, 1, 4]], "turns": [], "zone": 0, "dawdle": 170, "change": 1000}
    load["seed"] = 3
    load["links"] = [[number, 0, 1, each, 100, 2] for number in range(links)]
    enters = [{"cmd": "enter", "plan": [0], "lane": at // 2 % each, "depart": at} for at in range(0, 900, 2)]
    lines = [Line(at, json.dumps(one, separators=(",", ":")), one) for at, one in enumerate([load, *enters], 1)]
    mapped = Map(
        nodes=[["A", 0, 0, 1], ["B", 750, 0, 1]],
        links=[
            MapLink("a", tuple(range(number, number + each)), 0, 1, 100, 2, 750.0, ((0, 0), (750, 0)))
            for number in range(links)
        ],
        turns=[], signals=[], cars=[], options={}, warnings=[],
    )  # fmt: skip
    needed = [one["depart"] for one in enters]
    return Run("street", lines[0], enters=lines[1:], least_departs=needed), mapped


def closing(clock, name, lane, first, last):
    return clock, {"cmd": name, "link": 0, "lane": lane, "first": first, "last": last}


SPAN = ("cmd", "lane", "first", "last")
DEEDS = [
    closing(60, "close", 0, 50, 70), closing(333, "close", 1, 80, 85), closing(400, "reopen", 1, 80, 85),
    closing(700, "reopen", 0, 50, 70),
]  # fmt: skip


@needs_simulator
class ByHand(Case):
    def setUp(self):
        """Keeps the sent lines that the traffics of pages forget, by the traffic."""
        super().setUp()
        self.forgotten = {}
        take_sent = World.take_sent

        def keep_and_take(world):
            before = list(world.kernel.sent_lines)
            take_sent(world)
            forgotten = before[: len(before) - len(world.kernel.sent_lines)]
            self.forgotten.setdefault(world, []).extend(forgotten)

        patch = mock.patch.object(World, "take_sent", keep_and_take)
        patch.start()
        self.addCleanup(patch.stop)

    def sent_by(self, session):
        """All lines that the present traffic of a session sent beside steps and vehicles."""
        return [*self.forgotten.get(session.current, ()), *session.current.kernel.sent_lines]

    def session(self, run, mapping, **more):
        """The session of a page of a run, begun; more: as Settings has it."""
        session = PageSession(PageRun(run, mapping, Settings(limits.CLOCK, 0, **{"rescue": 0, **more}), PROGRAM))
        self.addCleanup(session.close)
        session.begin()
        return session

    def play(self, session, until, stride=100):
        while session.current.clock < until:
            session.step(min(stride, until - session.current.clock))

    def in_page(self, run, mapping, deeds, stride=100, back=0):
        """What the page's session sent beside steps and vehicles, by clock."""
        session = self.session(run, mapping)
        for clock, command in deeds:
            self.play(session, clock, stride)
            session.change("by hand", [{"clock": clock, "command": command}])
        self.play(session, 900, stride)
        if back:
            session.go_back(back)
            self.play(session, 900, stride)
        return [(one.clock, one.line.command) for one in self.sent_by(session)]

    def in_run(self, run, mapping, deeds, until=900):
        """The same of streetsim-run."""
        run.timed = [(clock, Line(0, json.dumps(command), command)) for clock, command in deeds]
        kernel, _ = made(PROGRAM, run, mapping, Settings(until, 0, rescue=0))
        return [(one.clock, one.line.command) for one in kernel.sent_lines]

    def test_the_same_lines_at_the_same_clocks(self):
        expected = self.in_run(*street(), DEEDS)
        self.assertGreater(len(expected), 40)
        for stride in (100, 7):
            self.assertEqual(self.in_page(*street(), DEEDS, stride), expected)

    def test_timed_lines_of_the_run_and_going_back(self):
        expected = self.in_run(*street(), DEEDS)
        run, mapping = street()
        run.timed = [(clock, Line(0, json.dumps(command), command)) for clock, command in DEEDS]
        self.assertEqual(self.in_page(run, mapping, []), expected)
        self.assertEqual(self.in_page(*street(), DEEDS, back=650), self.in_run(*street(), DEEDS[:3]))

    def test_without_merging(self):
        session = self.session(*street(), merging=False)
        self.play(session, 60)
        session.change("works", [{"clock": 60, "command": DEEDS[0][1]}])
        self.play(session, 900)
        self.assertEqual([one.line.command for one in self.sent_by(session)], [DEEDS[0][1]])

    def works(self, session, **more):
        asked = {"cmd": "close", "link": 0, "lanes": [0], "begin": 370, "end": 530, "from": 0, "until": None}
        return told_by(session.works({**asked, "text": "works", **more}))

    def test_works_in_metres(self):
        """Cells of 7.5 m; the first four of a lane with one beside stay open, and works are reopened at their end."""
        session = self.session(*street())
        self.works(session, until=100)
        self.works(session, lanes=[0, 1], begin=0, end=60)
        self.works(session, cmd="reopen", begin=375, end=450)
        sent = [tuple(one.line.command[name] for name in SPAN) for one in self.sent_by(session)]
        self.assertEqual(sent, [("close", 0, 49, 70), ("close", 0, 4, 7), ("close", 1, 4, 7), ("reopen", 0, 50, 59)])
        self.play(session, 101)
        self.assertIn(("reopen", 0, 49, 70), [
            tuple(one.line.command[name] for name in SPAN)
            for one in self.sent_by(session) if one.clock == 100
        ])

    def test_parallel_links_are_refused(self):
        session = self.session(*street(lanes=1))
        told = self.works(session, link=1)
        self.assertEqual(
            told["refused"],
            "lane 'a_1' cannot be closed: it is a link of its own, and nobody changes lane between the parallel links "
            "of edge 'a', so its vehicles would stand; the edge must be joint from the start",
        )
        self.assertEqual((told["joint"], told["changes"]), ("a_1", []))

    def test_what_is_not_there_is_refused(self):
        session = self.session(*street())
        for name, command in (
            ("NoVehicle", {"cmd": "takeout", "car": 99_999}),
            ("BadSignal", {"cmd": "signal", "node": 1, "offset": 0, "phases": [[0, []]]}),
            ("NoNode", {"cmd": "signal", "node": 9, "offset": 0, "phases": [[10, []]]}),
            ("no such lane", closing(0, "close", 2, 50, 70)[1]),
            ("no such cells", closing(0, "close", 0, 50, 100)[1]),
            ("no such cells", closing(0, "close", 0, 50, 49)[1]),
        ):
            told = told_by(session.change("", [{"clock": 0, "command": command}]))
            self.assertIn(name, told["refused"])
            self.assertEqual((told["changes"], self.sent_by(session)), ([], []))


if __name__ == "__main__":
    unittest.main()
