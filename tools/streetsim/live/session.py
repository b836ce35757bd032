"""The session of a page: its traffic as it is (current) and without changes (unchanged), and the user's changes.
`bridge` calls it for each request of the page."""
import json
import threading
import time
from collections.abc import Iterable, Iterator
from concurrent.futures import ThreadPoolExecutor
from contextlib import contextmanager
from typing import Any

from streetsim.base.client import line_of
from streetsim.base.files import Fault, Json
from streetsim.control.works_sites import why_parallel
from streetsim.live.hand import CHANGING
from streetsim.live.page_texts import gain_of, gain_text
from streetsim.live.session_files import SessionFiles
from streetsim.live.world import PageRun, World
from streetsim.model.runs import Command, TimedCommand

SLOW = 0.1  # seconds that a second of traffic may take where two are run by themselves
SHARE = 8  # of the last measurement in the pace, an eighth
LOOK = 0.05  # seconds between two looks whether a call has ended
PATIENCE = 0.5  # seconds for a call to end whose programs were killed


class PageSession:
    """One page's session. Calls may come from several threads, and each has it alone."""

    def __init__(self, page_run: PageRun, session_files: SessionFiles | None = None) -> None:
        """page_run: the run that the page shows; session_files: where the session is kept, none: nowhere."""
        self.page_run, self.files, self.lock = page_run, session_files, threading.RLock()
        self.current: World | None = None
        self.unchanged: World | None = None  # as it was without changes
        self.coming: World | None = None  # that is run anew
        self.has_ended = False
        self.changes: list[Json] = []  # {text, made: clock, commands: [{clock, command}]}, in the order of their making
        self.wants_unchanged: bool | None = None  # whether somebody wants the traffic as it was
        self.shows_unchanged = False  # on a map
        self.pace = 0.0  # seconds that a second of one traffic takes
        self.node: int | None = None  # the junction whose queue is drawn

    @contextmanager
    def running(self) -> Iterator[World]:
        """The traffic as it is, for one call alone; Fault where nothing runs. After a fault within the call nothing
        runs any more, as nobody knows how far it came."""
        with self.lock:
            if self.current is None or self.has_ended:
                raise Fault("nothing is running: reload the page")
            try:
                yield self.current
            except BaseException:
                self.stop()
                raise

    @property
    def clock(self) -> int:
        """The clock of the traffic as it is, also while a call is under way; the run's first one where none runs."""
        world = self.current
        return self.page_run.run.start() if world is None else world.clock

    # ---- beginning, anew or where it was left

    def begin(self) -> bytes:
        """Begins the run, or the session that is kept where it was left; gives the message that tells all."""
        with self.lock:
            if self.has_ended:
                raise Fault("the bridge has ended")
            self.wants_unchanged, self.shows_unchanged, self.node = None, False, None
            if self.files is None:
                self.run_to([], self.page_run.run.start())
            elif self.current is None:
                self.run_to(self.files.changes, self.page_run.run.start() + self.files.steps())
            self.follow()
            return self.message(True)

    def run_to(self, changes: list[Json], clock: int) -> None:
        """Runs all anew to a clock, with some changes; where it fails nothing runs."""
        self.stop_current()
        later = [sent for change in changes for sent in commands_of(change)]
        world = self.coming = World(self.page_run, later, self.node)
        try:
            world.go_on(clock)
            if self.files is not None:
                self.files.replace_session(world.program.session(), changes)
                world.keep_in(self.files.file)
        except BaseException:
            world.close()
            raise
        finally:
            self.coming = None
        self.current, self.changes = world, list(changes)
        if self.unchanged is not None and self.unchanged.clock != clock:
            self.stop_unchanged()

    def stop_current(self) -> None:
        """Ends the traffic as it is, if it runs."""
        if self.current is not None:
            self.current.close()
            self.current = None

    def stop_unchanged(self) -> None:
        """Ends the traffic as it was, if it runs."""
        if self.unchanged is not None:
            self.unchanged.close()
            self.unchanged = None

    def stop(self) -> None:
        """Ends both."""
        with self.lock:
            self.stop_current()
            self.stop_unchanged()

    def close(self) -> None:
        """Ends both, and gives the files of a session that is kept free. A call that is under way ends, as its programs
        do; one that does not end in PATIENCE seconds ends with this process."""
        self.has_ended, until = True, time.monotonic() + PATIENCE
        while not self.lock.acquire(timeout=LOOK):
            for world in (self.current, self.unchanged, self.coming):
                if world is not None:
                    world.program.process.kill()
            if time.monotonic() > until:
                return
        self.lock.release()
        self.stop()
        if self.files is not None:
            self.files.close()

    def replace_run(self, page_run: PageRun) -> None:
        """Ends both, and has the next begin take another run."""
        with self.lock:
            self.stop()
            self.page_run = page_run

    # ---- what a page asks for

    def step(self, steps: int) -> bytes:
        """Makes so many steps of both."""
        with self.running() as current:
            started, worlds = time.monotonic(), self.worlds(current)
            with ThreadPoolExecutor(len(worlds)) as pool:
                list(pool.map(lambda world: world.go_on(world.clock + steps), worlds))
            self.pace += ((time.monotonic() - started) / steps / len(worlds) - self.pace) / SHARE
            return self.message()

    def change(self, text: str, commands: list[Json]) -> bytes:
        """Makes a change: commands of this second, and of later ones, which are sent as these come. What is refused is
        told, and nothing behind it is sent. A plan that is set again in the same second takes the place of the one
        before it."""
        with self.running() as world:
            change = {"text": text, "made": world.clock, "commands": commands}
            is_replaced = bool(self.changes) and is_same_plan(self.changes[-1], change)
            earlier = self.changes[:-1] if is_replaced else list(self.changes)
            self.keep([*earlier, change])
            refused, commands_done = self.send_commands(world, commands)
            if refused:
                change["commands"] = commands_done
                earlier = earlier if commands_done else self.changes
            self.changes = [*earlier, *([change] if change["commands"] else [])]
            if refused:
                self.keep(self.changes)
            self.follow()
            return self.message(refused=refused)

    def send_commands(self, world: World, commands: list[Json]) -> tuple[str, list[Json]]:
        """Sends those of some commands that are due, and has the others sent later; gives (why one was refused, those
        that were not, nothing behind it among them)."""
        for index, entry in enumerate(commands):
            if entry["clock"] > world.clock:
                continue
            if refused := world.hand.send_command(entry["command"]):
                return refused, [entry for entry in commands[:index] if entry["clock"] <= world.clock]
        world.hand.add((entry["clock"], entry["command"]) for entry in commands if entry["clock"] > world.clock)
        return "", commands

    def works(self, wish: Json) -> bytes:
        """Closes or reopens (cmd) lanes of a link from one metre to another (begin, end), from a clock until another
        one, none: for good. wish: these, and the text of the change. Refused, with the lane to be joint, where nobody
        could change from a lane."""
        link, lanes, closing = wish["link"], wish["lanes"], wish["cmd"] == "close"
        name = self.page_run.mapping.lane_name(link, lanes[0])
        if closing and (why := why_parallel(self.page_run.mapping, name)):
            with self.running():
                return self.message(refused=why, joint=None if self.files else name)
        bounds = self.page_run.mapping.links[link].closed_between(wish["begin"], wish["end"])
        cells = dict(zip(("first", "last"), bounds))
        sent = [("close" if closing else "reopen", wish["from"])]
        sent += [("reopen", wish["until"])] if closing and wish["until"] is not None else []
        commands = [
            {"clock": clock, "command": {"cmd": cmd, "link": link, "lane": lane, **cells}}
            for cmd, clock in sent
            for lane in lanes
        ]
        return self.change(wish["text"], commands)

    def go_back(self, clock: int) -> bytes:
        """As it was when a second began: all is run anew, with what was done before that second. Exact, as equal lines
        give equal replies."""
        with self.running():
            start = self.page_run.run.start()
            return self.run_anew([change for change in self.changes if change["made"] < clock], max(start, clock))

    def undo(self, number: int) -> bytes:
        """As it is now, but for the change of a number."""
        with self.running() as world:
            return self.run_anew([change for index, change in enumerate(self.changes) if index != number], world.clock)

    def run_anew(self, changes: list[Json], clock: int) -> bytes:
        """Runs all anew to a clock, with some changes."""
        self.run_to(changes, clock)
        self.follow()
        return self.message(True)

    def compare(self, wanted: bool | None, shows_was: bool) -> bytes:
        """Begins or ends the traffic as it was, as somebody wants it (None: as the machine is quick enough), and has it
        told for a map."""
        with self.running():
            self.wants_unchanged, self.shows_unchanged = wanted, shows_was
            self.follow()
            return self.message()

    def watch(self, node: int) -> bytes:
        """Has the chart show the queue before a junction, from now on."""
        with self.running() as current:
            self.node = node
            for world in self.worlds(current):
                world.ledger.watch(node)
                world.points_sent = -1
            return self.message()

    def ask(self, commands: Iterable[Command]) -> bytes:
        """The replies, as JSON, of the traffic as it is to commands that change nothing."""
        with self.running() as world:
            return b"[%s]" % b",".join(world.program.exchange([line_of(command) for command in commands]))

    def text(self, which: int) -> bytes:
        """The session as lines, or (which is 1) that of the traffic as it was."""
        with self.running() as world:
            return (self.unchanged or world if which else world).text()

    # ---- both

    def worlds(self, current: World) -> list[World]:
        """The traffic as it is, and as it was where that runs."""
        return [current] if self.unchanged is None else [current, self.unchanged]

    def is_changed(self) -> bool:
        """Whether traffic is another one than that of the run as it was."""
        return any(entry["command"]["cmd"] in CHANGING for change in self.changes for entry in change["commands"])

    def follow(self) -> None:
        """Begins the traffic as it was, or ends it, as there are changes and as somebody wants it."""
        wants = self.is_changed() and (self.pace <= SLOW if self.wants_unchanged is None else self.wants_unchanged)
        if not wants:
            self.stop_unchanged()
        elif self.unchanged is None and self.current is not None:
            self.unchanged = World(self.page_run, (), self.node)
            self.unchanged.go_on(self.current.clock)

    def why_not_compared(self) -> str:
        """Why the traffic as it was does not run, in words; nothing where there is no change."""
        if not self.is_changed():
            return ""
        pace = f"a second of traffic takes {1000 * self.pace:.0f} ms here, too long for two"
        return "As it was: switched off." if self.wants_unchanged is False else f"As it was is not run: {pace}."

    def keep(self, changes: list[Json]) -> None:
        """Keeps the changes of a session that is kept, before their lines are sent."""
        if self.files is not None:
            self.files.keep_changes(changes)

    def message(self, tells_all: bool = False, refused: str = "", **further_fields: Any) -> bytes:
        """What the page is told: a number, the length of JSON; JSON; the vehicles of both traffics, as of World.rows.
        tells_all: for a page that knows nothing; else it has what is new."""
        assert self.current is not None
        worlds, parts = self.worlds(self.current), []
        for world in worlds:
            if tells_all:
                world.forget_sent()
            parts.append(world.message())
        rows = [world.rows() if world is self.current or self.shows_unchanged else b"" for world in worlds]
        log = [[text.decode().strip() for text in pair] for pair in self.current.program.last_exchanges]
        changes = [[change["made"], change["text"]] for change in self.changes]
        page_message: Json = {
            "refused": refused, "wanted": self.wants_unchanged, "log": log, "gain": None,
            "said": self.why_not_compared(), "changed": self.is_changed(), "changes": changes,
            "worlds": [{**part, "bytes": len(row)} for part, row in zip(parts, rows, strict=True)], **further_fields,
        }  # fmt: skip
        if self.unchanged is not None:
            seconds, ended = gain_of(self.unchanged, self.current)
            page_message |= {"gain": {"seconds": seconds, "ended": ended}, "said": gain_text(seconds, ended)}
        head = json.dumps(page_message, separators=(",", ":")).encode()
        head += b" " * (-len(head) % 4)
        return b"".join([len(head).to_bytes(4, "little"), head, *rows])


def commands_of(change: Json) -> list[TimedCommand]:
    """The commands of a change with the clocks at which they are sent, its making at the earliest."""
    return [(max(change["made"], entry["clock"]), entry["command"]) for entry in change["commands"]]


def is_same_plan(change: Json, other_change: Json) -> bool:
    """Whether two changes of one second set a plan for the same light."""
    plan, other_plan = change["commands"][0]["command"], other_change["commands"][0]["command"]
    are_plans = plan["cmd"] == other_plan["cmd"] == "signal"
    return are_plans and change["made"] == other_change["made"] and plan["node"] == other_plan["node"]
