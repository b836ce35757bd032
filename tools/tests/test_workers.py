"""Steps shared by threads: with more vehicles in cells than a step of one thread has, the replies have equal bytes for
each number of workers, and threads beside the first are seen at work: those that stay where a session is served, and
those that are started for each part of a step where its tape is replayed. On one processor the replies are the same by
one thread, and on two a replay by 64 workers has a few threads at once."""
import json
import os
import subprocess
import threading
import time
import unittest
from pathlib import Path

from support import PROGRAM, Case, needs_simulator

# Above this number of vehicles in cells a step is shared, where there are several processors,
# and above that a replay's (docs/LINES.md).
SHARED_FROM, REPLAY_SHARED_FROM = 1_500, 30_000
NODES = 512
LANES = (0, 1)
CELLS = 120
CARS = 46_000
SECONDS = 300


def links_of_town():
    """Two streets from each node, to the next node and to the seventh after it: [id, from, to,
    lanes, length, limit]."""
    ends = [(node, (node + ahead) % NODES) for node in range(NODES) for ahead in (1, 7)]
    return [[link, begin, end, 2, CELLS, 3 + link % 3] for link, (begin, end) in enumerate(ends)]


def next_links(link):
    """The links that follow one."""
    return [2 * link[2], 2 * link[2] + 1]


def load_of_town():
    links = links_of_town()
    # From each lane to the same lane of both streets that follow; so a vehicle may stay in its lane.
    turns = [[link[0], lane, after, lane] for link in links for after in next_links(link) for lane in LANES]
    nodes = [[node, 1 + node % 3, 1 + node % 5] for node in range(NODES)]
    return {
        "cmd": "load", "nodes": nodes, "links": links, "turns": turns, "zone": 12, "dawdle": 150, "change": 400,
        "seed": 46,
    }


def enter_of(links, car):
    """A vehicle of one to four cells; half of its plan goes straight on."""
    plan = [car * 5 % len(links)]
    for at in range(5):
        plan.append(next_links(links[plan[-1]])[(car >> at) & 1])
    return {"cmd": "enter", "plan": plan, "lane": car % 2, "depart": car // 1_000, "size": 1 + car % 7 % 4}


def settings_of(links):
    """Signals at every fourth node, closed cells and detectors."""
    for node in range(0, NODES, 4):
        green = [
            [link[0], lane, after] for link in links if link[2] == node for after in next_links(link) for lane in LANES
        ]
        yield {
            "cmd": "signal",
            "node": node,
            "offset": node % 20,
            "phases": [[9, green[: len(green) // 2]], [11, green[len(green) // 2 :]]],
        }
    for link in range(0, len(links), 40):
        yield {"cmd": "close", "link": link, "lane": link // 40 % 2, "first": 60, "last": 69}
    for link in range(0, len(links), 16):
        yield {"cmd": "meter", "link": link, "lane": link // 16 % 2, "cell": 30 + link % 50, "period": 10}


def asked_of(links):
    """All lanes, detectors and some vehicles."""
    yield from ({"cmd": "lane", "link": link[0], "lane": lane} for link in links for lane in LANES)
    yield from ({"cmd": "read", "meter": meter} for meter in range(len(links) // 16))
    yield from ({"cmd": "vehicle", "car": car} for car in range(0, CARS, 23))
    yield {"cmd": "count"}


def session_of_town():
    """Vehicles enter until the town is full; then some are taken out, and roads are opened again."""
    links = links_of_town()
    yield load_of_town()
    yield from settings_of(links)
    yield from (enter_of(links, car) for car in range(CARS))
    yield {"cmd": "advance", "steps": 180}
    yield from asked_of(links)
    yield from ({"cmd": "takeout", "car": car} for car in range(0, CARS, 31))
    yield from (
        {"cmd": "reopen", "link": link, "lane": link // 40 % 2, "first": 60, "last": 69}
        for link in range(0, len(links), 80)
    )
    yield {"cmd": "advance", "steps": 20}
    yield from asked_of(links)


class Watch(threading.Thread):
    """Looks again and again at the threads of a process, but for the first one: `seen` are those that had time on a
    processor, `most` is how many there were at once."""

    def __init__(self, process):
        super().__init__()
        self.process, self.seen, self.most = process, set(), 0

    def run(self):
        while self.process.poll() is None:
            self.look()
            time.sleep(0.0005)

    def look(self):
        tasks = list(Path(f"/proc/{self.process.pid}/task").glob("*/schedstat"))
        self.most = max(self.most, len(tasks) - 1)
        for task in tasks:
            try:
                nanoseconds = int(task.read_text().split()[0])
            except (OSError, IndexError):
                continue
            if nanoseconds and int(task.parent.name) != self.process.pid:
                self.seen.add(task.parent.name)


def lines_of(commands):
    """The text of commands, a line for each."""
    return "".join(json.dumps(command, separators=(",", ":")) + "\n" for command in commands).encode()


@needs_simulator
class Workers(Case):
    def run_watched(self, words, lines=b"", before=()):
        """What the program writes, and who watched its threads. `before` are words that the program is started by."""
        words = [*before, PROGRAM, *words]
        with subprocess.Popen(words, stdin=subprocess.PIPE, stdout=subprocess.PIPE) as process:
            watch = Watch(process)
            watch.start()
            replies, _ = process.communicate(lines, timeout=SECONDS)
            watch.join()
        self.assertEqual(process.returncode, 0)
        return replies, watch

    def check_shared(self, words, wanted, lines=b""):
        """With several workers it writes what is wanted, on several threads where there are processors for them."""
        for workers in (2, 4, 64):
            with self.subTest(workers=workers):
                told, watch = self.run_watched(["--workers", str(workers), *words], lines)
                self.assertEqual(len(watch.seen) > 0, len(os.sched_getaffinity(0)) > 1)
                self.assertEqual(told, wanted)

    def check_few(self, words, wanted, lines=b""):
        """With 64 workers on one processor it writes what is wanted by one thread, and by a few on two processors.
        There a replay has eight parts, and so seven threads more at once, and some that have just ended."""
        for processors, most in ((1, 0), (2, 16)):
            with self.subTest(processors=processors):
                some = ",".join(map(str, sorted(os.sched_getaffinity(0))[:processors]))
                before = ["taskset", "--cpu-list", some]
                told, watch = self.run_watched(["--workers", "64", *words], lines, before)
                self.assertEqual(told, wanted)
                self.assertLessEqual(watch.most, most)

    def test_equal_bytes_and_more_than_one_thread(self):
        commands, tape = list(session_of_town()), self.folder / "town.tape"
        lines, words = lines_of(commands), ["--calls", "200000"]
        alone, watch = self.run_watched([*words, "--tape", tape], lines)
        self.assertEqual(watch.most, 0)
        replies = [json.loads(line) for line in alone.splitlines()]
        self.assertEqual(len(replies), len(commands))
        self.assertEqual([reply for reply in replies if "error" in reply], [])
        counts = [reply["cells"] for reply in replies if "admitted" in reply]
        self.assertGreater(min(counts), max(SHARED_FROM, REPLAY_SHARED_FROM))
        self.check_shared(words, alone, lines)
        self.check_few(words, alone, lines)
        # The session ends with a count, and a replay counts once more.
        counted = alone + alone.splitlines(keepends=True)[-1]
        self.check_shared(["--replay", tape], counted)
        self.check_few(["--replay", tape], counted)


if __name__ == "__main__":
    unittest.main()
