"""Who waits on one lane: no order of entering and no place in the waiting list makes a command slow. The bounds
are wide: they are ratios of processor seconds, several times what is measured, and a fifth of what a walk over
the whole list takes."""
import json
import os
import random
import subprocess
import tempfile

from support import PROGRAM, Case, needs_simulator

COUNT = 30_000
LOAD = {
    "cmd": "load", "nodes": [[1, 1, 2], [2, 1, 2]], "links": [[10, 1, 2, 1, 10, 5]], "turns": [], "zone": 0,
    "dawdle": 0, "change": 0, "seed": 0,
}


def enters(departs):
    return [{"cmd": "enter", "plan": [10], "lane": 0, "depart": depart} for depart in departs]


def replies(commands):
    """The replies to a session, and the processor seconds that it took."""
    with tempfile.TemporaryFile("w+") as lines, tempfile.TemporaryFile("w+") as out:
        lines.writelines(json.dumps(command, separators=(",", ":")) + "\n" for command in [LOAD, *commands])
        lines.seek(0)
        child = subprocess.Popen([PROGRAM, "--calls", "200000"], stdin=lines, stdout=out)
        _, status, used = os.wait4(child.pid, 0)
        child.returncode = os.waitstatus_to_exitcode(status)
        assert child.returncode == 0, child.returncode
        out.seek(0)
        return [json.loads(line) for line in out][1:], used.ru_utime + used.ru_stime


def seconds(commands):
    """The least of two tries, in which each command was answered by what it is to be."""
    tries = [replies(commands) for _ in range(2)]
    assert not any("error" in reply for reply in tries[0][0])
    return min(used for _, used in tries)


@needs_simulator
class Waiting(Case):
    def test_entering_in_any_order(self):
        departs = list(range(1, COUNT + 1))
        rising = seconds(enters(departs))
        self.assertLess(seconds(enters(departs[::-1])), 4 * rising)
        random.Random(1).shuffle(departs)
        self.assertLess(seconds(enters(departs)), 4 * rising)

    def test_asking_for_the_first_and_the_last(self):
        waiting = enters(range(1, COUNT + 1))
        first, last = (seconds(waiting + [{"cmd": "vehicle", "car": car}] * COUNT) for car in (0, COUNT - 1))
        self.assertLess(last, 3 * first)

    def test_taking_out_the_first_and_the_last(self):
        waiting = enters(range(1, COUNT + 1))
        first, last = (
            seconds(waiting + [{"cmd": "takeout", "car": car} for car in cars])
            for cars in (range(COUNT // 2), range(COUNT - 1, COUNT // 2, -1))
        )
        self.assertLess(last, 3 * first)

    def test_the_order_is_that_of_departing(self):
        """Some are taken out, some depart, and others come in their places: who waits stands by
        depart, then by number."""
        dice, waits, commands, orders, number = random.Random(2), {}, [], [], 0
        show = {"cmd": "lane", "link": 10, "lane": 0}
        for _ in range(6):
            for number in range(number, number + 400):
                waits[number] = 1000 + dice.randrange(300)
                commands += enters([waits[number]])
            number += 1
            for car in dice.sample(sorted(waits), 150):
                commands.append({"cmd": "takeout", "car": car})
                del waits[car]
            orders.append(sorted((depart, car) for car, depart in waits.items()))
            commands.append(show)
        # From step 1,000 on the first depart, one after another; then one comes before all others, and one behind all.
        commands += [{"cmd": "advance", "steps": 1100}, *enters([0, 1299]), show]
        shown = [reply["waiting"] for reply in replies(commands)[0] if "waiting" in reply]
        for order, answer in zip(orders, shown[:-1], strict=True):
            self.assertEqual(answer, [[car, depart] for depart, car in order])
        departed = len(orders[-1]) + 2 - len(shown[-1])
        self.assertGreater(departed, 10)
        rest = [(0, number), *orders[-1][departed:], (1299, number + 1)]
        self.assertEqual(shown[-1], [[car, depart] for depart, car in rest])
