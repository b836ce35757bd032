"""What observers see, of seconds that are written by hand as polls show them."""
from types import SimpleNamespace

import support  # noqa: F401, which puts the tools on the path
from streetsim.control.steering import Steering
from streetsim.kernel.loop import Kernel
from streetsim.kernel.plans import Plans
from streetsim.kernel.seconds import Block, Vehicles, seconds_of
from streetsim.kernel.serving import serving_program
from streetsim.model.record import BUFFER, HEAD, ROW
from streetsim.model.runs import Line, Run


def blocks_of(frames, taken=()):
    """The blocks of some seconds, (clock, [[link, lane, [[car, cell, speed], ..], [car in the buffer, ..]], ..]); a
    vehicle of the buffer may go on from its clock on."""
    begins, data, arrived = [0], b"", 0
    for clock, lanes in frames:
        rows = []
        for link, lane, cells, buffer, *over in sorted(lanes):
            rows += [(car, 2 * link + lane, cell, speed) for car, cell, speed, *_ in cells]
            rows += [(car, 2 * link + lane, BUFFER + clock, 0) for car in buffer]
            gone = [(car, 2 * link + lane, (1 << 32) - 1, speed) for car, speed in (over[0] if over else ())]
            rows, arrived = rows + gone, arrived + len(gone)
        data += b"".join(HEAD.pack(*row) for row in ((clock, len(rows), arrived, len(taken)), *rows))
        begins.append(begins[-1] + HEAD.size + ROW * len(rows))
    return begins, data


def made(program, run, mapping, settings, *observers):
    """(the kernel of a run that was made as streetsim-run makes it, its steering)."""
    steering = Steering(run, mapping, settings)
    with serving_program(program, "run") as serving:
        kernel = Kernel(serving, run, mapping, steering.controllers, observers)
        kernel.go(settings.until)
    return kernel, steering


def kernel_of(mapping, plans, first=(), sent=(), dawdle=0, departs=None):
    """What observers know of a run: its plans, and the lines that were sent, first and at clocks."""
    departs = departs or [0] * len(plans)
    pairs = zip(plans, departs, strict=True)
    commands = [{"cmd": "enter", "plan": plan, "lane": 0, "depart": at} for plan, at in pairs]
    load = Line(1, "", {"cmd": "load", "dawdle": dawdle, "links": []})
    run = Run("run", load, first=[Line(2, "", one) for one in first], enters=[Line(3, "", one) for one in commands])
    vehicles = Vehicles()
    vehicles.add(range(len(plans)), [1] * len(plans))
    return SimpleNamespace(
        run=run, map=mapping, start=0, until=0, clock=0, vehicles=vehicles, entered=len(plans), sent_lines=list(sent),
        plans=Plans(run, mapping), departs=sorted(departs), last_second=None,
    )  # fmt: skip


def show(kernel, frames, *observers, parts=1):
    """Has observers see some seconds, without one left out, in so many parts; gives the seconds of the last part."""
    for car, size in {(one[0], one[3]) for _, lanes in frames for lane in lanes for one in lane[2] if len(one) > 3}:
        kernel.vehicles.size[car] = size
    for one in observers:
        one.begin(kernel)
    seconds, clock = None, kernel.start
    for at in range(parts):
        part = frames[at * len(frames) // parts : (at + 1) * len(frames) // parts]
        if part:
            blocks = blocks_of(part)
            seconds = seconds_of([blocks], seconds, clock, kernel.vehicles)
            clock, kernel.last_second = part[-1][0], Block(blocks)
            for one in observers:
                one.see(seconds)
    kernel.clock = kernel.until = clock
    for one in observers:
        one.end(clock)
    return seconds
