"""Makes random sessions: a small network, and commands of all twelve kinds, many of them good, some refused,
some no commands at all."""
import json
import random

# Bounds of a load: part, position of the number in an entry (none for a value),
# a good number at the bound, bad ones beyond it.
BOUNDS = [
    ("nodes", 0, 4294967295, [4294967296]), ("nodes", 1, 60, [0, 61]), ("nodes", 2, 64, [0, 65]),
    ("links", 0, 4294967295, [4294967296]), ("links", 1, None, [99]), ("links", 2, None, [99]),
    ("links", 3, None, [0, 3]), ("links", 4, None, [0, 1000001]), ("links", 5, None, [0, 6]), ("turns", 0, None, [99]),
    ("turns", 1, None, [2]), ("turns", 2, None, [99]), ("turns", 3, None, [2]), ("zone", None, 1000, [1001]),
    ("dawdle", None, 1000, [1001]), ("change", None, 1000, [1001]), ("start", None, 10 ** 9, [10 ** 9 + 1]),
]
# What may stand in a field where a number is wanted, and is none, or makes the line no JSON.
NO_NUMBERS = [
    "-1", "-0", "1.0", "1e3", "18446744073709551616", '"7"', "null", "true", "[1]", "{}", "01", "+1", "NaN", "1e999",
    "", "18446744073709551615",
]
# Lines that are no command, or are blank; or are `count` in another dress.
ODD_LINES = [
    b"", b" ", b"\t \r", b"advance", b"[]", b"{}", b"null", b'"count"', b'{"cmd":"stop"}', b'{"cmd":7}',
    b'{"cmd":"Count"}', b'{"cmd":"count"', b'{"cmd":"count"} x', b'\xef\xbb\xbf{"cmd":"count"}',
    b'{"cmd":"count","x":"\xff"}', b'{"cmd":"count","x":"\\ud800"}', b'{"cmd":"count","x":"\\ud83d\\ude00"}',
    b'{"cmd":"count","x":1e999}', b'{"cmd":"count","x":[1,]}', b'{"cmd":"count","x":"a\tb"}',
    b'{"cmd":"count","cmd":"stop"}', b'{"cmd":"stop","cmd":"count"}', b'{"\\u0063md":"count"}',
    b'{"cmd":"count","x":' + b"[" * 126 + b"]" * 126 + b"}", b'{"cmd":"count","x":' + b"[" * 127 + b"]" * 127 + b"}",
    b" \t{ \"cmd\" : \"count\" , \"x\" : -1.5e-3 }\r",
]
# Lines as long as one may be, and longer; rare, as they take time.
LONG_LINES = [b"x" * 1048576, b"x" * 1048577]


class Maker:
    """One random session; the same seed makes the same one."""

    def __init__(self, seed):
        self.random = random.Random(seed)
        self.lines, self.last, self.admitted, self.meters = [], {}, 0, 0

    def some(self, chance):
        return self.random.random() < chance

    def pick(self, *values):
        return self.random.choice(values)

    def session(self):
        """The lines of the session, as bytes."""
        self.network()
        if self.some(.05):
            self.say({"cmd": self.pick("count", "advance"), "steps": 1})
        while self.some(.3):
            self.say(self.spoilt_load())
        self.say(self.load)
        self.clock = self.load["start"]
        for _ in range(self.pick(0, 2, 5)):
            self.enter()
        for _ in range(self.random.randint(12, 40)):
            self.one()
        self.show_all()
        return self.lines

    # ---- networks

    def network(self):
        """A network of up to five nodes and six links, most turns of which there are."""
        ids = self.random.sample(range(1, 40), self.random.randint(1, 5))
        links = []
        for name in self.random.sample(range(1, 60), self.pick(1, 1, 2, 3, 4, 5, 6)):
            cells = self.pick(1, 2, 4, 8, 12, 16, 20, self.random.randint(3, 24))
            links.append(
                [name, self.pick(*ids), self.pick(*ids), self.pick(1, 2, 2), cells, self.pick(1, 2, 3, 5, 5, 5)]
            )
        nodes = [[name, self.pick(1, 1, 2, 3, self.random.randint(1, 6)), self.pick(1, 1, 2, 3, 6)] for name in ids]
        self.load = {
            "cmd": "load", "nodes": nodes, "links": links, "turns": self.turns_of(links),
            "zone": self.pick(0, 2, 4, 8, 16, 1000),
            "dawdle": self.pick(0, 0, 0, 100, 300, 563, 679, 1000),
            "change": self.pick(0, 500, 700, 1000, 1000, 1000),
            "seed": self.pick(0, 1, 2 ** 32, 2 ** 64 - 1, self.random.getrandbits(64)),
            "start": self.pick(0, 0, 0, 7, self.random.randint(0, 10 ** 6), 999999970),
        }

    def turns_of(self, links):
        """Most of the turns that a network may have, in any order."""
        turns = [
            [a[0], lane, b[0], self.random.randrange(b[3])]
            for a in links
            for b in links
            if a[2] == b[1]
            for lane in range(a[3])
            if self.some(.65)
        ]
        self.random.shuffle(turns)
        return turns

    def spoilt_load(self):
        """The load with a number at a bound or beyond it, or with something twice."""
        load = json.loads(json.dumps(self.load))
        part, at, _, bad = self.pick(*BOUNDS)
        if self.some(.2):
            part = self.pick("nodes", "links", "turns")
            load[part].append(list(self.pick(*load[part])) if load[part] else [1])
        elif self.some(.05):
            load["nodes"] = []
        elif at is None:
            load[part] = self.pick(*bad)
        elif load[part]:
            self.pick(*load[part])[at] = self.pick(*bad)
        return load

    # ---- commands

    def one(self):
        """One command more, or a few that belong together."""
        kinds = [
            self.enter, self.advance, self.close, self.take_out, self.signal, self.meter, self.read, self.vehicle,
            self.lane, self.count, self.odd,
        ]
        self.random.choices([*kinds, self.load_again], [26, 30, 8, 4, 7, 5, 4, 6, 4, 2, 6, .5])[0]()

    def link(self):
        """A link of the network; rarely one that is not there."""
        return [77, 0, 0, 1, 5, 1] if self.some(.02) else self.pick(*self.load["links"])

    def lane_of(self, link):
        return self.random.randrange(link[3]) if self.some(.97) else self.random.randint(0, 3)

    def enter(self):
        plan, lane = self.plan(), self.random.randint(0, 1)
        first = [link for link in self.load["links"] if plan[:1] == [link[0]]]
        for _ in range(self.pick(1, 1, 2, 3)):
            if first:
                lane = self.lane_of(first[0])
            depart = (
                self.pick(0, self.clock, self.clock, self.clock + self.random.randint(0, 8))
                if self.some(.98)
                else self.pick(10 ** 9, 10 ** 9 + 1)
            )
            size = self.pick(1, 1, 2, 3, 4) if self.some(.97) else self.pick(0, 5, 2 ** 64 - 1)
            command = {"cmd": "enter", "plan": plan, "lane": lane, "depart": depart, "size": size}
            if size == 1 and self.some(.5):
                del command["size"]
            self.say(command)
            self.admitted += 1

    def plan(self):
        """Links that follow each other, as the turns have them; rarely with one that does not, too many, or none."""
        plan = [self.link()[0]]
        while self.some(.75) and len(plan) < 7:
            after = [turn[2] for turn in self.load["turns"] if turn[0] == plan[-1]]
            if not after:
                break
            plan.append(self.pick(*after))
        if self.some(.03):
            plan.append(self.link()[0])
        return self.pick([], plan * 400, plan[:1] * 1025) if self.some(.01) else plan

    def advance(self):
        steps = self.pick(0, 10001, 10 ** 18) if self.some(.02) else self.pick(1, 1, 1, 2, 3, 4, 7)
        self.say({"cmd": "advance", "steps": steps})
        self.clock += steps if steps < 9 else 0
        if self.some(.6):
            self.show_lanes()

    def show_lanes(self):
        for link in self.load["links"]:
            for lane in range(link[3]):
                self.say({"cmd": "lane", "link": link[0], "lane": lane})

    def show_all(self):
        """Whatever can be asked at the end."""
        self.show_lanes()
        for number in range(self.meters + 1):
            self.say({"cmd": "read", "meter": number})
        for number in range(min(self.admitted, 25) + 1):
            self.say({"cmd": "vehicle", "car": number})
        self.say({"cmd": "count"})

    def close(self):
        link = self.link()
        first, last = (
            sorted(self.random.randint(0, link[4] - 1) for _ in range(2))
            if self.some(.9)
            else self.random.choices(range(link[4] + 1), k=2)
        )
        self.say(
            {
                "cmd": self.pick("close", "close", "reopen"), "link": link[0], "lane": self.lane_of(link),
                "first": first, "last": last,
            }
        )

    def load_again(self):
        self.say(self.load)

    def take_out(self):
        self.say({"cmd": "takeout", "car": self.random.randint(0, self.admitted)})

    def signal(self):
        node = self.pick(*self.load["nodes"])[0]
        ends = {link[0]: link[2] for link in self.load["links"]}
        here = [turn[:3] for turn in self.load["turns"] if ends[turn[0]] == node]
        phases = []
        for _ in range(self.pick(1, 2, 2, 3) if self.some(.95) else self.pick(0, 16, 17)):
            greens = [turn for turn in here if self.some(.5)]
            if self.some(.03):
                greens.append([self.link()[0], self.random.randint(0, 1), self.link()[0]])
            phases.append([self.pick(1, 2, 3, 5) if self.some(.97) else self.pick(0, 600, 601), greens])
        cycle = sum(phase[0] for phase in phases)
        offset = self.random.randrange(cycle) if cycle and self.some(.95) else cycle
        self.say({"cmd": "signal", "node": node if self.some(.98) else 88, "offset": offset, "phases": phases})

    def meter(self):
        link = self.link()
        cell = self.pick(0, link[4] - 1, self.random.randrange(link[4])) if self.some(.97) else link[4]
        period = self.pick(1, 1, 2, 3, 5) if self.some(.95) else self.pick(0, 100000, 100001)
        self.say({"cmd": "meter", "link": link[0], "lane": self.lane_of(link), "cell": cell, "period": period})
        self.meters += 1

    def read(self):
        self.say({"cmd": "read", "meter": self.random.randint(0, self.meters)})

    def vehicle(self):
        self.say({"cmd": "vehicle", "car": self.random.randint(0, self.admitted)})

    def lane(self):
        link = self.link()
        self.say({"cmd": "lane", "link": link[0], "lane": self.lane_of(link)})

    def count(self):
        self.say({"cmd": "count"})

    # ---- lines

    def say(self, command):
        """A command as a line; some with other spaces, another order of fields, and a field that is not known."""
        self.last, fields = command, list(command.items())
        if self.some(.1):
            fields.append(("note", self.pick(None, [1.5, {"a": "b"}], "é", -3)))
            self.random.shuffle(fields)
        spaces = self.pick((",", ":"), (", ", ": "), (" ,\t", " : ")) if self.some(.1) else (",", ":")
        self.lines.append(json.dumps(dict(fields), separators=spaces, ensure_ascii=self.some(.5)).encode())

    def odd(self):
        """A line that is no command, or the last command with a field spoilt or left out."""
        if self.some(.4):
            self.lines.append(self.pick(*ODD_LINES) if self.some(.99) else self.pick(*LONG_LINES))
            return
        command = dict(self.last)
        name = self.pick(*command)
        if self.some(.3):
            del command[name]
            self.lines.append(json.dumps(command).encode())
            return
        command[name] = "here"
        self.lines.append(json.dumps(command).replace('"here"', self.pick(*NO_NUMBERS)).encode())


# Nodes of a crowd in a ring, cells of each lane, vehicles, and the steps.
RING, CELLS, CARS, STEPS = 48, 100, 4_800, 90
# Two streets leave each node: to the next node and to the fifth after it.
AHEAD = (1, 5)


def crowd():
    """The lines of a session with so many vehicles in cells (LINES.md, `--workers`) that threads share its steps."""
    links = [
        [len(AHEAD) * node + at, node, (node + ahead) % RING, 2, CELLS, 3 + at]
        for node in range(RING)
        for at, ahead in enumerate(AHEAD)
    ]
    after = {link[0]: [len(AHEAD) * link[2] + at for at in range(len(AHEAD))] for link in links}
    turns = [[link, lane, to, lane] for link, goals in after.items() for to in goals for lane in (0, 1)]
    commands = [{
        "cmd": "load", "nodes": [[node, 2, 3] for node in range(RING)], "links": links, "turns": turns, "zone": 12,
        "dawdle": 150, "change": 400, "seed": 46,
    }]
    for car in range(CARS):
        plan = [car % len(links)]
        for bit in range(4):
            plan.append(after[plan[-1]][car >> bit & 1])
        commands.append({"cmd": "enter", "plan": plan, "lane": car // len(links) % 2, "depart": 0, "size": 1 + car % 3})
    for _ in range(3):
        commands += [{"cmd": "advance", "steps": STEPS // 3}, {"cmd": "count"}]
    commands += [{"cmd": "lane", "link": link[0], "lane": lane} for link in links for lane in (0, 1)]
    return [json.dumps(command, separators=(",", ":")).encode() for command in commands]
