"""No name of the tools, of dev or of bench is one general word, which says nothing of what it names."""
import unittest

from general_names import general_names
from support import TOOLS, Case

TOP = TOOLS.parent
FOLDERS = ("tools/streetsim", "dev", "bench")
# Methods by which users' own observers are called, as PYTHON.md tells.
PROTOCOL = {"see"}
MAP_KEY = "a key of the map's file"
REPLY_KEY = "a key of the program's replies, which become this class"
# Those that stay, and the reason.
STAY = {
    "bench/beside_sumo/rows.py: Row.here": "a column of the rows that are kept",
    "bench/networks/unseen.py: MadeNetwork.words": "a key of made.json",
    "bench/planners/routes.py: Row.here": "a key of the rows that --work keeps",
    "tools/streetsim/base/client.py: Census.taken": REPLY_KEY,
    "tools/streetsim/base/client.py: Gone": "the program's name of this refusal",
    "tools/streetsim/base/client.py: Refused.__init__.at": REPLY_KEY,
    "tools/streetsim/base/client.py: Rows.now": REPLY_KEY,
    "tools/streetsim/demand/demanding.py: DemandInputs.most": "a key of setting.json, as --most",
    "tools/streetsim/env.py: SignalEnv.__init__.least": "users' programs give it by this name, as PYTHON.md tells",
    "tools/streetsim/env.py: SignalEnv.__init__.words": "words of a command, as the glossary calls them",
    "tools/streetsim/kernel/loop.py: Kernel.go": "users' programs call it, as PYTHON.md tells",
    "tools/streetsim/kernel/loop.py: Kernel.send": "users' own controllers call it, as PYTHON.md tells",
    "tools/streetsim/kernel/seconds.py: Seconds.on": "users' own observers read it, as PYTHON.md tells",
    "tools/streetsim/model/fullness.py: Fullness.of": MAP_KEY,
    "tools/streetsim/model/mapping.py: MapTurn.next": MAP_KEY,
    "tools/streetsim/model/reserved.py: ReservedLanes.of": MAP_KEY,
    "tools/streetsim/model/starting.py: SlowStarts.of": MAP_KEY,
    "tools/streetsim/model/stops.py: Visit.at": MAP_KEY,
    "tools/streetsim/model/waiting.py: Foe.next": MAP_KEY,
    "tools/streetsim/model/waiting.py: Gap.after": MAP_KEY,
    "tools/streetsim/model/waiting.py: Gap.least": MAP_KEY,
    "tools/streetsim/model/waiting.py: Gap.others": MAP_KEY,
    "tools/streetsim/model/waiting.py: Pace.more": MAP_KEY,
    "tools/streetsim/model/waiting.py: Pace.shown": MAP_KEY,
    "tools/streetsim/observe/sumo_intervals.py: EdgeSums.left": "SUMO's, an attribute of edgedata",
    "tools/streetsim/scenario.py: ScenarioWishes.seen": "users' programs give it by this name, as --seen",
    "tools/streetsim/simulation/lights.py: Control.hold": "saved states have the names of deeds",
    "tools/streetsim/simulation/script_settings.py: ScriptSettings.seen": "users' word, as of ScenarioWishes",
    "tools/streetsim/traci/trafficlights.py: Phase.next": "TraCI's",
}
SAMPLE = """
BEFORE = 1
PLAIN, AFTER = 2, [one for one in "ab"]


class Thing:
    _held: int = 0

    def told(self, values, given):
        self.ended, self.clock = values, 0
        of = [item for item in values]
        most = len(of)
        total = most
        of += given

        def least():
            return values

        return total, of, least
"""


class GeneralNames(Case):
    def test_names_of_the_tools(self):
        lines = {
            f"{path.relative_to(TOP)}: {name.place()}": name.line
            for folder in FOLDERS
            for path in sorted((TOP / folder).rglob("*.py"))
            for name in general_names(path)
            if name.name not in PROTOCOL
        }
        self.assertEqual([f"line {lines[place]} of {place}" for place in sorted(lines.keys() - STAY.keys())], [])
        self.assertEqual(STAY.keys() - lines.keys(), set())

    def test_what_is_found(self):
        """All that others see, and what lives over five lines: not `given`, `most` and `item`, nor `one`, which its
        comprehension alone has."""
        path = self.folder / "sample.py"
        path.write_text(SAMPLE, encoding="utf-8")
        self.assertEqual([f"{name.line}: {name.place()}" for name in general_names(path)], [
            "2: BEFORE", "3: AFTER", "6: Thing", "7: Thing._held", "9: Thing.told", "9: Thing.told.values",
            "10: Thing.told.ended", "11: Thing.told.of", "16: Thing.told.least",
        ])


if __name__ == "__main__":
    unittest.main()
