"""The model of a team that waits: no order of its steps hangs, wrong ones are found, and it is that of the sources."""
import re
import shutil
import sys
import tempfile
import unittest
from pathlib import Path

CHECK = Path(__file__).resolve().parents[1]
sys.path.insert(0, str(CHECK))

from definitions import TOP  # noqa: E402
from protocol import searched  # noqa: E402
from search import Actor, Fault, Row, Search  # noqa: E402
from team import SMALL, SOURCES, TEAMS, model_steps, page_lines, source_lines  # noqa: E402
from wrong_protocols import HARMLESS, WRONG  # noqa: E402

# What threads share is touched by these calls alone.
SHARED = re.compile(r"\.(load|store|swap|fetch_\w+|compare_\w+|park\w*|wake_\w+|lock|try_lock|join)\(")


class Orders(unittest.TestCase):
    def test_every_order_comes_to_its_end(self):
        for team in TEAMS:
            with self.subTest(team=team):
                found = searched(*team)
                self.assertEqual((found.fault, found.trace), ("", []))
                # Fewer were no search of all orders: each thread alone has ten places to stand.
                self.assertGreater(found.states, 10 ** team[0] * team[1])
                print(f"  {team[0]} threads: {found.states:,} states")

    def test_wrong_protocols_are_found(self):
        for name, (edit, fault) in WRONG.items():
            with self.subTest(name):
                found = searched(*SMALL, edit=edit)
                self.assertTrue(found.fault.startswith(fault), found.fault)
                # Only steps that go round have no shortest way.
                self.assertEqual(not found.trace, "round" in fault)

    def test_what_does_no_harm_is_let_through(self):
        for name, edit in HARMLESS.items():
            with self.subTest(name):
                self.assertEqual(searched(*SMALL, edit=edit).fault, "")

    def test_the_way_to_a_lost_wake(self):
        """Where nobody is woken, the thread is asleep before the caller lends, who then sleeps until it answers."""
        found = searched(1, 1, edit=WRONG["nobody is woken"][0])
        self.assertEqual(found.fault, "stuck: caller sleeps, thread 0 sleeps")
        self.assertIn("thread 0: park", found.trace)
        self.assertEqual(found.trace[-1], "caller: park")
        self.assertLess(found.trace.index("thread 0: park"), found.trace.index("caller: raise"))


class Small(unittest.TestCase):
    """The search itself, by actors whose orders can be counted by hand."""

    def adder(self, name, times):
        def add(state):
            state["sum"] += 1
        return Actor(name, [Row("add", (add,))] * times, ["sum", f"{name} at", f"{name} sleeps"])

    def search(self, actors):
        return Search(actors, dict.fromkeys([name for actor in actors for name in actor.sees], 0))

    def test_states_are_counted(self):
        """Two who add twice and three times: 3 x 4 places to stand, and the sum follows from them."""
        found = self.search([self.adder("a", 2), self.adder("b", 3)]).run()
        self.assertEqual((found.states, found.fault), (12, ""))

    def test_a_wait_for_nothing_is_stuck(self):
        waits = Actor("b", [Row("wait", (lambda state: None,), until="never")], ["never", "b at", "b sleeps"])
        found = self.search([self.adder("a", 2), waits]).run()
        self.assertEqual((found.fault, found.trace), ("stuck: a has ended, b waits", ["a: add", "a: add"]))

    def test_steps_that_go_round_are_seen(self):
        def flip(state):
            state["side"] = 1 - state["side"]
            return "again"
        turns = Actor("b", [Row("flip", (flip,), label="again")], ["side", "b at", "b sleeps"])
        self.assertEqual(self.search([turns]).run().fault, "steps go round without end")

    def test_a_fault_is_told_with_its_way(self):
        def fail(state):
            if state["sum"] == 2:
                raise Fault("two")
        looks = Actor("b", [Row("look", (fail,))], ["sum", "b at", "b sleeps"])
        found = self.search([self.adder("a", 2), looks]).run()
        self.assertEqual((found.fault, found.trace), ("two", ["a: add", "a: add"]))


class Lines(unittest.TestCase):
    """The page has the lines of the sources as they are, and each step of the model on one of them."""

    def test_the_lines_are_those_of_the_sources(self):
        sources = source_lines(TOP)
        for name, lines in page_lines().items():
            with self.subTest(name):
                self.assertEqual([line for line, _ in lines], sources.get(name))

    def test_a_changed_line_is_seen(self):
        with tempfile.TemporaryDirectory() as folder:
            copy = Path(folder) / SOURCES
            shutil.copytree(TOP / SOURCES, copy)
            file = copy / "waits.rt"
            file.write_text(file.read_text().replace("            self.count.wake_all();\n", "", 1))
            changed = source_lines(Path(folder))
        page = {name: [line for line, _ in lines] for name, lines in page_lines().items()}
        self.assertEqual([name for name, lines in page.items() if lines != changed[name]], ["waits.rt: go_on"])

    def test_each_step_stands_on_one_line(self):
        marked = [step for lines in page_lines().values() for _, step in lines if step]
        self.assertEqual(sorted(marked), sorted(model_steps()))

    def test_no_other_line_touches_what_is_shared(self):
        shown = {line.strip() for lines in page_lines().values() for line, _ in lines}
        files = [file for file in sorted((TOP / SOURCES).glob("*.rt")) if file.name != "tests.rt"]
        self.assertGreater(len(files), 0)
        touching = [
            line.strip() for file in files for line in file.read_text().split("\n") if SHARED.search(line)
        ]
        self.assertGreater(len(touching), 0)
        self.assertEqual([line for line in touching if line not in shown], [])
        # In one order of all: a weaker one would need another model.
        self.assertEqual([line for line in touching if "Ordering::" in line and "SeqCst" not in line], [])


if __name__ == "__main__":
    unittest.main()
