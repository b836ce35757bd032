"""The environment for learning signal control."""
import os
import subprocess
import sys
from functools import partial
from importlib.util import find_spec

import checkers

from support import PROGRAM, TOOLS, Case, needs_simulator
from streetsim.env import OneSignal, ParallelSignals, SideBySide, SignalEnv

CROSS = TOOLS / "examples/actuated"
WORDS = ["-n", str(CROSS / "cross.net.xml.gz"), "-r", str(CROSS / "cross.rou.xml"), "-W"]


@needs_simulator
class Environment(Case):
    def setUp(self):
        super().setUp()
        os.environ["STREETSIM_PROGRAM"] = PROGRAM

    def trace(self, env, seed, steps=40):
        """All that some steps give."""
        seen = [env.reset(seed=seed)]
        seen += [env.step({"J": step // 6 % 2}) for step in range(steps)]
        return seen

    def test_resets_are_exact(self):
        with SignalEnv(WORDS) as env:
            first, again, other = (self.trace(env, seed) for seed in (7, 7, 8))
        with SignalEnv(WORDS) as env:
            self.assertEqual(self.trace(env, 7), first)
        self.assertEqual(again, first)
        self.assertNotEqual(other, first)

    def test_what_an_action_shows(self):
        """Yellow for 3 s and then the other green; not before the least green."""
        with SignalEnv(WORDS, every=5, yellow=3, least=10) as env:
            observations, _ = env.reset(seed=1)
            self.assertEqual(observations["J"][:3], [1.0, 0.0, 0.0])
            self.assertEqual(len(observations["J"]), 2 + 1 + 2 * 4)
            light, greens = env.session.control.lights["J"], env.agents["J"].greens
            env.step({"J": 1})
            self.assertEqual(light.phases[0][1], greens[0])
            observations, *_ = env.step({})
            self.assertEqual(observations["J"][:3], [1.0, 0.0, 1.0])
            shown, step = [], env.session.step
            seconds = lambda until: int(until - env.session.clock)  # noqa: E731
            env.session.step = lambda until: (shown.extend(seconds(until) * [light.phases[0][1]]), step(until))
            observations, *_ = env.step({"J": 1})
            yellow = "".join("y" if now in "Gg" and then == "r" else now for now, then in zip(greens[0], greens[1]))
            self.assertEqual(shown, [yellow] * 3 + [greens[1]] * 2)
            self.assertEqual(observations["J"][:3], [0.0, 1.0, 0.0])

    def test_rewards_are_what_those_before_the_light_wait(self):
        """Their sum over a run is what those who are still there have waited."""
        with SignalEnv(WORDS) as env:
            env.reset(seed=1)
            total = sum(env.step({})[1]["J"] for _ in range(30))
            session = env.session
            lanes = env.agents["J"].lanes
            there = [number for lane in lanes for number in session.view.on_lane(session.lane_of[lane])]
            waited = sum(session.tally.waited[there].tolist())
        self.assertGreater(waited, 0)
        self.assertAlmostEqual(total, -waited / 100)

    def test_ends(self):
        with SignalEnv(WORDS, seconds=50) as env:
            env.reset()
            over = [env.step({})[3] for _ in range(10)]
        self.assertEqual(over, [False] * 9 + [True])

    def test_refused(self):
        with SignalEnv(WORDS) as env:
            for call in (lambda: env.step({}), lambda: SignalEnv(WORDS, every=3, yellow=3)):
                with self.assertRaises(ValueError):
                    call()
            env.reset()
            with self.assertRaisesRegex(ValueError, "light 'J' has no green phase 2"):
                env.step({"J": 2})

    def test_a_step_that_is_refused_changes_no_light(self):
        with SignalEnv(WORDS) as env:
            env.reset()
            env.step({})
            light, green = env.session.control.lights["J"], env.agents["J"].greens[0]
            for other, error in (({"K": 0}, KeyError), ({"J": 1.0}, TypeError), ({"J": -1}, ValueError)):
                with self.subTest(other), self.assertRaises(error):
                    env.step({"J": 1} | other)
                self.assertEqual((light.phases[0][1], env.figures()["time"]), (green, 5))
            self.assertEqual(env.step({"J": 1})[0]["J"][:2], [0.0, 1.0])

    def test_lights_with_a_single_green_are_no_agents(self):
        """A light that always shows one green has nothing to choose: it goes on by its program."""
        single = """<additional><tlLogic id="J" type="static" programID="one" offset="0">
            <phase duration="60" state="GGGGGGGGGGGG"/><phase duration="5" state="yyyyyyyyyyyy"/></tlLogic>
            </additional>"""
        words = [*WORDS, "-a", self.write("x.add.xml", single)]
        with SignalEnv(words, seconds=20) as env:
            self.assertEqual(env.reset()[0], {})
            self.assertEqual(env.lights, [])
            self.assertEqual(env.step({})[1], {})
        with SignalEnv(words, controlled=["J"]) as env, self.assertRaisesRegex(ValueError, "'J' has a single green"):
            env.reset()

    def test_conventions_of_gymnasium(self):
        """Spaces have what reset and step give; equal seeds give equal observations, others do not."""
        env = OneSignal(WORDS, seconds=50)
        self.addCleanup(env.close)
        first, figures = env.reset(seed=3)
        self.assertTrue(env.observation_space.contains(first))
        self.assertEqual((first.shape, env.action_space.n, figures["time"]), (env.observation_space.shape, 2, 0))
        seen = [env.step(env.action_space.sample() * 0 + step % 2) for step in range(10)]
        observation, reward, ended, over, figures = seen[-1]
        self.assertTrue(all(env.observation_space.contains(one[0]) for one in seen))
        self.assertEqual((type(reward), ended, over, figures["time"]), (float, False, True, 50))
        self.assertEqual([one[3] for one in seen], 9 * [False] + [True])
        env.reset(seed=3)
        again = [env.step(step % 2) for step in range(10)]
        self.assertEqual([one[0].tolist() for one in again], [one[0].tolist() for one in seen])
        self.assertIs(env.unwrapped, env)
        with self.assertRaises(KeyError):
            OneSignal(WORDS, light="nowhere")

    def test_conventions_of_pettingzoo(self):
        """What is told is told by agent, and there are no agents when the run is over."""
        env = ParallelSignals(WORDS, seconds=10)
        self.addCleanup(env.close)
        observations, infos = env.reset(seed=1, options=None)
        self.assertEqual((env.agents, env.possible_agents, list(infos)), (["J"], ["J"], ["J"]))
        self.assertTrue(env.observation_space("J").contains(observations["J"]))
        self.assertEqual(env.action_space("J").n, 2)
        for over in (False, True):
            told = env.step({"J": 1})
            self.assertEqual([list(one) for one in told], 5 * [["J"]])
            self.assertEqual((told[2], told[3]), ({"J": False}, {"J": over}))
        self.assertEqual(env.agents, [])

    def test_checkers(self):
        """What the checkers of Gymnasium and PettingZoo assert holds, with packages of their names and without any."""
        checkers.write_packages(self.folder)
        for path, there in (("", [False, False]), (str(self.folder), [True, True])):
            words = [sys.executable, checkers.__file__, *WORDS]
            variables = {**os.environ, "PYTHONPATH": path}
            done = subprocess.run(words, env=variables, capture_output=True, text=True, check=False)
            self.assertEqual(done.returncode, 0, done.stderr)
            self.assertIn(done.stdout.strip(), (str(there), str([True, True])))
        if find_spec("gymnasium"):  # its own checker
            from gymnasium.utils.env_checker import check_env

            check_env(OneSignal(WORDS, seconds=50), skip_render_check=True)

    def test_resets_without_a_seed_draw_on(self):
        """By the words' seed where they name one, and else by a seed that nobody knows; the figures tell each."""
        for words, equal in (([*WORDS, "--seed", "5"], True), (WORDS, False)):
            seeds = []
            for _ in range(2):
                with SignalEnv(words) as env:
                    seeds.append([env.reset()[1]["seed"] for _ in range(3)])
            self.assertEqual(len(set(seeds[0])), 3)
            self.assertEqual(seeds[0] == seeds[1], equal)

    def test_a_text_of_the_run(self):
        with OneSignal(WORDS, render_mode="ansi") as env:
            env.reset(seed=1)
            self.assertRegex(env.render(), r"^time 0, vehicles 0, .*seed 1\nJ: [Ggr]{12}, 0 stand before it$")
            with self.assertRaisesRegex(ValueError, "streetsim-live shows runs"):
                OneSignal(WORDS, render_mode="human")

    def test_environments_side_by_side(self):
        """Each gives what it gives alone, and an exception of one is raised."""
        with SideBySide(partial(SignalEnv, WORDS), 2) as envs:
            begun = envs.reset([7, 8])
            seen = [envs.step([{"J": 1}, {"J": 0}]) for _ in range(5)]
            with self.assertRaisesRegex(ValueError, "no green phase 9"):
                envs.step([{"J": 9}, {}])
        for at, (seed, action) in enumerate(((7, 1), (8, 0))):
            with SignalEnv(WORDS) as env:
                self.assertEqual(env.reset(seed), begun[at])
                self.assertEqual([env.step({"J": action}) for _ in range(5)], [one[at] for one in seen])

    def test_policies(self):
        """Max-pressure leaves fewer standing than greens in turn."""
        words = [sys.executable, TOOLS / "examples/signal_policies", *WORDS[:-1]]
        told = subprocess.run(words, capture_output=True, text=True, check=True).stdout.splitlines()
        fixed, pressure = (float(line.split()[1]) for line in told)
        self.assertEqual([line.split(":")[0] for line in told], ["fixed", "max_pressure"])
        self.assertLess(pressure, fixed)
