"""What the checkers of Gymnasium (utils.env_checker.check_env, vector environments) and of PettingZoo (test.api_test,
test.seed_test) assert of environments, and small packages of their names whose classes assert what theirs do.

    checkers.py WORDS ..        checks the environments of streetsim.env with SUMO's words"""
import inspect
import os
import sys
from copy import deepcopy
from functools import partial
from importlib import import_module

import numpy as np

# Of the real packages: which classes there are, how a seeded reset draws, what a space is.
GYMNASIUM = """
import numpy as np
class Env:
    metadata, render_mode, spec, _np_random = {"render_modes": []}, None, None, None
    @property
    def np_random(self):
        if self._np_random is None:
            self._np_random = np.random.default_rng()
        return self._np_random
    @np_random.setter
    def np_random(self, value):
        self._np_random = value
    def reset(self, *, seed=None, options=None):
        if seed is not None:
            self._np_random = np.random.Generator(np.random.PCG64(np.random.SeedSequence(seed)))
    @property
    def unwrapped(self):
        return self
    def close(self):
        pass
    def __enter__(self):
        return self
    def __exit__(self, *args):
        self.close()
        return False
"""
SPACES = """
import numpy as np
class Space:
    def __init__(self, shape, dtype):
        self._shape, self.dtype = shape, np.dtype(dtype)
    shape = property(lambda self: self._shape)
    def seed(self, seed=None):
        self.draws = np.random.default_rng(seed)
class Discrete(Space):
    def __init__(self, n):
        super().__init__((), np.int64)
        self.n = np.int64(n)
    def sample(self):
        return np.int64(self.draws.integers(self.n))
    def contains(self, x):
        return isinstance(x, (int, np.integer)) and 0 <= x < self.n
class Box(Space):
    def __init__(self, low, high, shape, dtype=np.float32):
        super().__init__(shape, dtype)
        self.low, self.high = low, high
    def contains(self, x):
        fits = np.can_cast(x.dtype, self.dtype) and x.shape == self.shape
        return fits and bool(np.all((self.low <= x) & (x <= self.high)))
class MultiDiscrete(Space):
    def __init__(self, nvec):
        super().__init__((len(nvec),), np.int64)
        self.nvec = np.array(nvec)
"""
VECTOR = "from gymnasium import Env\nclass VectorEnv(Env):\n    num_envs, closed = 0, False\n"
PETTINGZOO = """
class ParallelEnv:
    metadata = {}
    num_agents = property(lambda self: len(self.agents))
    max_num_agents = property(lambda self: len(self.possible_agents))
    unwrapped = property(lambda self: self)
"""
PACKAGES = {
    "gymnasium/__init__.py": GYMNASIUM, "gymnasium/spaces.py": SPACES, "gymnasium/vector.py": VECTOR,
    "pettingzoo/__init__.py": PETTINGZOO,
}


def write_packages(folder):
    """The packages, in a folder for Python's path."""
    for name, text in PACKAGES.items():
        (folder / name).parent.mkdir(exist_ok=True)
        (folder / name).write_text(text)


def class_of(module, name):
    """A class of a package; None where that is not installed."""
    try:
        return getattr(import_module(module), name)
    except ImportError:
        return None


def check_class(value, module, name):
    """Where the package is installed, the value is of its class."""
    kind = class_of(module, name)
    assert kind is None or isinstance(value, kind), (value, kind)


def check_env(env):
    """As Gymnasium's check_env."""
    check_class(env, "gymnasium", "Env")
    for space in (env.action_space, env.observation_space):
        check_class(space, "gymnasium.spaces", "Space")
    assert env.unwrapped is env
    signature = inspect.signature(env.reset)
    assert signature.parameters["seed"].default is None and "options" in signature.parameters
    first, info = env.reset(seed=123)
    assert env.observation_space.contains(first) and first.dtype == np.float32 and isinstance(info, dict)
    draws = deepcopy(env.unwrapped._np_random)
    assert draws is not None, "reset calls super().reset(seed=seed)"
    again, _ = env.reset(seed=123)
    assert np.array_equal(first, again)
    assert env.unwrapped._np_random.bit_generator.state == draws.bit_generator.state
    env.reset(seed=456)
    assert env.unwrapped._np_random.bit_generator.state != draws.bit_generator.state
    assert isinstance(env.reset(options={})[1], dict)
    assert not hasattr(env, "seed") and env.spec is None
    env.action_space.seed(0)
    action, seen = env.action_space.sample(), []
    for _ in range(2):
        env.reset(seed=123)
        seen.append(env.step(action))
    assert np.array_equal(seen[0][0], seen[1][0]) and seen[0][1:] == seen[1][1:]
    observation, reward, terminated, truncated, info = seen[0]
    assert env.observation_space.contains(observation) and isinstance(reward, (float, int, np.floating, np.integer))
    assert isinstance(terminated, bool) and isinstance(truncated, bool) and isinstance(info, dict)
    modes = env.metadata["render_modes"]
    assert isinstance(modes, list) and env.metadata["render_fps"] > 0 and (env.render_mode or modes[0]) in modes
    assert isinstance(env.render(), str) == (env.render_mode == "ansi")
    env.close()


def check_parallel(env, cycles=30):
    """As PettingZoo's parallel_api_test."""
    check_class(env, "pettingzoo", "ParallelEnv")
    env.reset(seed=0, options={"options": 1})
    for _ in range(2):
        observations, infos = env.reset()
        assert set(env.agents) <= set(observations) and set(env.agents) <= set(infos)
        assert env.num_agents == env.max_num_agents == len(env.possible_agents) > 0
        live, finished = set(env.agents), set()
        for _ in range(cycles):
            for agent in env.agents:
                env.action_space(agent).seed(1)
            told = env.step({agent: env.action_space(agent).sample() for agent in env.agents})
            assert not finished & set(env.agents), "agents are not revived"
            assert all(isinstance(one, dict) and set(one) == live for one in told), told
            finished |= {agent for agent in live if told[2][agent] or told[3][agent]}
            live = set(env.agents)
            for agent in live:
                assert env.observation_space(agent) is env.observation_space(agent)
                assert env.action_space(agent) is env.action_space(agent)
                assert env.observation_space(agent).contains(told[0][agent])
            if not live:
                break
        assert finished == set(env.possible_agents), "no agent is left behind"
        assert env.step({}) == ({}, {}, {}, {}, {})
    env.close()


def check_seeds(make, trace):
    """As PettingZoo's parallel_seed_test: two environments give the same by a seed, and by the resets without one
    behind it; those differ from each other."""
    traces = []
    for _ in range(2):
        env = make()
        traces.append([trace(env, seed) for seed in (42, None, None)])
        env.close()
    assert traces[0] == traces[1]
    assert traces[0][1] != traces[0][2], "unseeded resets draw on"


def trace_of(env, seed, steps=12):
    """What some steps give."""
    env.reset(seed=seed)
    return [str(env.step({agent: step // 4 % 2 for agent in env.agents})) for step in range(steps)]


def trace_of_one(env, seed, steps=12):
    """As trace_of, of a single agent."""
    env.reset(seed=seed)
    return [str(env.step(step // 4 % 2)) for step in range(steps)]


def check_vector(envs, one):
    """As Gymnasium's vector environments: arrays over all, the same as of one alone, and a new run in the step after
    the last of one; one: an environment of the same kind."""
    check_class(envs, "gymnasium.vector", "VectorEnv")
    shape = (envs.num_envs, *envs.single_observation_space.shape)
    observations, infos = envs.reset(seed=7)
    assert observations.shape == envs.observation_space.shape == shape
    assert infos["seed"].tolist() == [7, 8] and infos["_seed"].all()
    alone = [one.reset(seed=8)[0]]
    told = [envs.step(np.array([0, 1])) for _ in range(10)]
    alone += [one.step(1)[0] for _ in range(10)]
    assert np.array_equal([observations[1], *(step[0][1] for step in told)], alone)
    assert [step[3].tolist() for step in told[-2:]] == [[False, False], [True, True]], "seconds are over"
    observations, rewards, terminated, truncated, infos = envs.step(np.array([1, 1]))
    assert (rewards.tolist(), terminated.any(), truncated.any()) == ([0.0, 0.0], False, False)
    assert infos["time"].tolist() == [0, 0] and not set(infos["seed"].tolist()) & {7, 8}
    first = envs.reset()[1]["seed"].tolist()
    assert len({*first, *envs.reset()[1]["seed"].tolist()}) == 4
    envs.close()
    one.close()


def main(words):
    """Checks all of them; tells what is installed."""
    sys.path.insert(0, os.path.dirname(os.path.dirname(os.path.abspath(__file__))))
    from streetsim.env import OneSignal, ParallelSignals, VectorSignals

    check_env(OneSignal(words, seconds=50))
    check_env(OneSignal(words, seconds=50, render_mode="ansi"))
    check_parallel(ParallelSignals(words, seconds=50))
    check_seeds(partial(ParallelSignals, words, seconds=100), trace_of)
    check_seeds(partial(OneSignal, words, seconds=100), trace_of_one)
    check_vector(VectorSignals(partial(OneSignal, words, seconds=50), 2), OneSignal(words, seconds=50))
    print([class_of(*one) is not None for one in (("gymnasium", "Env"), ("pettingzoo", "ParallelEnv"))])


if __name__ == "__main__":
    main(sys.argv[1:])
