"""What Gymnasium and PettingZoo have environments be: their own classes where they are installed, else small ones of
the same names that do the same."""
from __future__ import annotations

from collections.abc import Mapping, Sequence
from importlib import import_module
from typing import TYPE_CHECKING, Any, Self, TypeVar

from streetsim.base.arrays import Array, numpy as np

Draws = Any  # NumPy's generator
Plain = TypeVar("Plain")


class PlainDiscrete:
    """A space of numbers from 0 to below n."""

    def __init__(self, n: int, seed: int | None = None) -> None:
        """n: how many; seed: of sample."""
        self.n, self.shape, self.dtype = n, (), np.int64
        self.seed(seed)

    def seed(self, seed: int | None = None) -> None:
        """Begins the draws of sample anew."""
        self.draws = np.random.default_rng(seed)

    def sample(self) -> int:
        """A number that is drawn."""
        return int(self.draws.integers(self.n))

    def contains(self, value: object) -> bool:
        """Whether a value is a number of the space."""
        return isinstance(value, (int, np.integer)) and 0 <= int(value) < self.n


class PlainBox:
    """A space of arrays of numbers from low to high."""

    def __init__(self, low: float, high: float, shape: tuple[int, ...], dtype: type | None = None) -> None:
        """shape: of the arrays; dtype: of their numbers, None: NumPy's float32."""
        dtype = np.float32 if dtype is None else dtype
        self.low, self.high = np.full(shape, low, dtype), np.full(shape, high, dtype)
        self.shape, self.dtype = shape, dtype
        self.seed(None)

    def seed(self, seed: int | None = None) -> None:
        """Begins the draws of sample anew."""
        self.draws = np.random.default_rng(seed)

    def sample(self) -> Array:
        """An array that is drawn."""
        return self.draws.uniform(self.low, self.high).astype(self.dtype)

    def contains(self, value: Array) -> bool:
        """Whether a value is an array of the space."""
        return np.shape(value) == self.shape and bool(np.all((self.low <= value) & (value <= self.high)))


class PlainMultiDiscrete(PlainBox):
    """A space of arrays of whole numbers, each from 0 to below its own bound."""

    def __init__(self, nvec: Sequence[int]) -> None:
        """nvec: the bounds."""
        self.nvec = np.array(nvec, np.int64)
        super().__init__(0, 0, self.nvec.shape, np.int64)
        self.high = self.nvec - 1

    def sample(self) -> Array:
        """An array that is drawn."""
        return self.draws.integers(self.nvec)


class PlainEnv:
    """As Gymnasium's Env: draws that a seeded reset begins anew, and a block that closes it."""

    metadata: Mapping[str, object] = {"render_modes": []}
    render_mode: str | None = None
    spec = None
    _np_random: Draws = None

    @property
    def np_random(self) -> Draws:
        """NumPy's generator of what is drawn; of a seed that nobody knows before a seeded reset."""
        if self._np_random is None:
            self._np_random = np.random.default_rng()
        return self._np_random

    @np_random.setter
    def np_random(self, draws: Draws) -> None:
        """Takes another generator."""
        self._np_random = draws

    def reset(self, *, seed: int | None = None, options: object = None) -> Any:
        """Begins the draws anew where a seed is given."""
        if seed is not None:
            self._np_random = np.random.default_rng(seed)

    @property
    def unwrapped(self) -> Self:
        """The environment itself."""
        return self

    def close(self) -> None:
        """Ends what is under way."""

    def __enter__(self) -> Self:
        """Gives the environment."""
        return self

    def __exit__(self, *_: object) -> None:
        """Closes it."""
        self.close()


class PlainParallelEnv:
    """As PettingZoo's ParallelEnv."""

    metadata: Mapping[str, object] = {}
    agents: list[str]
    possible_agents: list[str]

    @property
    def num_agents(self) -> int:
        """How many agents there are at this time."""
        return len(self.agents)

    @property
    def max_num_agents(self) -> int:
        """How many agents there may be."""
        return len(self.possible_agents)

    @property
    def unwrapped(self) -> Self:
        """The environment itself."""
        return self


def installed(module: str, name: str, plain: Plain) -> Plain:
    """What a module has by a name; plain where it is not installed, or has none."""
    try:
        return getattr(import_module(module), name, plain)
    except ImportError:
        return plain


if TYPE_CHECKING:
    Env = PlainEnv
    ParallelEnv = PlainParallelEnv
    VectorEnv = PlainEnv
else:
    Env = installed("gymnasium", "Env", PlainEnv)
    ParallelEnv = installed("pettingzoo", "ParallelEnv", PlainParallelEnv)
    VectorEnv = installed("gymnasium.vector", "VectorEnv", PlainEnv)
Box = installed("gymnasium.spaces", "Box", PlainBox)
Discrete = installed("gymnasium.spaces", "Discrete", PlainDiscrete)
MultiDiscrete = installed("gymnasium.spaces", "MultiDiscrete", PlainMultiDiscrete)
# A new run begins in the step after the last one of a run, as Gymnasium's vector environments name it.
NEXT_STEP = getattr(installed("gymnasium.vector", "AutoresetMode", None), "NEXT_STEP", "NextStep")


def shares_space(*shape: int) -> PlainBox:
    """The space of arrays of a shape whose numbers are 0 to 1."""
    return Box(0.0, 1.0, shape, np.float32)
