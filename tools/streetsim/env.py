"""An environment for learning signal control: many junctions, phases as actions, exact resets.

It has the form that the field uses: `reset` gives observations, `step` takes an action for each light and gives
observations, rewards, whether the run is over, whether its time is, and further figures; all by the names of lights. No
library of learning is needed for it."""
from __future__ import annotations

from collections.abc import Callable, Collection, Mapping, Sequence
from dataclasses import dataclass, field
from itertools import accumulate
from multiprocessing import get_context
from multiprocessing.connection import Connection

from streetsim.base import limits
from streetsim.base.arrays import Array, numpy as np
from streetsim.simulation.conventions import (
    NEXT_STEP, Discrete, Draws, Env, MultiDiscrete, ParallelEnv, PlainBox, PlainDiscrete, VectorEnv, shares_space,
)  # fmt: skip
from streetsim.simulation.lights import LightShow
from streetsim.simulation.opening import is_on, open_session
from streetsim.simulation.options import read_options
from streetsim.simulation.session import TraciSession

GREEN = "Gg"
RENDER_MODES = ["ansi"]
RENDERED: Mapping[str, object] = {"render_modes": RENDER_MODES, "render_fps": 1}
Observation = list[float]


@dataclass(slots=True)
class LightAgent:
    """A light: the greens that can be chosen, and what it shows."""

    greens: list[str]  # states, in the order of its program
    lanes: list[str]  # that lead to it
    chosen: int = 0  # the number of the green that it shows, or changes to
    since: int = 0  # seconds since it was changed
    waited: float = 0.0  # hundreds of seconds, by those before it, at the last reward
    links: list[tuple[str, str]] = field(default_factory=list)  # by index: lane and next lane


class SignalEnv:
    """Lights of a network as agents that choose their phases. words: of SUMO's command line without its name, as
    `traci.start` takes them; controlled: the names of these lights, None: all that have two greens or more. The others
    follow their programs, also by detectors.

    An action is the number of a green phase. Where it differs from the present one, and the light was not changed for
    `least` seconds (those of yellow count), yellow is shown for `yellow` seconds first. A step has `every` seconds;
    after `seconds` of the run its time is over. An observation of a light: for each green phase 1 if it is shown, else
    0; then 1 if the light may be changed, else 0; then for each lane before it the share (0 to 1) of its room that
    vehicles take, and for each the share that standing vehicles take. A reward is by how much the time that the
    vehicles before the light have waited in all has fallen since the last reward, in hundreds of seconds. Calls that
    need the run's present state raise ValueError where none is under way: before the first reset, or after close."""

    def __init__(
        self, words: Sequence[str], every: int = 5, yellow: int = 3, least: int = 5, seconds: int = 3600,
        controlled: Collection[str] | None = None,
    ) -> None:  # fmt: skip
        """ValueError where yellow is not from 1 to below every, least is below 0, or the run is shorter than a step."""
        if not 0 < yellow < every or least < 0 or seconds < every:
            raise ValueError("a step must be longer than yellow, and the run at least one step")
        self.run_words, self.seconds = list(words), seconds
        self.every, self.yellow, self.least_green = every, yellow, least
        self.controlled = controlled
        self.session: TraciSession | None = None
        self.draws, self.seed = np.random.default_rng(self.seed_of_words()), 0  # of seeds of runs; that of the last run
        self.agents: dict[str, LightAgent] = {}

    def seed_of_words(self) -> int | None:
        """The seed that the words name; None where they name none, or have it drawn."""
        options = read_options(self.run_words)
        return int(options["seed"]) if "seed" in options and not is_on(options.get("random", "false")) else None

    @property
    def lights(self) -> list[str]:
        """The names of the lights; empty before the first reset."""
        return list(self.agents)

    def actions(self, light: str) -> int:
        """How many green phases a light has: actions are numbers from 0 to below that. KeyError if not of `lights`."""
        return len(self.agents[light].greens)

    def reset(self, seed: int | None = None) -> tuple[dict[str, Observation], dict]:
        """Begins the run anew, in which each light of `lights` shows its first green phase until an action changes it.
        Equal seeds give equal runs. Without one the seed is drawn, by what the last one that was given has begun, and
        before any by the seed of the words, where they name one. Gives ({light: observation}, figures). FatalTraCIError
        or Fault if it fails, KeyError where the network lacks one of `controlled`, ValueError where one of these has a
        single green."""
        self.close()
        if seed is not None:
            self.draws = np.random.default_rng(seed)
        self.seed = drawn_from(self.draws) if seed is None else int(seed)
        self.session = open_session([*self.run_words, "--random", "false", "--seed", str(self.seed)])
        self.begin, self.end_count = self.session.clock, 0
        lights = self.session.control.lights
        names = sorted(lights if self.controlled is None else self.controlled)
        agents = {name: agent_of(lights[name]) for name in names}
        single = [name for name, agent in agents.items() if len(agent.greens) < 2]
        if single and self.controlled is not None:
            self.close()
            raise ValueError(f"light {single[0]!r} has a single green: there is nothing to choose")
        self.agents = {name: agent for name, agent in agents.items() if name not in single}
        self.note_lanes()
        for name, agent in self.agents.items():
            self.session.control.hold(name, agent.greens[0])
        return self.observations(), self.figures()

    def step(self, actions: Mapping[str, int]) -> tuple[dict[str, Observation], dict[str, float], bool, bool, dict]:
        """Makes a step of every seconds. actions: {light: number of a green phase}; a light that is not named, or was
        changed or reset less than least seconds ago, stays as it is. Gives ({light: observation}, {light: reward},
        whether no vehicle is left, whether the time is over, figures). ValueError for a phase that a light does not
        have, KeyError for an unknown light; no light is changed then."""
        session = self.running_session()
        for name, action in actions.items():
            if action not in range(self.actions(name)):
                raise ValueError(f"light {name!r} has no green phase {action}")
        changed = [name for name, action in actions.items() if self.begin_change(name, action)]
        if changed:
            self.go_on(self.yellow)
            for name in changed:
                session.control.hold(name, self.agents[name].greens[self.agents[name].chosen])
        self.go_on(self.every - self.yellow if changed else self.every)
        for agent in self.agents.values():
            agent.since += self.every
        over = session.clock - self.begin >= self.seconds
        return self.observations(), self.take_rewards(), not self.has_vehicles_left(), over, self.figures()

    def go_on(self, seconds: int) -> None:
        """Makes the steps of so many seconds."""
        session = self.running_session()
        session.step(session.clock + seconds)
        self.end_count += len(session.arrived)

    def begin_change(self, name: str, action: int) -> bool:
        """Shows yellow where a light is to change and may, and notes the new phase; gives whether it changes."""
        agent = self.agents[name]
        if action == agent.chosen or agent.since < self.least_green:
            return False
        pairs = zip(agent.greens[agent.chosen], agent.greens[action], strict=True)
        yellow = "".join("y" if old in GREEN and new not in GREEN else old for old, new in pairs)
        self.running_session().control.hold(name, yellow)
        agent.chosen, agent.since = action, 0
        return True

    def observations(self) -> dict[str, Observation]:
        """{light: its observation, as SignalEnv describes it}."""
        columns, slots = self.running_session().lane_columns, self.slots
        occupied = self.shares_taken(columns.occupied_cells(slots))
        queued = self.shares_taken(columns.queued_cells(slots))
        by_light = {}
        for name, agent in self.agents.items():
            lanes = self.lanes_of_light[name]
            chosen = [float(index == agent.chosen) for index in range(len(agent.greens))]
            by_light[name] = [*chosen, float(agent.since >= self.least_green), *occupied[lanes], *queued[lanes]]
        return by_light

    def shares_taken(self, cells: Array) -> list[float]:
        """The share, 0 to 1, of each lane before the lights that some cells of it are; 0 of lanes that are not
        there."""
        return np.minimum(1.0, cells * limits.CELL_METRES / self.metres * self.is_imported).tolist()

    def take_rewards(self) -> dict[str, float]:
        """The rewards, in hundreds of seconds, by light; notes what the next ones are reckoned from (waited)."""
        waited, rewards = (self.running_session().lane_columns.waited(self.slots) * self.is_imported).tolist(), {}
        for name, agent in self.agents.items():
            waited_before, agent.waited = agent.waited, sum(waited[self.lanes_of_light[name]]) / 100
            rewards[name] = waited_before - agent.waited
        return rewards

    def note_lanes(self) -> None:
        """Notes the lanes before the lights, light by light: slots, metres, which are there, and the place of each
        light's among them."""
        session = self.running_session()
        lanes = [lane for agent in self.agents.values() for lane in agent.lanes]
        link_lanes = [session.lane_of.get(lane) for lane in lanes]
        self.slots = np.array([2 * place[0] + place[1] if place else 0 for place in link_lanes], np.int64)
        self.is_imported = np.array([link_lane is not None for link_lane in link_lanes], np.int64)
        self.metres = np.array([session.facts.lanes[lane].metres for lane in lanes])
        ends = [0, *accumulate(len(agent.lanes) for agent in self.agents.values())]
        self.lanes_of_light = {name: slice(*ends[index : index + 2]) for index, name in enumerate(self.agents)}

    def pressure(self, name: str, action: int) -> int:
        """How many vehicles stand on the lanes from which a green phase (action) lets drive, less those on the lanes to
        which it leads, a lane counted for each of its connections; max-pressure chooses the phase with the greatest."""
        agent = self.agents[name]
        open_to = [link for state, link in zip(agent.greens[action], agent.links, strict=True) if state in GREEN]
        queue = {lane: len(self.standing_on(lane)) for lane in {lane for link in open_to for lane in link}}
        return sum(queue[lane] - queue[behind] for lane, behind in open_to)

    def vehicles_on(self, lane: str) -> list[int]:
        """The numbers of the vehicles on a lane, from the stop line; empty where the import has no such lane."""
        session = self.running_session()
        return session.view.on_lane(session.lane_of[lane]) if lane in session.lane_of else []

    def standing_on(self, lane: str) -> list[int]:
        """The numbers of the vehicles that stand on a lane, from the stop line."""
        positions = self.running_session().view.positions
        return [number for number in self.vehicles_on(lane) if not positions[number].speed]

    def figures(self) -> dict:
        """{"time": clock in seconds, "vehicles": on the road, "standing": of these, "arrived": since the reset, "seed":
        of the run}."""
        clock, view = self.running_session().clock, self.running_session().view
        standing = len(view.speed) - int(np.count_nonzero(view.speed))
        return {
            "time": clock, "vehicles": len(view.numbers), "standing": standing, "arrived": self.end_count,
            "seed": self.seed,
        }  # fmt: skip

    def text(self) -> str:
        """A line with the figures of the run, and one for each light: what it shows, and who stands before it."""
        session = self.running_session()
        lines = [", ".join(f"{name} {value}" for name, value in self.figures().items())]
        for name, agent in self.agents.items():
            standing = sum(len(self.standing_on(lane)) for lane in agent.lanes)
            lines.append(f"{name}: {session.control.state(name)}, {standing} stand before it")
        return "\n".join(lines)

    def has_vehicles_left(self) -> bool:
        """Whether any vehicle is on the road or is still to depart."""
        return self.running_session().count_not_ended() > 0

    def running_session(self) -> TraciSession:
        """The session; ValueError where none is under way: before the first reset, or after close."""
        if self.session is None:
            raise ValueError("reset() begins a run")
        return self.session

    def close(self) -> None:
        """Ends the run; nothing where none is under way."""
        if self.session is not None:
            self.session.finish()
            self.session = None

    def __enter__(self) -> SignalEnv:
        """Gives the environment itself; a run begins with reset."""
        return self

    def __exit__(self, *_: object) -> None:
        """Ends the run, where one is under way."""
        self.close()


def agent_of(light: LightShow) -> LightAgent:
    """A light as an agent has it; its greens are the states of its phases with green and without yellow, each once, or
    the first phase's state where there are none."""
    links = [(link[0], link[1]) if link else ("", "") for link in light.links]
    states = dict.fromkeys(state for _, state in light.phases)
    greens = [state for state in states if set(state) & set(GREEN) and "y" not in state.lower()]
    lanes = [lane for lane in dict.fromkeys(lane for lane, _ in links) if lane]
    return LightAgent(greens or [light.phases[0][1]], lanes, links=links)


class ParallelSignals(ParallelEnv):
    """SignalEnv by the conventions of PettingZoo's parallel environments, whose ParallelEnv it is where that is
    installed: agents are the names of lights, observations arrays, and what is over is told by agent. The run that
    tells spaces and agents is that of the words' own seed."""

    metadata: Mapping[str, object] = {"name": "streetsim_signals_v0", **RENDERED}

    def __init__(
        self, run_words: Sequence[str], render_mode: str | None = None, controlled: Collection[str] | None = None,
        **settings: int,
    ) -> None:  # fmt: skip
        """run_words, controlled, settings: as SignalEnv takes them; render_mode: "ansi", by which render gives a text,
        or None. Begins a run, and raises what reset raises; ValueError for another render_mode."""
        self.render_mode = checked_mode(render_mode)
        self.env = SignalEnv(run_words, controlled=controlled, **settings)
        observations, _ = self.env.reset(self.env.seed_of_words())
        self.possible_agents = self.env.lights
        self.agents: list[str] = []
        self.observation_spaces = {name: shares_space(len(values)) for name, values in observations.items()}
        self.action_spaces = {name: Discrete(self.env.actions(name)) for name in observations}

    def observation_space(self, agent: str) -> PlainBox:
        """The space of an agent's observations."""
        return self.observation_spaces[agent]

    def action_space(self, agent: str) -> PlainDiscrete:
        """The space of an agent's actions."""
        return self.action_spaces[agent]

    def reset(self, seed: int | None = None, options: object = None) -> tuple[dict[str, Array], dict[str, dict]]:
        """Begins a run; gives ({agent: observation}, {agent: figures}). options have no effect."""
        observations, figures = self.env.reset(seed)
        self.agents = list(self.possible_agents)
        return arrays_of(observations), {name: figures for name in self.agents}

    def step(
        self, actions: Mapping[str, int]
    ) -> tuple[dict[str, Array], dict[str, float], dict[str, bool], dict[str, bool], dict[str, dict]]:
        """Makes a step; gives by agent observations, rewards, whether no vehicle is left (terminated), whether the time
        is over (truncated), and figures. Agents are none any more when the run is over, and all is empty then."""
        if not self.agents:
            return {}, {}, {}, {}, {}
        observations, rewards, ended, over, figures = self.env.step(actions)
        agents = self.agents
        self.agents = [] if ended or over else agents
        terminated, truncated = dict.fromkeys(agents, ended), dict.fromkeys(agents, over)
        return arrays_of(observations), rewards, terminated, truncated, {name: figures for name in agents}

    def render(self) -> str | None:
        """With the mode "ansi" a line on the run and one for each light; else None."""
        return self.env.text() if self.render_mode else None

    def close(self) -> None:
        """Ends the run."""
        self.env.close()


class OneSignal(Env):
    """SignalEnv of one light by the conventions of Gymnasium's Env, which it is where that is installed."""

    metadata: Mapping[str, object] = RENDERED

    def __init__(
        self, run_words: Sequence[str], light: str | None = None, render_mode: str | None = None, **settings: int
    ) -> None:  # fmt: skip
        """light: its name; None: the only one that has two greens. Others as of ParallelSignals. ValueError where there
        are none or several; raises what reset raises."""
        controlled = None if light is None else [light]
        self.parallel = ParallelSignals(run_words, render_mode, controlled, **settings)
        if len(self.parallel.possible_agents) != 1:
            self.parallel.close()
            raise ValueError(f"{len(self.parallel.possible_agents)} lights have two greens: name one (light=)")
        [self.light] = self.parallel.possible_agents
        self.render_mode = render_mode
        self.observation_space = self.parallel.observation_space(self.light)
        self.action_space = self.parallel.action_space(self.light)

    def reset(self, *, seed: int | None = None, options: object = None) -> tuple[Array, dict]:
        """Begins a run; gives (observation, figures). options have no effect."""
        super().reset(seed=seed)
        if seed is None and self._np_random is None:
            self.np_random = self.parallel.env.draws
        observations, figures = self.parallel.reset(drawn_from(self.np_random) if seed is None else seed)
        return observations[self.light], figures[self.light]

    def step(self, action: int) -> tuple[Array, float, bool, bool, dict]:
        """Makes a step; gives (observation, reward, whether no vehicle is left, whether the time is over, figures)."""
        observations, rewards, terminated, truncated, figures = self.parallel.env.step({self.light: int(action)})
        return arrays_of(observations)[self.light], rewards[self.light], terminated, truncated, figures

    def render(self) -> str | None:
        """As of ParallelSignals."""
        return self.parallel.render()

    def close(self) -> None:
        """Ends the run."""
        self.parallel.close()


def checked_mode(render_mode: str | None) -> str | None:
    """A render_mode; ValueError where it is none of RENDER_MODES."""
    if render_mode not in (None, *RENDER_MODES):
        raise ValueError(f"render_mode {render_mode!r}: there is 'ansi'; streetsim-live shows runs")
    return render_mode


def drawn_from(draws: Draws) -> int:
    """A seed of a run, of NumPy's generator."""
    return int(draws.integers(1 << 31))


def arrays_of(observations: Mapping[str, Observation]) -> dict[str, Array]:
    """Observations as arrays."""
    return {name: np.array(observation, np.float32) for name, observation in observations.items()}


class SideBySide:
    """Environments of one kind side by side, each in a process of its own; `call` has all do something at once."""

    def __init__(self, make: Callable[[], object], count: int) -> None:
        """make: makes one of them; count: how many."""
        context = get_context("fork")
        pipes = [context.Pipe() for _ in range(count)]
        self.ends = [parent_end for parent_end, _ in pipes]
        ends = [end for pipe in pipes for end in pipe]
        self.processes = [context.Process(target=serve_environment, args=(make, end, ends)) for _, end in pipes]
        for process, (_, child_end) in zip(self.processes, pipes, strict=True):
            process.start()
            child_end.close()

    def call(self, method: str, words: Sequence[tuple]) -> list:
        """What a method of each gives, with words for each; the first exception of one is raised here."""
        return self.call_each([(method, arguments, {}) for arguments in words])

    def call_each(self, calls: Sequence[tuple[str, tuple, dict]]) -> list:
        """As `call`, of a method of each, with words and words by name."""
        for end, call in zip(self.ends, calls, strict=True):
            end.send(call)
        results = [end.recv() for end in self.ends]
        for result in results:
            if isinstance(result, Exception):
                raise result
        return results

    def reset(self, seeds: Sequence[int | None]) -> list:
        """What reset of each gives, by its seed."""
        return self.call_each([("reset", (), {"seed": seed}) for seed in seeds])

    def step(self, actions: Sequence[object]) -> list:
        """What step of each gives, by its actions."""
        return self.call("step", [(action,) for action in actions])

    def close(self) -> None:
        """Ends all runs and processes."""
        for end in self.ends:
            end.send(None)
            end.close()
        for process in self.processes:
            process.join()

    def __enter__(self) -> SideBySide:
        """Gives the environments."""
        return self

    def __exit__(self, *_: object) -> None:
        """Ends all."""
        self.close()


class VectorSignals(VectorEnv):
    """Environments of one light each, side by side, by the conventions of Gymnasium's vector environments, whose
    VectorEnv it is where that is installed: all is told as arrays over the environments. Where a run is over, the next
    step begins another one, whatever its action (NEXT_STEP)."""

    metadata: Mapping[str, object] = {"render_modes": [], "autoreset_mode": NEXT_STEP}
    render_mode, closed = None, False

    def __init__(self, make: Callable[[], OneSignal], num_envs: int) -> None:
        """make: makes one of them; num_envs: how many."""
        self.num_envs, self.is_over = num_envs, np.zeros(num_envs, bool)
        with make() as env:
            self.single_observation_space, self.single_action_space = env.observation_space, env.action_space
        self.observation_space = shares_space(num_envs, *self.single_observation_space.shape)
        self.action_space = MultiDiscrete([self.single_action_space.n] * num_envs)
        self.side_by_side = SideBySide(make, num_envs)

    def reset(
        self, *, seed: int | Sequence[int | None] | None = None, options: object = None
    ) -> tuple[Array, dict[str, Array]]:
        """Begins all runs, by a seed for each, or by one number and those that follow it, or by seeds that are drawn;
        gives (observations, figures). options have no effect."""
        if isinstance(seed, (int, np.integer)):
            self.np_random = np.random.default_rng(int(seed))
            seed = [int(seed) + place for place in range(self.num_envs)]
        given: Sequence[int | None] = [None] * self.num_envs if seed is None else seed
        seeds = [drawn_from(self.np_random) if one is None else one for one in given]
        self.is_over[:] = False
        results = self.side_by_side.reset(seeds)
        return np.stack([observation for observation, _ in results]), joined_figures([told for _, told in results])

    def step(self, actions: Sequence[int]) -> tuple[Array, Array, Array, Array, dict[str, Array]]:
        """Makes a step of each; gives (observations, rewards, whether no vehicle is left, whether the time is over,
        figures)."""
        calls: list[tuple[str, tuple, dict]] = [
            ("reset", (), {}) if over else ("step", (int(action),), {})
            for action, over in zip(actions, self.is_over.tolist(), strict=True)
        ]
        results = [
            (told[0], 0.0, False, False, told[1]) if len(told) == 2 else told
            for told in self.side_by_side.call_each(calls)
        ]
        observations, rewards, terminated, truncated, figures = zip(*results)
        ends = np.array(terminated, bool), np.array(truncated, bool)
        self.is_over = ends[0] | ends[1]
        return np.stack(observations), np.array(rewards), *ends, joined_figures(figures)

    def close(self, **_: object) -> None:
        """Ends all runs and processes; nothing where that is done."""
        if not self.closed:
            self.closed = True
            self.side_by_side.close()


def joined_figures(figures: Sequence[Mapping[str, object]]) -> dict[str, Array]:
    """Figures of several environments as Gymnasium joins them: by name an array, and by _name which have it."""
    joined = {name: np.array([one[name] for one in figures]) for name in figures[0]}
    return joined | {f"_{name}": np.ones(len(figures), bool) for name in joined}


def serve_environment(make: Callable[[], object], end: Connection, ends: Sequence[Connection]) -> None:
    """Makes an environment and does what comes through a pipe, until None comes or it is closed. ends: of the pipes of
    all, which this process has too: they are closed, as a pipe else stays open when the process before it ends."""
    for other in ends:
        if other is not end:
            other.close()
    env = make()
    try:
        while (call := end.recv()) is not None:
            try:
                end.send(getattr(env, call[0])(*call[1], **call[2]))
            except Exception as fault:  # noqa: BLE001  which is the caller's
                end.send(fault)
    except (EOFError, OSError):
        pass  # who asked has ended
    finally:
        env.close()  # type: ignore[attr-defined]
