"""Exhaustive search: every order in which the steps of some actors may come.

A state is small numbers with names. An actor is a list of rows, and where it stands is one of the numbers. A step is
what no other actor can come between.
"""
from __future__ import annotations

from array import array
from collections.abc import Callable, Iterator
from dataclasses import dataclass, field
from operator import itemgetter

State = dict[str, int]
# Changes the numbers; gives the label of the row that comes next, or none for the row below.
Action = Callable[[State], "str | None"]
# A step by its name, whether it comes for no reason, and the numbers that it changes, by their places.
Move = tuple[str, bool, list[tuple[int, int]]]


class Fault(Exception):
    """What must not come did."""


@dataclass(frozen=True)
class Row:
    """A step of an actor, by its name; without a name, or where it is its `own`, one that nobody else sees: it is made
    with the step before it.

    Of several choices any may come. A row is left out while its number `when` is 0, and waits while `until` is 0.
    """

    step: str
    choices: tuple[Action, ...]
    label: str = ""
    when: str = ""
    until: str = ""
    own: bool = False


@dataclass(frozen=True)
class Actor:
    """Rows that are made from the first on; behind the last the actor has ended. While its number `sleeps` is not 0 it
    makes no step. `sees` are the numbers that its rows read or change, beside its own."""

    name: str
    rows: list[Row]
    sees: list[str]

    @property
    def at(self) -> str:
        return f"{self.name} at"

    @property
    def sleeps(self) -> str:
        return f"{self.name} sleeps"

    def place(self, label: str) -> int:
        return next(at for at, row in enumerate(self.rows) if row.label == label)

    def settle(self, state: State) -> State:
        """The state once it has made the rows that nobody else sees."""
        while state[self.at] < len(self.rows):
            row = self.rows[state[self.at]]
            if row.when and not state[row.when]:
                state[self.at] += 1
            elif row.step and not row.own:
                break
            else:
                self.act(state, row.choices[0])
        return state

    def act(self, state: State, action: Action) -> None:
        """Makes an action, and goes to the row that comes next."""
        label = action(state)
        state[self.at] = state[self.at] + 1 if label is None else self.place(label)

    def steps(self, state: State) -> Iterator[tuple[str, bool, State]]:
        """Each step that it can make now, whether it comes for no reason, and the state after it.

        A sleeper may also wake for no reason. Nobody may count on that, so it saves no state from being stuck.
        """
        if state[self.at] == len(self.rows):
            return
        row = self.rows[state[self.at]]
        if state[self.sleeps]:
            yield "wakes for no reason", True, {**state, self.sleeps: 0}
        elif not row.until or state[row.until]:
            for choice in row.choices:
                after = state.copy()
                self.act(after, choice)
                yield row.step, False, self.settle(after)


@dataclass
class Found:
    """How many states there are, what is wrong, or nothing, and the steps of a shortest way there."""

    states: int = 0
    fault: str = ""
    trace: list[str] = field(default_factory=list)


class View:
    """What an actor sees of the states, and its steps for each view that came."""

    def __init__(self, actor: Actor, places: dict[str, int]) -> None:
        self.actor = actor
        self.names = actor.sees
        self.places = [places[name] for name in actor.sees]
        self.of = itemgetter(*self.places)
        self.known: dict[tuple[int, ...], list[Move]] = {}

    def moves(self, state: bytes) -> list[Move]:
        seen = self.of(state)
        found = self.known.get(seen)
        if found is None:
            found = self.known[seen] = [
                (step, idle, self.changes(seen, after))
                for step, idle, after in self.actor.steps(dict(zip(self.names, seen)))
            ]
        return found

    def changes(self, seen: tuple[int, ...], after: State) -> list[tuple[int, int]]:
        told = zip(self.places, seen, after.values())
        return [(place, new) for place, old, new in told if new != old]


class Search:
    """All states that are reached from a first one, breadth first."""

    def __init__(self, actors: list[Actor], first: State) -> None:
        for actor in actors:
            actor.settle(first)
        places = {name: place for place, name in enumerate(first)}
        self.views = [View(actor, places) for actor in actors]
        self.ends = [(places[actor.at], len(actor.rows)) for actor in actors]
        self.sleeps = [places[actor.sleeps] for actor in actors]
        self.states = [bytes(first.values())]
        self.number = {self.states[0]: 0}
        # The state from which each was reached first.
        self.came = array("I", [0])
        # Where the steps of each state lead, without wakings for no reason, and where those of each begin.
        self.goals, self.begins = array("I"), array("I")

    def run(self) -> Found:
        """Looks at every state: whether all comes to its end from there, whatever the order."""
        try:
            while len(self.begins) < len(self.states):
                self.look_at(len(self.begins))
        except Fault as fault:
            return Found(len(self.states), str(fault), self.trace(len(self.begins) - 1))
        return Found(len(self.states), "steps go round without end" if self.goes_round() else "")

    def look_at(self, number: int) -> None:
        """Notes each state that one step leads to."""
        state, begin = self.states[number], len(self.goals)
        self.begins.append(begin)
        for view in self.views:
            for _, idle, changes in view.moves(state):
                goal = self.note(changed(state, changes), number)
                if not idle:
                    self.goals.append(goal)
        if len(self.goals) == begin and any(state[place] != end for place, end in self.ends):
            raise Fault(f"stuck: {', '.join(self.standing(state))}")

    def note(self, state: bytes, before: int) -> int:
        """The number of a state; a new one comes behind the others."""
        number = self.number.setdefault(state, len(self.states))
        if number == len(self.states):
            self.states.append(state)
            self.came.append(before)
        return number

    def standing(self, state: bytes) -> Iterator[str]:
        """How it stands with each actor, in words."""
        for view, (place, end), sleeps in zip(self.views, self.ends, self.sleeps):
            how = "has ended" if state[place] == end else "sleeps" if state[sleeps] else "waits"
            yield f"{view.actor.name} {how}"

    def trace(self, number: int) -> list[str]:
        """The steps of a shortest way to a state."""
        told: list[str] = []
        while number:
            told.append(self.step_to(number))
            number = self.came[number]
        return told[::-1]

    def step_to(self, number: int) -> str:
        """The step by which a state was reached first."""
        before, goal = self.states[self.came[number]], self.states[number]
        return next(
            f"{view.actor.name}: {step}"
            for view in self.views
            for step, _, changes in view.moves(before)
            if changed(before, changes) == goal
        )

    def goes_round(self) -> bool:
        """Whether some steps come back to where they began, so that a run need not end."""
        entries = array("I", bytes(4 * len(self.states)))
        for goal in self.goals:
            entries[goal] += 1
        left = [number for number, count in enumerate(entries) if count == 0]
        ends = [*self.begins[1:], len(self.goals)]
        for number in left:
            for goal in self.goals[self.begins[number]:ends[number]]:
                entries[goal] -= 1
                if entries[goal] == 0:
                    left.append(goal)
        return len(left) < len(self.states)


def changed(state: bytes, changes: list[tuple[int, int]]) -> bytes:
    """A state with some of its numbers changed."""
    after = bytearray(state)
    for place, value in changes:
        after[place] = value
    return bytes(after)
