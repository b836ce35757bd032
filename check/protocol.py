"""How the threads of `street_team` wait for each other, as a small model: TEAM.md has its steps beside the lines."""
from __future__ import annotations

from collections.abc import Callable
from dataclasses import replace

from search import Action, Actor, Fault, Found, Row, Search, State

CALLER = "caller"
# The signals: what a sleeper is noted to wait for.
SIGNALS = {"lent": 1, "back": 2}
# What all threads share: the signals with their numbers of sleepers, and whether the team ends.
SHARED = ["lent", "lent asleep", "back", "back asleep", "ended"]
# A task is the number of its lending, from 1; once it is worked on, so much more.
WORKED = 100
# Changes the rows of an actor, by its name.
Edit = Callable[[str, list[Row]], list[Row]]


def row(step: str, *choices: Action, label: str = "", when: str = "", until: str = "", own: bool = False) -> Row:
    return Row(step, choices, label, when, until, own)


def own_names(who: str) -> list[str]:
    """What an actor notes for itself: where it stands, which number it has seen, and whether it is to wake others."""
    return [f"{who} {what}" for what in ("at", "seen", "wakes")]


def sleepers(threads: int) -> list[str]:
    """What notes which actor sleeps, and on which signal."""
    return [f"{who} sleeps" for who in (CALLER, *(name_of(number) for number in range(threads)))]


def setting(name: str, value: int) -> Action:
    """An action that sets a number."""
    def act(state: State) -> None:
        state[name] = value
    return act


def adding(name: str, value: int) -> Action:
    """An action that adds to a number."""
    def act(state: State) -> None:
        state[name] += value
    return act


def reading(name: str, to: str) -> Action:
    """An action that notes what a number is."""
    def act(state: State) -> None:
        state[to] = state[name]
    return act


def go(label: str) -> Row:
    """Goes on at a label."""
    return row("", lambda state: label)


# ---- Signal

def going_on(signal: str, who: str, threads: int) -> list[Row]:
    """`Signal::go_on`."""
    def look(state: State) -> None:
        state[f"{who} wakes"] = int(state[f"{signal} asleep"] > 0)

    def wake(state: State) -> None:
        state[f"{who} wakes"] = 0
        for name in sleepers(threads):
            if state[name] == SIGNALS[signal]:
                state[name] = 0

    return [
        row("raise", adding(signal, 1)),
        row("look for sleepers", look),
        row("wake", wake, when=f"{who} wakes"),
    ]


def waiting(signal: str, who: str, site: str, then: str) -> list[Row]:
    """`Signal::wait`, behind which comes `then`. One look awake stands for all: in vain, it changes nothing."""
    def look(label: str) -> Action:
        return lambda state: label if state[signal] != state[f"{who} seen"] else None

    def park(state: State) -> None:
        if state[signal] == state[f"{who} seen"]:
            state[f"{who} sleeps"] = SIGNALS[signal]

    return [
        row("look awake", look(then)),
        row("be counted", adding(f"{signal} asleep", 1)),
        row("look once more", look(f"{site} up")),
        row("park", park),
        row("be counted no more", adding(f"{signal} asleep", -1), label=f"{site} up"),
        go(then),
    ]


# ---- a worker

def name_of(number: int) -> str:
    return f"thread {number}"


def worker(number: int, threads: int) -> Actor:
    """`serve`, and the `run` that it calls."""
    me = name_of(number)
    seen, count, item = (f"{me} {what}" for what in ("seen", "count", "item"))
    task, answer = f"task {number}", f"answer {number}"

    def compare(state: State) -> str | None:
        fresh, state[count] = state[count], 0
        if fresh == state[seen]:
            return None
        state[seen] = fresh
        return "run"

    def take(state: State) -> str | None:
        state[item], state[task] = state[task], 0
        return None if state[item] else "serve"

    def put(state: State) -> None:
        if state[answer]:
            raise Fault("an answer meets another in its mailbox")
        state[answer], state[item] = state[item], 0

    return Actor(me, [
        row("look at lent", reading("lent", count), label="serve"),
        row("look at ended", lambda state: "end" if state["ended"] else None),
        row("", compare),
        *waiting("lent", me, "idle", "serve"),
        row("take task", take, label="run"),
        row("work", adding(item, WORKED), own=True),
        row("put answer", put),
        *going_on("back", me, threads),
        go("serve"),
        row("", setting(f"{me} ended", 1), label="end"),
    ], [*own_names(me), *SHARED, *sleepers(threads), task, answer, count, item, f"{me} ended"])


# ---- the caller

def sending(number: int, lending: int, may_lack: bool) -> Row:
    """`send`: the task comes to its mailbox, or stays here for want of a lock or a block."""
    task, out = f"task {number}", f"out {number}"

    def put(state: State) -> None:
        if state[task]:
            raise Fault("a task meets another in its mailbox")
        state[task], state[out] = lending, 1

    return row("put task", put, *([setting(out, 0)] if may_lack else []))


def receiving(number: int, lending: int) -> list[Row]:
    """`receive`, where a task was sent."""
    answer, out, site = f"answer {number}", f"out {number}", f"receive {lending}.{number}"

    def begin(state: State) -> str | None:
        return None if state[out] else f"{site} done"

    def take(state: State) -> str | None:
        found, state[answer] = state[answer], 0
        if not found:
            return None
        if found == lending:
            raise Fault("the caller reads items that were not worked on")
        if found != lending + WORKED:
            return f"{site} again"
        state[out] = state[f"{CALLER} seen"] = 0
        return f"{site} done"

    return [
        row("", begin),
        row("look at back", reading("back", f"{CALLER} seen"), label=f"{site} again"),
        row("take answer", take),
        *waiting("back", CALLER, site, f"{site} again"),
        row("", lambda state: None, label=f"{site} done"),
    ]


def lending_rows(lending: int, threads: int, may_lack: bool) -> list[Row]:
    """`lend_to`: a task for each thread, the last first, then the signal, and then the answers."""
    def all_back(state: State) -> None:
        if any(state[f"out {number}"] for number in range(threads)):
            raise Fault("the caller goes on while a task is out")

    return [
        *(sending(number, lending, may_lack) for number in reversed(range(threads))),
        *going_on("lent", CALLER, threads),
        *(one for number in range(threads) for one in receiving(number, lending)),
        row("", all_back),
    ]


def caller(threads: int, lendings: int, may_lack: bool) -> Actor:
    """So many lendings to all threads, then `end` and `join_workers`."""
    mailboxes = [f"{what} {number}" for number in range(threads) for what in ("task", "answer", "out")]
    ended = [f"{name_of(number)} ended" for number in range(threads)]
    return Actor(CALLER, [
        *(one for lending in range(1, lendings + 1) for one in lending_rows(lending, threads, may_lack)),
        row("end", setting("ended", 1)),
        *going_on("lent", CALLER, threads),
        *(row("join", lambda state: None, until=f"{name_of(number)} ended") for number in range(threads)),
    ], [*own_names(CALLER), *SHARED, *sleepers(threads), *mailboxes, *ended])


# ---- all together

def first_state(actors: list[Actor]) -> State:
    """Nothing is lent, and nobody sleeps."""
    return dict.fromkeys([name for actor in actors for name in actor.sees], 0)


def searched(threads: int, lendings: int, may_lack: bool = False, edit: Edit | None = None) -> Found:
    """Every order of a team's steps: so many threads and lendings; with `may_lack` tasks may stay with the caller."""
    actors = [caller(threads, lendings, may_lack), *(worker(number, threads) for number in range(threads))]
    if edit:
        actors = [replace(actor, rows=edit(actor.name, actor.rows)) for actor in actors]
    return Search(actors, first_state(actors)).run()
