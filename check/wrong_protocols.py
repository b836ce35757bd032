"""Wrong protocols of a team, each one change of the model: the search finds what is wrong with each."""
from __future__ import annotations

from dataclasses import replace

from search import Row, State
from protocol import CALLER, SIGNALS, Edit, reading

SIGNAL = ("raise", "look for sleepers", "wake")
STUCK = "stuck: "


def without(*steps: str) -> Edit:
    """Without these steps. What led to one of them leads to the row below."""
    def edit(name: str, rows: list[Row]) -> list[Row]:
        return [replace(row, step="", choices=(lambda state: None,)) if row.step in steps else row for row in rows]
    return edit


def swapped(first: str, second: str) -> Edit:
    """With the second of two steps made before the first, wherever they follow each other."""
    def edit(name: str, rows: list[Row]) -> list[Row]:
        rows = list(rows)
        for at, (one, two) in enumerate(zip(rows, rows[1:])):
            if (one.step, two.step) == (first, second):
                rows[at], rows[at + 1] = replace(two, label=one.label), replace(one, label=two.label)
        return rows
    return edit


def untold_end(name: str, rows: list[Row]) -> list[Row]:
    """The signal is not raised once the team is to end."""
    if name != CALLER:
        return rows
    end = next(at for at, row in enumerate(rows) if row.step == "end")
    return rows[:end + 1] + [row for row in rows[end + 1:] if row.step not in SIGNAL]


def blind_park(name: str, rows: list[Row]) -> list[Row]:
    """Whoever parks sleeps, whatever the number is by then."""
    def sleeping(signal: str) -> Row:
        def park(state: State) -> None:
            state[f"{name} sleeps"] = SIGNALS[signal]
        return Row("park", (park,))

    signal = "back" if name == CALLER else "lent"
    return [sleeping(signal) if row.step == "park" else row for row in rows]


def hasty_number(name: str, rows: list[Row]) -> list[Row]:
    """A worker takes the present number as seen each time before it looks at it, not when it looks at its mailbox."""
    if name == CALLER:
        return rows
    hasty = Row("take as seen", (reading("lent", f"{name} seen"),), label=rows[0].label)
    return [hasty, replace(rows[0], label=""), *rows[1:]]


def impatient_caller(name: str, rows: list[Row]) -> list[Row]:
    """The caller looks once for an answer, and goes on whether or not one lies there."""
    def looking(at: int, row: Row) -> Row:
        done = next(later.label for later in rows[at:] if later.label.endswith("done"))

        def take(state: State) -> str:
            return row.choices[0](state) or done
        return replace(row, choices=(take,))

    return [looking(at, row) if row.step == "take answer" else row for at, row in enumerate(rows)]


# Each wrong protocol: what is changed, and how what is found begins.
WRONG: dict[str, tuple[Edit, str]] = {
    "nobody is woken": (without("wake"), STUCK),
    "nobody sleeps": (without("park"), "steps go round without end"),
    "nobody is counted before it sleeps": (without("be counted", "be counted no more"), STUCK),
    "sleepers are looked for before the number is raised": (swapped("raise", "look for sleepers"), STUCK),
    "who parks sleeps whatever the number is": (blind_park, STUCK),
    "the number lent is raised before the last task lies in its mailbox": (swapped("put task", "raise"), STUCK),
    "the number back is raised before the answer lies in its mailbox": (swapped("put answer", "raise"), STUCK),
    "the number back is read behind the look at the mailbox": (swapped("look at back", "take answer"), STUCK),
    "a worker takes the present number as seen": (hasty_number, STUCK),
    "the number lent is not raised at the end": (untold_end, STUCK),
    "the number lent is raised before the end is noted": (swapped("end", "raise"), STUCK),
    "nobody looks whether the team ends": (without("look at ended"), STUCK),
    "an answer is put back before it is worked on": (
        swapped("work", "put answer"), "the caller reads items that were not worked on",
    ),
    "the caller waits for no answer": (impatient_caller, "the caller goes on while a task is out"),
}
# Changes that do no harm, which the search tells too: the park itself looks at the number.
HARMLESS: dict[str, Edit] = {
    "nobody looks before it goes to sleep": without("look awake"),
    "nobody looks once more": without("look once more"),
}
