"""The report of an import, or of another reader of SUMO's files: warnings, and what is left out or has no effect. Tools
print it; pages list it."""
from collections import Counter
from collections.abc import Iterable, Iterator, Sequence
from dataclasses import dataclass, replace

COLUMNS = ("weight", "what", "names", "do")  # of the table of all that is said
HEAVY, LIGHT, NONE = "changes results", "told", "no effect"  # weights of what is said


@dataclass(frozen=True, slots=True)
class Warned:
    """A warning as it is told. names: the ids that it is of; advice: what the user may do about it."""

    text: str
    weight: str
    names: tuple[str, ...]
    advice: str


class Report:
    """What an import, or another reader of SUMO's files, says, gathered while it goes."""

    def __init__(self) -> None:
        """Nothing has been said yet."""
        self.warnings: list[str] = []
        self.alike: dict[str, list[Warned]] = {}  # by kind, or text of a warning that is of none
        self.notes: list[str] = []  # what was counted
        self.ignored: Counter[str] = Counter()  # what is read and has no effect
        self.skipped: Counter[str] = Counter()  # vehicles that do not drive, by reason

    def clear(self) -> None:
        """Forgets all that was noted, where an import begins again."""
        self.__init__()  # type: ignore[misc]  # nobody derives a class from this one

    def warn(self, text: str, names: Iterable[str] = (), advice: str = "", light: bool = False, kind: str = "") -> None:
        """Notes what is other than in SUMO, once for each text; of the same text again nothing is taken. names: the ids
        that it is of; advice: what the user may do about it; light: it changes results little, if at all; kind: how
        several of its kind are told in one line, behind their count and before the ids; empty: each has its line."""
        if text not in self.warnings:
            self.warnings.append(text)
            warning = Warned(text, LIGHT if light else HEAVY, tuple(names), advice)
            self.alike.setdefault(kind or text, []).append(warning)

    def by_weight(self) -> list[Warned]:
        """The warnings, several of a kind as one, first those that change results; equals in the order they came."""
        merged = (one_warning(kind, warnings) for kind, warnings in self.alike.items())
        return sorted(merged, key=lambda warning: warning.weight != HEAVY)

    def lines(self) -> Iterator[str]:
        """All that is said, a line each, as terminals, maps and pages show it; of a warning's names only the first few,
        where several of a kind are one."""
        yield from (f"skipped: {count} vehicles: {why}" for why, count in sorted(self.skipped.items()))
        for warning in self.by_weight():
            yield f"warning: {warning.text}{f' ({warning.advice})' if warning.advice else ''}"
        yield from self.notes
        yield from (f"ignored: {count} x {what}" for what, count in sorted(self.ignored.items()) if count)

    def rows(self) -> list[list[str]]:
        """All that is said, but for the notes, as rows of `COLUMNS`, the ids with blanks between: first the vehicles
        that are left out, then the warnings as by_weight has them, last what has no effect."""
        skipped, ignored = sorted(self.skipped.items()), sorted(self.ignored.items())
        table_rows = [[HEAVY, f"{count} vehicles are left out: {why}", "", ""] for why, count in skipped]
        table_rows += [
            [warning.weight, warning.text, " ".join(warning.names), warning.advice] for warning in self.by_weight()
        ]
        return table_rows + [[NONE, f"{count} x {what}", "", ""] for what, count in ignored if count]


def one_warning(kind: str, warnings: Sequence[Warned]) -> Warned:
    """Warnings of one kind as one: how many they are, their kind and the first ids, with all ids; weight and what to do
    are of the first. A warning alone stays as it is."""
    if len(warnings) == 1:
        return warnings[0]
    names = tuple(dict.fromkeys(name for warning in warnings for name in warning.names))
    return replace(warnings[0], text=f"{len(warnings):,} {kind}: {first_few(names)}", names=names)


def first_few(names: Iterable[str], most: int = 5) -> str:
    """The first of some names with commas between, at most `most`, and how many further ones there are."""
    names = list(names)
    return ", ".join(names[:most]) + (f" and {len(names) - most} more" if len(names) > most else "")
