"""The words of a command, which are its arguments: what is wrong with them is told in one line; times and lists are
read as SUMO reads them."""
import argparse
import os
import re
import sys
from collections.abc import Callable, Iterable, Mapping, Sequence
from typing import Any, NoReturn

from streetsim import VERSION
from streetsim.base.files import Fault, seconds
from streetsim.base.helping import help_of, nearest
from streetsim.base.jobs import CORES
from streetsim.base.unpacking import lift

ROUNDS, MOST_ROUNDS = 2, 10  # of runs before the one that counts, by default and at most
FALSE = ("false", "0", "no", "off", "f")  # as SUMO reads a word that is on or off
CLOCK = re.compile(r"\d{1,2}:[0-5]\d")  # hours and minutes
FREE = ("--title",)  # words whose text may be empty


UNKNOWN = re.compile(r"unrecognized arguments: (\S+)")
NO_CHOICE = re.compile(r"invalid choice: '([^']*)' \(choose from (.*)\)")


class Parser(argparse.ArgumentParser):
    """A parser for which wrong words are a Fault, one line without the usage, with the nearest right word; whose help
    has groups and examples; and which knows --version. A word with one - before it that is no option by itself (-o) or
    up to a = (-o=FILE) is a value, as many of SUMO's edges begin so."""

    def __init__(
        self, *args: Any, examples: Sequence[str] = (), renamed: Mapping[str, str] | None = None, **more: Any
    ) -> None:
        """examples: whole lines of the shell, two at least of a command; renamed: {word of earlier versions, which is
        taken and not told: the word that it is now}. All other arguments are those of ArgumentParser."""
        super().__init__(*args, **more)
        self.examples, self.renamed = examples, renamed or {}
        version = f"{self.prog.partition(' ')[0]} {VERSION}"
        self.add_argument("--version", action="version", version=version, help="print the version and exit")
        self.add_argument("--large-files", action=Lifting, nargs=0, help="read files of any size; see SECURITY.md")
        self._negative_number_matcher = re.compile("-[^-]")  # what argparse takes for a value all the same

    def parse_known_args(self, args: Any = None, namespace: Any = None) -> Any:
        """As argparse's; Fault for a word without a name in it, as `unnamed_argument` tells."""
        words = [self.new_word(word) for word in (sys.argv[1:] if args is None else args)]
        if (fault := unnamed_argument(words) or self.unknown_in(words)) is not None:
            self.error(fault)
        return super().parse_known_args(words, namespace)

    def new_word(self, argument: str) -> str:
        """A word as it is now: of earlier versions another one, with its value behind = where it has one there."""
        name, sign, text = argument.partition("=")
        return self.renamed[name] + sign + text if name in self.renamed else argument

    def unknown_in(self, arguments: Sequence[str]) -> str | None:
        """What argparse says of the first word with -- before it that this command does not have, which it would say
        only where no word lacks; None for a command of several kinds, whose words are those of the kind."""
        if self._subparsers is not None:
            return None
        known = tuple(self._option_string_actions)
        leading = arguments[: arguments.index("--")] if "--" in arguments else arguments
        pairs = zip(("", *leading), leading)
        named = (argument for before, argument in pairs if argument.startswith("--") and before not in known)
        options = ((argument, argument.partition("=")[0]) for argument in named)
        wrong = [argument for argument, option in options if not any(name.startswith(option) for name in known)]
        return f"unrecognized arguments: {wrong[0]}" if wrong else None

    def _get_option_tuples(self, option_string: str) -> list[Any]:
        """As argparse's, the options that a word may be short for; none where it has one - before it, as -hill."""
        return super()._get_option_tuples(option_string) if option_string.startswith("--") else []

    def format_help(self) -> str:
        """The text of --help, as `help_of` has it."""
        return help_of(self, self.examples)

    def near(self, message: str) -> str:
        """The right word that is nearest to the wrong one of a message of argparse, as words to add; else nothing."""
        if match := UNKNOWN.search(message):
            return nearest(match[1].partition("=")[0], self._option_string_actions)
        match = NO_CHOICE.search(message)
        return nearest(match[1], re.findall(r"'([^']*)'", match[2])) if match else ""

    def error(self, message: str) -> NoReturn:
        """Raises the Fault of wrong words, in place of argparse's exit."""
        text = message.removeprefix("argument ") + self.near(message)
        option, _, lacks = text.partition(": ")
        if lacks.startswith("expected"):
            text += f", which goes as {option.rpartition('/')[2]}=-.. where it begins with -"
        raise Fault(f"{text} (what may be given: {self.prog} --help)")


class Lifting(argparse.Action):
    """Lifts the limits on what is read, for the whole process; the word leaves nothing among the words."""

    def __init__(self, option_strings: Sequence[str], dest: str, **more: Any) -> None:
        """As argparse's, without a place for a value."""
        super().__init__(option_strings, argparse.SUPPRESS, default=argparse.SUPPRESS, **more)

    def __call__(self, *_: object) -> None:
        """Lifts them."""
        lift()


def unnamed_argument(arguments: Sequence[str]) -> str | None:
    """What is wrong with the first word that has no name in it, as a variable of the shell that is not set leaves one
    (a tool would go on as if the word were not there), or None; the text of --title may be empty."""
    for before, argument in zip(("", *arguments), arguments):
        name, sign, text = argument.partition("=")
        option, value = (name, text) if sign and argument.startswith("--") else (before, argument)
        if option not in FREE and not names_in(value):
            return f"{option}: {value!r} names nothing" if option.startswith("-") else f"{value!r} names nothing"
    return None


def integer_within(lowest: int, highest: int) -> Callable[[str], int]:
    """A conversion for argparse that takes whole numbers from lowest to highest, both included, written in digits
    alone; ArgumentTypeError otherwise. lowest: 0 or more, as no sign is taken."""

    def number(text: str) -> int:
        """The number that a text writes; ArgumentTypeError where it is no whole number of the range."""
        if not re.fullmatch(r"\d{1,20}", text) or not lowest <= int(text) <= highest:
            raise argparse.ArgumentTypeError(f"{text!r} is not {lowest} to {highest:,}")
        return int(text)

    return number


def time_within(lowest: int, highest: int) -> Callable[[str], int]:
    """A conversion for argparse that takes whole seconds from lowest to highest, both included, written as SUMO's
    times, 3600, 01:00:00 or 0:01:00:00, or as a clock shows them, 01:00; ArgumentTypeError otherwise."""

    def time(text: str) -> int:
        """The seconds that a text writes; ArgumentTypeError where they are out of the range or not whole."""
        value = whole_seconds(text)
        if value is None or not lowest <= value <= highest:
            bounds = f"{lowest} to {highest:,} s, in seconds, HH:MM or HH:MM:SS"
            raise argparse.ArgumentTypeError(f"{text!r} is not {bounds}")
        return value

    return time


def whole_seconds(text: str) -> int | None:
    """The seconds that a text writes as SUMO's times, as `seconds` reads it, or as hours and minutes, 07:00; None where
    these are no whole second."""
    text += ":00" if CLOCK.fullmatch(text) else ""
    try:
        value = seconds(text)
    except ValueError:
        return None
    return int(value) if value == int(value) else None


def time_of_day(second: int) -> str:
    """Seconds since midnight as hours and minutes, 7:30, with seconds where these are not 0; hours may be above 23."""
    hours_minutes = f"{second // 3600:d}:{second // 60 % 60:02d}"
    return f"{hours_minutes}:{second % 60:02d}" if second % 60 else hours_minutes


def names_in(text: str) -> list[str]:
    """The names of a text with blanks or commas between them, in its order, equal ones too; neither stands in a name of
    SUMO's. Empty where it has none."""
    return [name for name in re.split(r"[\s,]+", text) if name]


def share_of(text: str) -> float:
    """The share that a text writes as a number, 0 to 1; ArgumentTypeError otherwise."""
    try:
        value = float(text)
    except ValueError:
        value = -1.0
    if not 0 <= value <= 1:
        raise argparse.ArgumentTypeError(f"{text!r} is not 0 to 1")
    return value


def add_run(parser: argparse.ArgumentParser) -> None:
    """Adds to a parser the words that name what streetsim-import made: the run file (run) and its map (--map)."""
    parser.add_argument("run", metavar="RUN", help="run file that streetsim-import wrote (.jsonl)")
    parser.add_argument("--map", help="map file with the names in a run (default: NAME.map.json beside NAME.jsonl)")


def add_names(parser: argparse.ArgumentParser) -> None:
    """Adds --names to a parser: a file of names of one's own; None where it is not given."""
    parser.add_argument(
        "--names",
        metavar="FILE",
        help="table of names that you give to streets, junctions and lights (.csv with the columns id, of an edge, "
        "junction or light, and name), which go "
        "before those of the map",
    )


def add_jobs(parser: argparse.ArgumentParser) -> None:
    """Adds --jobs to a parser: how many runs go side by side, 1 to 1,024; by default one for each core."""
    help_text = "number of runs at a time (default: one for each core)"
    parser.add_argument("--jobs", type=integer_within(1, 1024), default=CORES, help=help_text)


def add_lost(parser: argparse.ArgumentParser) -> None:
    """Adds --lost to a parser: what those do who lose their only lane by road works, "lead", "wait" or "bar"; None
    where it is not given, which stands for "lead"."""
    parser.add_argument(
        "--lost",
        choices=["lead", "wait", "bar"],
        help="what a vehicle does if its only lane for a turn is closed: turn from the lane beside it (lead), or wait "
        "until the works end (wait); or the turn is barred, and streetsim-route finds their ways (bar; default lead)",
    )


def add_rounds(
    parser: argparse.ArgumentParser, default: int | None = ROUNDS, usual: str = "default %(default)s"
) -> None:
    """Adds --rounds to a parser: how many runs go before the one that counts, 0 to 10, by which vehicles give way
    without a light; usual: what its help says of its default."""
    parser.add_argument(
        "--rounds",
        type=integer_within(0, MOST_ROUNDS),
        default=default,
        metavar="N",
        help=f"runs made before the final run, which find the gaps for giving way right before left ({usual}; "
        "0: nobody gives way there); with a map of an earlier version, the gaps at all junctions without a light",
    )


def add_lights(parser: argparse.ArgumentParser) -> None:
    """Adds --lights to a parser: whether detectors drive lights, "actuated" (where it is not given) or "listed"."""
    parser.add_argument(
        "--lights",
        choices=["actuated", "listed"],
        default="actuated",
        help="what drives SUMO's actuated and NEMA lights: detectors, as there (actuated), or the seconds that their "
        "programs list (listed; default %(default)s)",
    )


def paths_in(texts: Iterable[str]) -> list[str]:
    """The paths of files that words name, each one or several with commas between, as in SUMO; a word that is the name
    of a file that is there, with a comma in it, is that one file."""
    return [path for text in texts for path in ([text] if os.path.exists(text) else filter(None, text.split(",")))]
