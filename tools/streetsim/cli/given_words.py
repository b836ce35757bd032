"""The words of a command line that were given otherwise than by default, for settings and seals by which a run is made
again."""
import argparse
import contextlib
import io
from collections.abc import Collection, Sequence

from streetsim.base.files import Fault


def given_words(parser: argparse.ArgumentParser, args: argparse.Namespace, without: Collection[str]) -> list[str]:
    """The options that were given otherwise than by default, as words that say the same; without: options that are left
    out, by the attributes that they set. Words without a name (positional ones) are left out too."""
    options = []
    for action in parser._actions:
        setting = getattr(args, action.dest, action.default)
        if not action.option_strings or action.dest in (*without, "help") or setting == action.default:
            continue
        name = action.option_strings[-1]
        if action.nargs == 0 or (action.nargs == "?" and setting == action.const):
            options.append(name)
        elif isinstance(action.default, list) and action.nargs is None:
            options += [f"{name}={item}" for item in setting]
        elif action.nargs == "+":
            options += [name, *map(str, setting)]
        else:
            options.append(f"{name}={','.join(setting) if isinstance(setting, (list, tuple)) else setting}")
    return options


def refuse_other_words(
    parser: argparse.ArgumentParser, kept_words: list[str], needed_words: Sequence[str], without: Collection[str],
    target: str,
) -> None:
    """Fault for words, as a page or folder keeps them, that given_words would not give of a parser: those that name a
    host, a program or a path (`without`), stand there twice, or ask for help. needed_words: those without which the
    parser takes none; target: for the Fault."""
    message = f"{target}: what made it has options that the tools do not keep"
    try:
        with contextlib.redirect_stdout(io.StringIO()):
            parsed_words = given_words(parser, parser.parse_args([*needed_words, *kept_words]), without)
    except SystemExit:
        raise Fault(f"{message}: they ask for help") from None
    except (Fault, ValueError) as fault:
        raise Fault(f"{message}: {fault}") from None
    if parsed_words != kept_words:
        strange = next((word for word in kept_words if word not in parsed_words), "one twice or at another place")
        raise Fault(f"{message}: {strange}")
