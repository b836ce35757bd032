"""What a command says of itself: its words in groups, its examples, its version, and the right word nearest to a wrong
one. Manual pages and completion are made of the same text."""
import argparse
import difflib
from collections.abc import Iterable, Sequence

GROUPS = {  # the words of all commands by what they are of, as their options are named; other words stand in OTHER
    "Input": "map routes trips configuration counts zones matrix flows ratios candidates names sumo plans attribute "
    "study before template projection times saturation queues validate drivers configuration-file net-file route-files "
    "additional-files constraints",
    "Output": "output out csv warnings run sumo-output junctions polls along sealed title question plan-names short "
    "detail sheets corridor strict no-open port log verbose no-warnings duration-log.statistics force live shown ring "
    "limit stop-lines",
    "SUMO's files": "tripinfo-output summary-output queue-output fcd-output vehroute-output statistic-output "
    "edgedata-output stop-output lanechange-output output-prefix save-configuration",
    "Time": "begin end until every step period first last interval slice what",
    "Demand": "vehicles ends ways most error smallest departures",
    "Seeds and search": "seeds check-seeds check budget precision rounds runs iterations gap share tried anew bounds "
    "cycle least reserve verify-sumo free vary random mend",
    "Streets and road works": "part close close-at joint lost merge works-limit slow sign knowing edges both rescue",
    "Lights and buses": "lights fixed priority seen stops",
    "Drivers": "dawdle speed-factor cut permissive change",
    "Model": "zone seed residence buffer classes turns sizes ignore-route-errors",
    "Program and machine": "program proved workers jobs cluster keep remote-port num-clients large-files",
}
OTHER_WORDS, HELP = "Other options", "Help"
GROUP_OF = {word: title for title, words in GROUPS.items() for word in words.split()}


def name_of(action: argparse.Action) -> str:
    """The long name of a word, without dashes; where it has none (a positional one) where its value goes."""
    return (action.option_strings[-1] if action.option_strings else action.dest).lstrip("-")


def group_of(action: argparse.Action) -> str:
    """The title of the group that a word is told in; words without a name are input."""
    if action.dest == "help" or isinstance(action, argparse._VersionAction):
        return HELP
    return GROUP_OF.get(name_of(action), OTHER_WORDS) if action.option_strings else "Input"


def in_groups(actions: Iterable[argparse.Action]) -> list[tuple[str, list[argparse.Action]]]:
    """The words of a command by groups, (title, words), in the order of GROUPS; without empty groups."""
    by_title: dict[str, list[argparse.Action]] = {title: [] for title in (*GROUPS, OTHER_WORDS, HELP)}
    for action in actions:
        by_title[group_of(action)].append(action)
    return [(title, members) for title, members in by_title.items() if members]


def help_of(parser: argparse.ArgumentParser, examples: Sequence[str]) -> str:
    """The text of --help of a command: how it goes, with the words that it must have; what it does; its words in
    groups; its examples."""
    formatter = parser._get_formatter()
    more = argparse.Action([], "words", nargs="?", metavar="OPTIONS")
    must = [action for action in parser._actions if action.required or not action.option_strings]
    formatter.add_usage(parser.usage, [*must, more], [])
    formatter.add_text(parser.description)
    for title, actions in in_groups(parser._actions):
        formatter.start_section(title)
        formatter.add_arguments(actions)
        formatter.end_section()
    formatter.add_text(parser.epilog)
    lines = "".join(f"  {example}\n" for example in examples)
    return formatter.format_help() + (f"\nExamples:\n{lines}" if lines else "")


def nearest(unknown: str, known: Iterable[str]) -> str:
    """The known word that is most like another one, as words to add to a fault, ' (did you mean --until?)'; empty where
    none is much like it."""
    matches = difflib.get_close_matches(unknown, list(known), 1)
    return f" (did you mean {matches[0]}?)" if matches else ""
