"""One word is one thing in all commands: the list of all words in docs/options.txt, which `test_word_table.py --write`
makes of the parsers; and words of earlier versions, which are still taken."""
import argparse
import re
import sys
import unittest

from support import TOOLS, Case
from test_help import parsers

from streetsim.base.words import Parser

LIST = TOOLS.parent / "docs/options.txt"
SUMO = "sumo"  # whose words are those of SUMO's command line, and mean what they mean there
AS_OF = "as in streetsim-"  # which means what the other command says
PARTS = re.compile(r" \(|; |: |, ")


def kinds(name, made):
    """(name, parser) of a command, or of each kind of it."""
    for action in made._actions:
        if isinstance(action, argparse._SubParsersAction):
            return [(f"{name} {kind}", one) for kind, one in action.choices.items()]
    return [(name, made)]


def commands():
    """{command without streetsim-, or a kind of it: parser}."""
    return dict(one for name, made in parsers().items() for one in kinds(name.removeprefix("streetsim-"), made))


def words():
    """{word: {command: help}}; a word without a name is where its value goes."""
    found = {}
    for name, made in commands().items():
        for action in made._actions:
            word = ", ".join(action.option_strings) or str(action.metavar or action.dest).upper()
            found.setdefault(word, {})[name] = (action.help or "") % {**vars(action), "prog": made.prog}
    return found


def thing(told):
    """What a word is, by its help: all before the first further thing that is said."""
    return PARTS.split(told)[0]


def two_things(found):
    """{word: what it is in one command and in another} of words that mean two things."""
    said = {
        word: {thing(told) for name, told in own.items() if name != SUMO and not told.startswith(AS_OF)}
        for word, own in found.items()
    }
    return {word: sorted(things) for word, things in said.items() if len(things) > 1}


def table():
    """The list: each word but those of SUMO's command line alone, what it is, and the words of earlier versions that
    are this one now."""
    old, lines = earlier_words(), []
    for word, own in sorted(words().items(), key=lambda item: item[0].lstrip("-").lower()):
        if own.keys() == {SUMO}:
            continue
        said = next((told for name, told in own.items() if not told.startswith(AS_OF)), "")
        earlier = "".join(old.get(name, "") for name in word.split(", "))
        lines.append(f"{word:<26} {thing(said)}{earlier}")
    return "".join(f"{line}\n" for line in lines)


def earlier_words():
    """{word: what its help does not tell: the words of earlier versions that are this one now}."""
    found = {}
    for made in commands().values():
        for word, new in made.renamed.items():
            found.setdefault(new, {})[word] = True
    return {word: f" (earlier {', '.join(names)})" for word, names in found.items()}


class Words(Case):
    def test_no_word_is_two_things(self):
        self.assertEqual(two_things(words()), {})
        one, other = {"a": "a file (.xml)"}, {"b": "the seconds of it"}
        self.assertEqual(two_things({"--x": {**one, **other}}), {"--x": ["a file", "the seconds of it"]})

    def test_the_list_has_them_all(self):
        told = "other words: tools/tests/test_word_table.py --write"
        self.assertEqual(LIST.read_text(encoding="utf-8").splitlines(), table().splitlines(), told)

    def test_earlier_words_are_taken_and_not_told(self):
        for name, made in commands().items():
            for word, new in made.renamed.items():
                with self.subTest(f"{name} {word}"):
                    self.assertNotIn(word, made._option_string_actions)
                    self.assertIn(new, made._option_string_actions)
                    self.assertNotRegex(made.format_help(), rf"{word}\b(?!-)")
        made = Parser(prog="x", renamed={"--old": "--new"})
        made.add_argument("--new")
        self.assertEqual([made.parse_args(given).new for given in (["--old", "1"], ["--old=2"])], ["1", "2"])


if __name__ == "__main__":
    if sys.argv[1:] == ["--write"]:
        LIST.write_text(table(), encoding="utf-8")
    else:
        unittest.main()
