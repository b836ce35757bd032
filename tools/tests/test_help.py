"""What each command says of itself: its version, its words in groups, two examples that it takes; and of a wrong word
the nearest right one. Commands are those of pyproject.toml, so that one that is added is looked at by itself."""
import importlib
import shlex
import shutil
import tomllib
import unittest
from contextlib import redirect_stdout
from io import StringIO

from support import TOOLS, Case, needs_package

from package import asking, manuals
from streetsim import VERSION
from streetsim.base.files import Fault
from streetsim.base.helping import GROUPS, HELP, OTHER_WORDS, in_groups, nearest
from streetsim.base.words import Parser
from streetsim.cli import commands

PROJECT = tomllib.loads((TOOLS / "pyproject.toml").read_text())["project"]


def modules():
    """{command: its module}."""
    begun = {name: getattr(commands, place.partition(":")[2]).args for name, place in PROJECT["scripts"].items()}
    places = {name: (*args, "cli")[1::-1] for name, args in begun.items()}
    return {name: importlib.import_module(".".join(("streetsim", *place))) for name, place in places.items()}


def parsers():
    """{command: its parser}."""
    return {name: module.parser() for name, module in modules().items()}


class Help(Case):
    def test_each_command_has_two_examples_which_it_takes(self):
        for name, made in parsers().items():
            with self.subTest(name):
                self.assertGreaterEqual(len(getattr(made, "examples", ())), 2, f"{name}: give Parser two examples")
                for example in made.examples:
                    command, *words = shlex.split(example)
                    self.assertEqual(command, name)
                    made.parse_args(words)
                    self.assertIn(f"\n  {example}\n", made.format_help())

    def test_each_command_has_its_version(self):
        self.assertEqual(VERSION, PROJECT["version"])
        for name, module in modules().items():
            with self.subTest(name), redirect_stdout(StringIO()) as said, self.assertRaises(SystemExit) as ended:
                module.main(["--version"])
            self.assertEqual((said.getvalue(), ended.exception.code), (f"{name} {VERSION}\n", 0))

    def test_each_word_stands_in_one_group(self):
        words = " ".join(GROUPS.values()).split()
        self.assertEqual(len(words), len(set(words)))
        for name, made in parsers().items():
            groups = in_groups(made._actions)
            told = made.format_help()
            with self.subTest(name):
                self.assertEqual(sum(len(own) for _, own in groups), len(made._actions))
                self.assertEqual(groups[-1][0], HELP)
                for title, _ in groups:
                    self.assertIn(f"\n{title}:\n", told)

    def test_a_long_help_has_no_group_of_all_words(self):
        for name, made in parsers().items():
            for title, own in in_groups(made._actions):
                with self.subTest(name, title=title):
                    self.assertLessEqual(len(own), 12)
                    count = len(own) * (title == OTHER_WORDS)
                    self.assertLessEqual(count, 4, "put its words into GROUPS of base/helping.py")

    @needs_package("help2man", shutil.which("help2man"))
    def test_a_manual_page_has_the_words_and_the_examples(self):
        for name, word in (("streetsim-plot", "--what"), ("streetsim-import", "--routes")):
            said = asking.ask_all([TOOLS / name])[0]
            page = manuals.page(said, VERSION).replace("\\-", "-")
            for part in (word, "--version", "EXAMPLES", parsers()[name].examples[0].split()[-1]):
                self.assertIn(part, page)


class Nearest(Case):
    def test_a_wrong_word_gets_the_nearest_right_one(self):
        for tool, words, told in (
            ("run", ["x.jsonl", "--untill", 9], "unrecognized arguments: --untill (did you mean --until?)"),
            ("run", ["--sead=9"], "unrecognized arguments: --sead=9 (did you mean --seeds?)"),
            ("plot", ["maps", "out"], "(did you mean map?)"),
            ("plot", ["map", "out", "--waht", "flow"], "unrecognized arguments: --waht (did you mean --what?)"),
            ("plot", ["map", "out", "-o", "x.png", "--what", "delays"], "(did you mean delay?)"),
            ("example", ["coridor"], "(did you mean corridor?)"),
        ):
            with self.subTest(tool=tool, words=words):
                told_all, said = self.tool(tool, *words, status=2)
                self.assertEqual((told_all, said.count("\n")), ("", 1))
                self.assertIn(told, said)

    def test_a_word_that_is_like_none_gets_none(self):
        self.assertEqual(nearest("--kites", ["--until", "--map"]), "")
        made = Parser(prog="x")
        made.add_argument("--until")
        with self.assertRaisesRegex(Fault, r"^unrecognized arguments: --kites \(what may be given: x --help\)$"):
            made.parse_args(["--kites"])

    def test_short_forms_and_what_follows_two_dashes_are_no_wrong_words(self):
        made = Parser(prog="x")
        made.add_argument("--until")
        made.add_argument("names", nargs="*")
        self.assertEqual(vars(made.parse_args(["--unt", "9", "--", "--kites"])), {"until": "9", "names": ["--kites"]})


if __name__ == "__main__":
    unittest.main()
