"""Completion for bash, of what the commands say of themselves by --help: options, and the words that come first."""
from __future__ import annotations

from collections.abc import Sequence

from package.asking import CommandHelp, options

HEAD = """# Completion of streetsim's commands for bash, made by ./package from what they say by --help.
_streetsim() {
    local words
    case "${1##*/} ${COMP_WORDS[1]}" in
"""
TAIL = """    esac
    if [[ $2 == -* || (COMP_CWORD -eq 1 && $words != -*) ]]; then
        mapfile -t COMPREPLY < <(compgen -W "$words" -- "$2")
    fi
}
"""


def case(pattern: str, words: Sequence[str]) -> str:
    return f'        {pattern}) words="{" ".join(words)}" ;;\n'


def cases(command_help: CommandHelp) -> str:
    """What may follow a command: with a word that comes first its options, before it these words."""
    inner = "".join(case(f'"{command_help.name} {word}"', options(text)) for word, text in command_help.inner.items())
    return inner + case(f'"{command_help.name} "*', [*command_help.inner, *options(command_help.text)])


def script(every: Sequence[CommandHelp]) -> str:
    """The script of all commands."""
    names = " ".join(command_help.name for command_help in every)
    return HEAD + "".join(map(cases, every)) + TAIL + f"complete -o default -F _streetsim {names}\n"
