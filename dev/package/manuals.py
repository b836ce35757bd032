"""Manual pages: of the commands, by Debian's help2man from what they say of themselves by --help; of the engine's
library, by its header."""
from __future__ import annotations

import re
import subprocess
import tempfile
from pathlib import Path

from package.asking import CommandHelp

WORD = re.compile(r"^  \S.*$(?:\n {3,}\S.*$)*", re.MULTILINE)  # of a help, with what is told of it
CUT = re.compile(r"(\\fB[^ \n]*)\\fR(\.\w[\w.]*)")  # help2man ends a word in bold before its point
SPEAKS = "#!/bin/sh\ncat <<'END_OF_THE_HELP'\n{text}\nEND_OF_THE_HELP\n"
ALSO = """[SEE ALSO]
All commands, with examples and a walk of ten minutes:
.I share/doc/streetsim/html/index.html
below
.I /usr
or the environment that streetsim was installed in.
.br
What was proved of the program:
.I share/doc/streetsim/PROVED
"""
STATUS = """[EXIT STATUS]
0 where all was done; 2 where a word or a file is wrong, which standard error says in one line.
"""
STATUS_OF_PROGRAM = """[EXIT STATUS]
0 where all input was read to its end; 2 where a word is wrong; 1 where a file could not be read or written, memory was
refused, or a tape or a kept session has a bad line. Standard error says which.
"""


LIBRARY = """.TH STREETSIM 3 "" "streetsim {version}" "streetsim"
.SH NAME
streetsim \\- the engine of streetsim in the process of a program
.SH SYNOPSIS
.B #include <streetsim.h>
.sp
.B cc drive.c $(pkg-config --cflags --libs streetsim)
.sp
pkg-config gives the static library, which was proved; the shared one, which a C compiler made of it, lies beside it, in
the folder that
.B pkg-config --variable=libdir streetsim
prints.
.SH DESCRIPTION
The header says it all:
.sp
.nf
{header}.fi
.SH SEE ALSO
.BR streetsim (1),
and the page library/README.html below share/doc/streetsim/html, with programs to begin from
"""


def library_page(header: str, version: str) -> str:
    """The manual page of the engine's library, which is its header's text."""
    lines = [line.replace("\\", "\\e").replace("-", "\\-") for line in header.splitlines()]
    told = "".join(f"\\&{line}\n" if line[:1] in (".", "'") else f"{line}\n" for line in lines)
    return LIBRARY.format(version=version, header=told)


def help2man_text(command_help: CommandHelp) -> str:
    """A help as help2man reads it, with the options of the commands that are its first word."""
    text = command_help.text.replace("usage: ", "Usage: ", 1)
    text, sign, examples = text.partition("\nExamples:\n")
    for word, inner in command_help.inner.items():
        text += f"\nWith {word}:\n" + "\n".join(WORD.findall(inner)) + "\n"
    return text + sign + examples


def name_of(command_help: CommandHelp) -> str:
    """A command in a few words: the begin of the first sentence that says what it does."""
    begin = r"\n\n(?! )(.+)" if command_help.text.startswith("usage: ") else r"(.+)"
    found = re.search(begin, command_help.text)
    sentence = re.split(r"[.:;](?: |$)", found[1])[0] if found else command_help.name
    return sentence[:1].lower() + sentence[1:]


def page(command_help: CommandHelp, version: str) -> str:
    """The manual page of a command."""
    with tempfile.TemporaryDirectory() as place:
        speaks, included = Path(place) / command_help.name, Path(place) / "more"
        speaks.write_text(SPEAKS.format(text=help2man_text(command_help).rstrip("\n")))
        speaks.chmod(0o755)
        included.write_text((STATUS if "-" in command_help.name else STATUS_OF_PROGRAM) + ALSO)
        words = [
            "help2man", "--no-info", "--section=1", f"--name={name_of(command_help)}", f"--version-string={version}",
            f"--source=streetsim {version}", "--manual=streetsim", f"--include={included}", str(speaks),
        ]
        process = subprocess.run(words, capture_output=True, text=True, check=False)
    if process.returncode:
        raise SystemExit(f"package: help2man has no page of {command_help.name}: {process.stderr.strip()}")
    return CUT.sub(r"\1\2\\fR", process.stdout)
