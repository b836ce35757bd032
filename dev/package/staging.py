"""What is installed below a prefix, /usr or an environment, but for the tools themselves: programs, the engine's
library, examples, pages, manual pages, completion and the record of what was proved."""
from __future__ import annotations

import shutil
from pathlib import Path

import built
import proved
from package import asking, completion, manuals
from package.pages import Pages
from streetsim.base.places import SESSIONS, example_files

COMPLETION = "share/bash-completion/completions/streetsim"
WRAPPER = Path(__file__).with_name("streetsim")


def copy_file(path: Path, to: Path, mode: int = 0o644) -> None:
    """Copies a file, whatever the modes are here."""
    to.parent.mkdir(parents=True, exist_ok=True)
    shutil.copyfile(path, to)
    to.chmod(mode)


def write(text: str, to: Path) -> None:
    to.parent.mkdir(parents=True, exist_ok=True)
    to.write_text(text, encoding="utf-8")
    to.chmod(0o644)


def programs(tree: Path, prefix: Path) -> None:
    """The program and the engine's library, byte for byte, and the command that starts the program."""
    for name, path in proved.files_of(tree).items():
        copy_file(path, prefix / name, 0o755 if name.startswith("libexec/") else 0o644)
    copy_file(WRAPPER, prefix / "bin/streetsim", 0o755)


def declarations(tree: Path, prefix: Path, version: str) -> None:
    """What a program with the engine in its process is compiled with: the header, pkg-config's file, the manual page;
    nothing where the library was not made."""
    if not built.library(tree).keys() <= proved.files_of(tree).keys():
        return
    header = tree / "library/streetsim.h"
    copy_file(header, prefix / "include/streetsim.h")
    settings = (tree / "library/streetsim.pc").read_text(encoding="utf-8").replace("@VERSION@", version)
    write(settings, prefix / "share/pkgconfig/streetsim.pc")
    write(manuals.library_page(header.read_text(encoding="utf-8"), version), prefix / "share/man/man3/streetsim.3")


def examples(tree: Path, prefix: Path) -> None:
    """The tools' examples, and the sessions of the program, without pictures."""
    goal = prefix / "share/streetsim/examples"
    for begin, to in ((tree / "tools/examples", goal), (tree / "examples", goal / SESSIONS)):
        for path in example_files(begin):
            copy_file(path, to / path.relative_to(begin), path.stat().st_mode & 0o755 | 0o644)


def stage(tree: Path, prefix: Path, version: str, commit: str) -> None:
    """Puts all into a folder that stands for the prefix."""
    programs(tree, prefix)
    declarations(tree, prefix, version)
    examples(tree, prefix)
    write(proved.page(proved.read(tree), version, commit), prefix / "share/doc/streetsim/PROVED")
    write(proved.installed_text(proved.read(tree)), prefix / proved.INSTALLED)
    every = asking.ask_all((prefix / "bin/streetsim", *asking.tools(tree)))
    for said in every:
        write(manuals.page(said, version), prefix / f"share/man/man1/{said.name}.1")
    write(completion.script(every), prefix / COMPLETION)
    for said in every[1:]:
        (prefix / COMPLETION).with_name(said.name).symlink_to("streetsim")
    (prefix / "share/doc/streetsim/examples").symlink_to("../../streetsim/examples")
    Pages(tree, prefix / "share/doc/streetsim/html").write()
