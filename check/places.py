"""Where names stand in sources and pages, for commands.py and tool_places.py, which say what is lacking there."""
from __future__ import annotations

import re
from collections.abc import Callable
from dataclasses import dataclass
from pathlib import Path

TOP = Path(__file__).resolve().parents[1]
Reader = Callable[[Path], str]


def read_text(path: Path) -> str:
    return path.read_text(encoding="utf-8")


@dataclass(frozen=True)
class Place:
    """Files from the top, what in them names a member of a kind, and from which text to which these names stand."""

    files: tuple[str, ...]
    named: str
    begin: str = ""
    end: str = "\0"

    def members(self, read: Reader) -> set[str]:
        """The names that stand there."""
        texts = [read(path) for name in self.files for path in sorted(TOP.glob(name))]
        parts = [(text.partition(self.begin)[2] if self.begin else text).partition(self.end)[0] for text in texts]
        return {name for part in parts for name in re.findall(self.named, part, re.MULTILINE)}
