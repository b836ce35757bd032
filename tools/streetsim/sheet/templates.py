"""The sheets that streetsim-junction --template writes: files beside this module."""
from pathlib import Path

TEMPLATES = ("cross", "tee", "street", "roundabout")


def template(kind: str) -> str:
    """The text of a template."""
    return (Path(__file__).parent / f"{kind}.csv").read_text(encoding="utf-8")
