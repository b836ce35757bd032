"""Where the programs and the examples lie: in the repository that this package stands in, or where it is installed.

All that is installed lies under one prefix: /usr of Debian's package, the environment of the wheel."""
from pathlib import Path

PACKAGE = Path(__file__).resolve().parents[1]
INSTALLED = PACKAGE.parent.name in ("dist-packages", "site-packages") and len(PACKAGE.parents) > 3
PREFIX = PACKAGE.parents[3] if INSTALLED else None
TOP = PACKAGE.parents[1]
SESSIONS = "sessions"  # the name of the examples that are sessions of the program itself
RECORD = "share/streetsim/proved.json" if INSTALLED else "out/proved.json"  # of what was proved, from PREFIX or TOP
PROGRAM = "libexec/streetsim/streetsim"  # the simulator, from the prefix
PICTURES = (".png",)  # what examples have for the pages


def installed(name: str) -> Path | None:
    """A file that is installed with the tools, by its path from the prefix; none in the repository, or without it."""
    path = PREFIX / name if PREFIX else None
    return path if path and path.exists() else None


def example_files(example: Path) -> list[Path]:
    """The files, sorted, of an example, a folder or one file itself; without pictures and Python's caches."""
    paths = sorted(example.rglob("*")) if example.is_dir() else [example]
    hidden = ("__pycache__", *PICTURES)
    return [path for path in paths if path.is_file() and not {path.suffix, path.parent.name}.intersection(hidden)]


def examples() -> dict[str, Path]:
    """{name of an example: its folder or file}, without empty ones; SESSIONS are among them in the repository alone."""
    folder = PREFIX / "share/streetsim/examples" if PREFIX else TOP / "tools/examples"
    by_name = {path.name: path for path in sorted(folder.glob("*")) if example_files(path)}
    sessions = TOP / "examples"
    return by_name | ({SESSIONS: sessions} if not PREFIX and sessions.is_dir() else {})
