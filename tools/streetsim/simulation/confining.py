"""Where files are written that words of a port's clients name: anywhere, or in one folder alone."""
import contextlib
from collections.abc import Iterable, Iterator
from contextvars import ContextVar
from pathlib import Path

_folder: ContextVar[Path | None] = ContextVar("folder", default=None)


@contextlib.contextmanager
def confined(folder: str | None) -> Iterator[None]:
    """Until the block ends, files that are named are in a folder; without one (None) they are anywhere."""
    token = _folder.set(None if folder is None else Path(folder).resolve())
    try:
        yield
    finally:
        _folder.reset(token)


def why_not_written(paths: Iterable[str]) -> str | None:
    """Why a file of some paths is not written, or None. Links are followed."""
    folder = _folder.get()
    if folder is not None:
        for path in paths:
            if folder not in Path(path).resolve().parents:
                return f"{path}: files of clients are written in {folder} alone (--writes)"
    return None
