"""Files and folders that are being written: they have other names until they are whole; and what a killed tool left of
them is removed.

A tool holds a lock on what it writes, which ends with it however it ends; so what is not held was left.
"""
import contextlib
import fcntl
import glob
import os
import shutil
import tempfile
from collections.abc import Callable, Iterator

FOLDER = ".half-"


@contextlib.contextmanager
def half_folder(inside: str | os.PathLike[str]) -> Iterator[str]:
    """The path of an empty hidden folder to write to inside another one; it is removed, with what is in it, when the
    block ends. First those that killed tools left there are removed."""
    remove_left(os.path.join(glob.escape(os.fspath(inside)), f"{FOLDER}*"))
    path, held = hold_new(lambda: tempfile.mkdtemp(prefix=FOLDER, dir=inside))
    try:
        yield path
    finally:
        shutil.rmtree(path, ignore_errors=True)
        os.close(held)


@contextlib.contextmanager
def half_file(path: str) -> Iterator[str]:
    """The path of a new hidden file to write beside `path`; it is removed when the block ends, unless it was renamed.
    First those for this `path` that killed tools left are removed."""
    folder, name = os.path.split(path)
    stem, dot, end = name.partition(".")
    remove_left(os.path.join(glob.escape(folder), f".{glob.escape(stem)}.*.half{glob.escape(dot + end)}"))

    def make() -> str:
        """Makes an empty file of a name that no other one has, and gives its path."""
        half = os.path.join(folder, f".{stem}.{os.urandom(4).hex()}.half{dot}{end}")
        open(half, "x").close()
        return half

    half, descriptor = hold_new(make)
    try:
        yield half
    finally:
        with contextlib.suppress(OSError):
            os.remove(half)
        os.close(descriptor)


def is_half(path: str) -> bool:
    """Whether a path is of what is being written (`half_folder`, `half_file`), or lies in it, by its names alone."""
    return any(part.startswith(FOLDER) or (part[:1] == "." and ".half" in part) for part in str(path).split(os.sep))


def hold_new(make: Callable[[], str]) -> tuple[str, int]:
    """(path of the file or folder that `make` makes, each time another one; descriptor by which a lock on it is held,
    for the caller to close); no lock is held where its file system has none. Made anew where another tool has just
    removed it, or is about to, as it was not locked yet. OSError where it cannot be opened."""
    while True:
        path = make()
        with contextlib.suppress(FileNotFoundError):
            descriptor = os.open(path, os.O_RDONLY)
            if lock(descriptor) is not False and os.path.exists(path):
                return path, descriptor
            os.close(descriptor)


def lock(descriptor: int) -> bool | None:
    """Takes the lock on an open file, by its descriptor, without waiting: true where this tool has it now, false where
    another holds it, none where its file system has no locks."""
    try:
        fcntl.flock(descriptor, fcntl.LOCK_EX | fcntl.LOCK_NB)
    except BlockingIOError:
        return False
    except OSError:
        return None
    return True


def remove_left(pattern: str) -> None:
    """Removes the files and folders of a pattern (as glob's) that no tool holds; what cannot be removed stays."""
    for path in glob.glob(pattern, include_hidden=True):
        with contextlib.suppress(OSError):
            descriptor = os.open(path, os.O_RDONLY | os.O_NOFOLLOW)
            try:
                if lock(descriptor):
                    shutil.rmtree(path) if os.path.isdir(path) else os.remove(path)
            finally:
                os.close(descriptor)
