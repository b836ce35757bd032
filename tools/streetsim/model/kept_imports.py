"""Imports that are kept on the disk between two starts: of equal words, files and tools an import is the same.

They lie in the user's folder for caches, XDG_CACHE_HOME/streetsim/imports, and are read by nobody but the user. An
entry is taken where all that it was made of is equal: the bytes of all files, the words, the tools' own files and
Python; its own sum must be right. Everything else is as if it were not there. STREETSIM_CACHE=off takes and keeps none.
"""
import hashlib
import json
import os
import stat
import sys
from collections.abc import Iterable, Iterator, Sequence
from contextlib import suppress
from pathlib import Path
from typing import NamedTuple

from streetsim import VERSION
from streetsim.base.files import FilePath
from streetsim.base.unpacking import LIFT

SWITCH, SWITCHED_OFF = "STREETSIM_CACHE", "off"  # in the environment
MARK = b"streetsim import 1\n"  # with which an entry begins; its number is that of the form of entries
MOST_ENTRIES, MOST_BYTES = 32, 256 << 20  # entries; bytes of all of them
LARGEST = 64 << 20  # bytes of one
SUM = 32  # bytes of a sum
GROUP_OR_OTHERS = stat.S_IRWXG | stat.S_IRWXO


class KeptImport(NamedTuple):
    """What an import writes: the lines of the run, its map, and what it said on standard error."""

    run: str
    map: str
    messages: str


def kept_folder() -> Path | None:
    """The folder of the entries, which is made where it is not there; None where imports are not to be kept, or the
    folder cannot be made, or is of somebody else, or others may write there."""
    home = os.environ.get("XDG_CACHE_HOME", "")
    base = Path(home) if os.path.isabs(home) else Path(os.path.expanduser("~/.cache"))
    if os.environ.get(SWITCH, "") == SWITCHED_OFF or not base.is_absolute():
        return None
    folder = base / "streetsim/imports"
    with suppress(OSError):
        folder.mkdir(0o700, parents=True, exist_ok=True)
        status = os.lstat(folder)
        if stat.S_ISDIR(status.st_mode) and status.st_uid == os.geteuid() and not status.st_mode & GROUP_OR_OTHERS:
            return folder
    return None


def key_of(arguments: Sequence[str], files: Iterable[str]) -> str | None:
    """What an import hangs on, as a sum in hex: its words, the bytes of the files that it reads, the tools' own files,
    Python, and the limits on what is read. None where one of the files is not a regular file that can be read."""
    digest = hashlib.sha256()
    limits = os.environ.get(LIFT, "")
    digest.update(json.dumps([VERSION, sys.version, limits, os.getcwd(), *arguments, *tool_files()]).encode())
    for path in files:
        try:
            if not os.path.isfile(path):
                return None
            with open(path, "rb") as file:
                file_digest = hashlib.file_digest(file, "sha256").digest()
        except OSError:
            return None
        digest.update(os.path.realpath(path).encode(errors="surrogateescape") + b"\0" + file_digest)
    return digest.hexdigest()


def tool_files() -> Iterator[str]:
    """The tools' own files, each with its size and the time at which it was changed, in the order of their names."""
    top = Path(__file__).resolve().parents[1]
    for folder in sorted([top, *(Path(entry.path) for entry in os.scandir(top) if entry.is_dir())]):
        for file in sorted(os.scandir(folder), key=lambda entry: entry.name):
            if file.name.endswith(".py"):
                status = file.stat()
                yield f"{file.path} {status.st_size} {status.st_mtime_ns}"


def read_kept(key: str) -> KeptImport | None:
    """The import of a key (as key_of gives it); None where it is not kept, or the entry is cut, changed or of another
    form."""
    if (folder := kept_folder()) is None:
        return None
    with suppress(OSError, ValueError, TypeError):
        handle = os.open(folder / key, os.O_RDONLY | os.O_NOFOLLOW)
        with open(handle, "rb") as file:
            status = os.fstat(handle)
            if not stat.S_ISREG(status.st_mode) or status.st_uid != os.geteuid() or status.st_size > LARGEST:
                return None
            data = file.read(LARGEST)
        head, body = data[: len(MARK) + SUM], data[len(MARK) + SUM :]
        if head == MARK + sum_of_entry(key, body):
            os.utime(folder / key)
            return KeptImport(*(part.decode() for part in parts_of(body)))
    return None


def write_kept(key: str, import_texts: KeptImport) -> None:
    """Keeps an import by its key, whole or not at all; then leaves out the entries that were taken longest ago, until
    those that are left are within MOST_ENTRIES and MOST_BYTES. Does nothing where that cannot be done."""
    body = body_of(import_texts)
    if (folder := kept_folder()) is None or len(body) + len(MARK) + SUM > LARGEST:
        return
    half = folder / f"{key}.{os.getpid()}.half"
    with suppress(OSError):
        try:
            handle = os.open(half, os.O_WRONLY | os.O_CREAT | os.O_EXCL | os.O_NOFOLLOW, 0o600)
            with open(handle, "wb") as file:
                file.write(MARK + sum_of_entry(key, body) + body)
            os.replace(half, folder / key)
        except OSError:
            half.unlink(missing_ok=True)
        leave_out(folder)


def keep_files(key: str, run: FilePath, mapping: FilePath, messages: str) -> None:
    """Keeps an import by its key, as write_kept does, of the files that it wrote."""
    paths = Path(run), Path(mapping)
    if kept_folder() is not None and sum(path.stat().st_size for path in paths) <= LARGEST:
        run_text, map_text = (path.read_text(encoding="utf-8") for path in paths)
        write_kept(key, KeptImport(run_text, map_text, messages))


def leave_out(folder: Path) -> None:
    """Removes the entries of a folder that are too many or too large together, those taken longest ago first."""
    entries = [(entry.stat(follow_symlinks=False), entry.path) for entry in os.scandir(folder)]
    total = 0
    for index, (status, path) in enumerate(sorted(entries, key=lambda pair: -pair[0].st_mtime_ns)):
        total += status.st_size
        if (index >= MOST_ENTRIES or total > MOST_BYTES) and stat.S_ISREG(status.st_mode):
            os.unlink(path)


def sum_of_entry(key: str, body: bytes) -> bytes:
    """The sum that stands before the body of an entry."""
    return hashlib.sha256(key.encode() + body).digest()


def body_of(import_texts: KeptImport) -> bytes:
    """The texts of an import behind each other, each with its length before it, 8 bytes."""
    return b"".join(len(data).to_bytes(8, "big") + data for data in (text.encode() for text in import_texts))


def parts_of(body: bytes) -> Iterator[bytes]:
    """The texts that body_of has put together, as bytes; ValueError where they are not."""
    position = 0
    while position < len(body):
        size, position = int.from_bytes(body[position : position + 8], "big"), position + 8
        if position + size > len(body):
            raise ValueError("an entry is cut")
        yield body[position : position + size]
        position += size
