"""Runs of a program whose calls of the system are noted, and fail when they are told to (data/calls.c, loaded before
it); and what a disk would have that forgets what was not synced."""
import dataclasses
import errno
import os
import subprocess
import tempfile

from preloaded import library_of
from support import DATA

SOURCE = DATA / "calls.c"
SHORT = 0


@dataclasses.dataclass(frozen=True)
class Fault:
    """Which calls of a run fail, from this number on, counted from 1, and with which error; or are short, by SHORT."""

    number: int
    error: int
    many: int = 1


NONE = Fault(0, SHORT)


@dataclasses.dataclass(frozen=True)
class Call:
    """A call of the system: its file's number, or -1 of a name, what it answered, or the number of its error, below 0,
    and the bytes or the names that it was given."""

    name: str
    file: int
    answer: int
    words: tuple[bytes, ...]


@dataclasses.dataclass(frozen=True)
class Run:
    """How a run ended, and its calls."""

    status: int
    output: bytes
    error: bytes
    calls: tuple[Call, ...]


def call_of(line):
    """The call that a line tells."""
    name, file, answer, *words = line.split(b" ")
    return Call(name.decode(), int(file), int(answer), tuple(bytes.fromhex(word.decode()) for word in words))


class Noting:
    """Runs of programs, before each of which the library is loaded that notes its calls."""

    def __init__(self, folder):
        """folder: for the library."""
        self.folder, self.library = folder, library_of(SOURCE, folder)

    def run(self, command, text, folder, fault=NONE):
        """A run in a folder of which calls fail."""
        with tempfile.NamedTemporaryFile(dir=self.folder) as notes:
            told = {"FAIL": fault.number, "MANY": fault.many, "ERROR": fault.error}
            environment = {name: str(value) for name, value in told.items()}
            environment |= {"LD_PRELOAD": str(self.library), "NOTES": notes.name}
            done = subprocess.run(
                command, env=environment, input=text, capture_output=True, timeout=60, cwd=folder, check=False
            )
            calls = tuple(call_of(line) for line in notes.read().splitlines())
        return Run(done.returncode, done.stdout, done.stderr, calls)


@dataclasses.dataclass
class File:
    """A file: what a read gives, what is on the disk, and which bytes a sync that failed has forgotten: no later one
    writes them."""

    held: bytes = b""
    stays: bytes = b""
    forgotten: tuple[int, int] = (0, 0)

    def sync(self):
        """Has the disk hold all, with NULs for what was forgotten."""
        first, last = self.forgotten
        self.stays = self.held[:first] + bytes(min(last, len(self.held)) - first) + self.held[last:]

    def forget(self):
        """What is not on the disk is taken for written all the same."""
        self.forgotten = (len(os.path.commonprefix([self.held, self.stays])), len(self.held))

    def cut(self, size):
        """Leaves so many bytes."""
        self.held = self.held[:size]
        first, last = (min(at, size) for at in self.forgotten)
        self.forgotten = (first, last) if first < last else (0, 0)


class Disk:
    """The files of a folder, as calls of the system change them. What is not synced may be lost, and so may the names
    that were given since the folder was synced."""

    def __init__(self, folder):
        self.folder = str(folder.resolve())
        found = {str(path.resolve()): path.read_bytes() for path in folder.iterdir()}
        self.names = {name: File(text, text) for name, text in found.items()}
        self.stay = dict(self.names)
        self.open = {}

    def place(self, name):
        """The whole name of a file of the folder."""
        text = name.decode()
        return text if text.startswith("/") else f"{self.folder}/{text}"

    def do(self, call):
        """Makes a call that the program made."""
        if call.name in ("fsync", "fdatasync"):
            self.sync(call)
        elif call.answer >= 0:
            getattr(self, f"do_{call.name}", lambda call: None)(call)

    def do_open(self, call):
        name, how = self.place(call.words[0]), b"".join(call.words[1:])
        if b"c" in how and name not in self.names:
            self.names[name] = File()
        file = self.open[call.answer] = name if name == self.folder else self.names.get(name)
        if b"t" in how and isinstance(file, File):
            file.cut(0)

    def do_close(self, call):
        self.open.pop(call.file, None)

    def do_write(self, call):
        if isinstance(file := self.open.get(call.file), File):
            file.held += call.words[0]

    def do_ftruncate(self, call):
        if isinstance(file := self.open.get(call.file), File):
            file.cut(int(call.words[0]))

    def do_rename(self, call):
        self.names[self.place(call.words[1])] = self.names.pop(self.place(call.words[0]))

    def do_unlink(self, call):
        self.names.pop(self.place(call.words[0]), None)

    def sync(self, call):
        """A sync of a file or of the folder, which may have failed. One that was interrupted is made again."""
        file = self.open.get(call.file)
        if isinstance(file, File) and call.answer == 0:
            file.sync()
        elif isinstance(file, File) and call.answer != -errno.EINTR:
            file.forget()
        elif file == self.folder and call.answer == 0:
            self.stay = dict(self.names)

    def text(self, name, names):
        """What a file of this name has behind a crash, by the names that are then there."""
        file = names.get(f"{self.folder}/{name}")
        return file.stays if file else b""

    def texts(self, name):
        """What it may have: by the names when the folder was last synced, or by the last ones."""
        return [self.text(name, self.stay), self.text(name, self.names)]
