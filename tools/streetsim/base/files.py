"""Files in and out, and how a tool ends. XML is read element by element; outputs are written whole or not at all;
Faults and signals become a line and a status (run_tool)."""
from __future__ import annotations

import contextlib
import csv
import gzip
import io
import json
import math
import os
import signal
import sys
import xml.etree.ElementTree as ElementTree
import zlib
from collections.abc import Callable, Collection, Iterable, Iterator, Mapping
from itertools import chain
from types import FrameType
from typing import IO, Any, Literal, NoReturn, TypeVar, cast, overload
from xml.etree.ElementTree import Element

from streetsim.base.folders import NAMES, SETTING, foreign_path, remove_own
from streetsim.base.halves import half_file, half_folder, is_half
from streetsim.base.unpacking import PIPE, RATIO, Chunks, Nesting, lifted, refuse_bomb, refuse_crowded

GZIP = b"\x1f\x8b"  # with which a gzip file begins
# What stands in the value of an attribute for letters that may not.
ESCAPED = (("&", "&amp;"), (">", "&gt;"), ("<", "&lt;"), ("\n", "&#10;"), ("\r", "&#13;"), ("\t", "&#9;"))
Json = dict[str, Any]  # an object of JSON
FilePath = str | os.PathLike[str]
Converted = TypeVar("Converted")
Default = TypeVar("Default")
Number = TypeVar("Number", int, float)
Main = Callable[[list[str]], int]  # a tool's main function: its words, and the status


class Fault(Exception):
    """What is wrong with an input, in one line. The tools print it and end with status 2."""


@overload
def open_text(path: FilePath, mode: Literal["r"] = "r", ratio: int = RATIO) -> IO[str]:
    ...


@overload
def open_text(path: FilePath, mode: str, ratio: int = RATIO) -> TextFile:
    ...


def open_text(path: FilePath, mode: str = "r", ratio: int = RATIO) -> TextFile:
    """Opens a text file, of UTF-8, to read (mode r) or to write (w anew, a at its end); line ends stay as they are.
    What is read is unpacked as open_bytes does it, and may begin with a byte order mark; what is written is gzip where
    the name ends with .gz (without time or name inside, so that equal runs give equal bytes). OSError or ValueError,
    and no Fault, where it cannot be opened: `reading` makes a Fault of it."""
    if mode == "r":
        return io.TextIOWrapper(open_bytes(path, ratio), encoding="utf-8-sig", newline="")
    if str(path).endswith(".gz"):
        return ZippedText(path, mode)
    return open(path, mode, encoding="utf-8", newline="")


def open_bytes(path: FilePath, ratio: int = RATIO) -> IO[bytes]:
    """Opens a file of bytes to read, unpacked where `is_gzip` says so. OSError or ValueError, and no Fault, where it
    cannot be opened or unpacks to more than `ratio` times its size allows: `reading` makes a Fault of it."""
    if not is_gzip(path):
        return open(path, "rb")
    if os.path.isfile(path):
        with open(path, "rb") as file:
            refuse_bomb(file, os.path.getsize(path), ratio)
    return cast(IO[bytes], gzip.open(path))


def is_gzip(path: FilePath) -> bool:
    """Whether a file is gzip, by its first bytes; a pipe or device, which is read once, by its name (.gz)."""
    if os.path.exists(path) and not os.path.isfile(path):
        return str(path).endswith(".gz")
    with open(path, "rb") as file:
        return file.read(2) == GZIP


class ZippedText:
    """Writes text, as UTF-8, to a gzip file without time or name inside."""

    def __init__(self, path: FilePath, mode: str) -> None:
        """path: of the file, whatever its name; mode: w (new) or a (at the end). OSError where it cannot be opened."""
        self.raw = open(path, f"{mode}b")
        self.zipped = gzip.GzipFile(filename="", fileobj=self.raw, mode="wb", mtime=0, compresslevel=6)

    def write(self, text: str) -> None:
        """Writes a text, as UTF-8."""
        self.zipped.write(text.encode())

    def writelines(self, texts: Iterable[str]) -> None:
        """Writes texts one after another; line ends are theirs."""
        for text in texts:
            self.write(text)

    def close(self) -> None:
        """Ends the gzip file and closes it."""
        self.zipped.close()
        self.raw.close()

    def __enter__(self) -> ZippedText:
        """Gives the file itself, which is open since it was made."""
        return self

    def __exit__(self, *_: object) -> None:
        """Closes the file."""
        self.close()


TextFile = IO[str] | ZippedText  # to write


@contextlib.contextmanager
def reading(path: FilePath) -> Iterator[None]:
    """While a file is read, turns what can go wrong (no such file, no XML, JSON or CSV, broken gzip, no UTF-8) into a
    Fault with the file's name; a KeyError, IndexError or ValueError of the block, too."""
    try:
        yield
    except ElementTree.ParseError as fault:
        raise Fault(f"{path}: not XML: {fault}") from None
    except json.JSONDecodeError as fault:
        raise Fault(f"{path}: not JSON: {fault}") from None
    except (EOFError, LookupError, ValueError, RecursionError, csv.Error, zlib.error) as fault:
        raise Fault(f"{path}: cannot be read: {fault}") from None
    except OSError as fault:
        raise Fault(f"{path}: {fault.strerror or fault}") from None


def elements(path: FilePath, roots: Collection[str] = ()) -> Iterator[Element]:
    """The children of the root of an XML file, each whole, one after another; the root keeps none of them, so that
    large files need little memory. Fault where the file cannot be read or is no XML, or the root's tag is none of
    `roots` (without any all will do)."""
    with reading(path), open_bytes(path) as file:
        chunks, parser, nesting = Chunks(file), ElementTree.XMLPullParser(("start", "end")), Nesting()
        begin, end = nesting.begin, nesting.end
        for event, element in events_of(parser, chunks):
            if event == "start":
                if nesting.depth == 0:
                    root = element
                    if roots and root.tag not in roots:
                        raise Fault(f"{path}: the root is <{root.tag}>, expected <{'> or <'.join(roots)}>")
                begin()
            elif end() == 1:
                yield element
                root.clear()
                chunks.kept_bytes = 0


def events_of(parser: ElementTree.XMLPullParser, chunks: Chunks) -> Iterator[tuple[str, Element]]:
    """The events of a parser that is fed with chunks, (start or end, element), which it tells to them."""
    for chunk in chain(chunks, (b"",)):
        if chunk:
            parser.feed(chunk)
        else:
            parser.close()
        for event, element in parser.read_events():
            chunks.stretch = 0
            yield event, element


def element_told(path: FilePath, element: Element) -> str:
    """An element of a file in words, as faults name it: the path, its tag, and its id (or else its from), if any."""
    name = element.get("id") or element.get("from")
    return f"{path}: <{element.tag}{f' {name!r}' if name else ''}>"


@overload
def attribute(path: FilePath, element: Element, name: str) -> str:
    ...


@overload
def attribute(path: FilePath, element: Element, name: str, convert: Callable[[str], Converted]) -> Converted:
    ...


def attribute(path: FilePath, element: Element, name: str, convert: Callable[[str], Any] = str) -> Any:
    """What `convert` makes of the text of an element's attribute, by its name; Fault where the element has none of this
    name, or `convert` raises ValueError. path: of the file, for the Fault's words alone."""
    text = element.get(name)
    if text is None:
        raise Fault(f"{element_told(path, element)}: no attribute {name!r}")
    try:
        return convert(text)
    except ValueError:
        raise Fault(f"{element_told(path, element)}: {name}={text!r} cannot be read") from None


def optional(
    path: FilePath, element: Element, name: str, convert: Callable[[str], Converted], default: Default
) -> Converted | Default:
    """As `attribute`, but the default where the element does not have the attribute."""
    return default if element.get(name) is None else attribute(path, element, name, convert)


def number(text: str) -> float:
    """The finite number that a text writes; ValueError otherwise."""
    value = float(text)
    if not math.isfinite(value):
        raise ValueError(text)
    return value


def only(convert: Callable[[str], Number], condition: Callable[[Number], bool]) -> Callable[[str], Number]:
    """A conversion of a text to a number, as `convert` makes it; ValueError for one for which `condition` is false."""

    def converted(text: str) -> Number:
        """The number that a text writes; ValueError where the condition does not hold for it."""
        value = convert(text)
        if not condition(value):
            raise ValueError(text)
        return value

    return converted


def at_least_zero(convert: Callable[[str], Number]) -> Callable[[str], Number]:
    """A conversion of a text to a number, as `convert` makes it; ValueError for a negative one."""
    return only(convert, lambda value: value >= 0)


def above_zero(convert: Callable[[str], Number]) -> Callable[[str], Number]:
    """A conversion of a text to a number, as `convert` makes it; ValueError for 0 and below."""
    return only(convert, lambda value: value > 0)


def attributes_of(values: Mapping[str, str]) -> str:
    """Attributes of an element, {name: text}, as the text of a tag, escaped, each with a blank before it."""
    return "".join(f" {name}={quoteattr(value)}" for name, value in values.items())


def quoteattr(text: str) -> str:
    """The value of an attribute as it stands in a tag, escaped and quoted, as xml.sax.saxutils has it: that loads
    urllib, which takes longer than most of what the tools import."""
    for letter, told in ESCAPED:
        text = text.replace(letter, told)
    if '"' not in text:
        return f'"{text}"'
    quoted = text.replace('"', "&quot;")
    return f'"{quoted}"' if "'" in text else f"'{text}'"


def filled(text: str) -> str:
    """The text itself, where it is not empty; ValueError otherwise."""
    if not text:
        raise ValueError(text)
    return text


def seconds(text: str) -> float:
    """The seconds that a text writes as SUMO's times: 3.5, or 01:30:00, or 1:01:30:00 with days; ValueError where it is
    none, or not between -10^9 and 10^12 s, both excluded. Minutes and seconds may be 60 or more."""
    if ":" in text:
        parts = text.split(":")
        scaled = zip(reversed(parts), (1, 60, 3600, 86400), strict=False)
        value, known = sum(float(part) * scale for part, scale in scaled), len(parts) in (3, 4)
    else:
        value, known = 0 + float(text), True
    if not known or not -1e9 < value < 1e12:
        raise ValueError(text)
    return value


def json_in(path: FilePath) -> object:
    """What a file holds as JSON; Fault where it cannot be read or is none."""
    with reading(path), open_text(path) as file:
        text = file.read(-1 if os.path.isfile(path) or lifted() else PIPE)
        refuse_crowded(text, os.path.getsize(path))
        return json.loads(text)


def read_json(path: FilePath, keys: Iterable[str]) -> Json:
    """The JSON object of a file; Fault where the file cannot be read or is no JSON, holds no object, or one without a
    key of `keys`. Other keys may stand there too."""
    value = json_in(path)
    if not isinstance(value, dict):
        raise Fault(f"{path}: no object of JSON")
    if absent := [key for key in keys if key not in value]:
        raise Fault(f"{path}: no {absent[0]!r} in it")
    return value


def read_json_list(path: FilePath) -> list[Json]:
    """The list of JSON objects of a file; Fault where it cannot be read, is no JSON or holds anything else."""
    value = json_in(path)
    if not isinstance(value, list) or not all(isinstance(entry, dict) for entry in value):
        raise Fault(f"{path}: no list of objects")
    return value


def checked_output_path(path: FilePath) -> str:
    """Checks the path of an output: Fault where anything but a regular file is there; gives its real path."""
    real_path = os.path.realpath(path)
    if os.path.exists(real_path) and not os.path.isfile(real_path):
        raise Fault(f"{path}: exists and is no regular file")
    return real_path


def refuse_equal(outputs: Mapping[str, FilePath], inputs: Iterable[FilePath] = ()) -> None:
    """Fault where two of the outputs, {what the user calls it: path}, are one file, or one of them is an input."""
    name_of_path: dict[str, str] = {}
    for name, path in outputs.items():
        real_path = os.path.realpath(path)
        if real_path in name_of_path:
            raise Fault(f"{path}: {name_of_path[real_path]} and {name} name the same file")
        name_of_path[real_path] = name
    for path in inputs:
        if os.path.realpath(path) in name_of_path:
            raise Fault(f"{path}: {name_of_path[os.path.realpath(path)]} names a file that is read")


def refuse_unwritable(folder: str, outputs: Mapping[str, FilePath | None], inputs: Iterable[FilePath]) -> None:
    """Fault where outputs cannot be written: as refuse_equal has it, where a file has no folder, where anything but a
    regular file is at its place, or where `folder`, which need not be there, is none. outputs: {what the user calls it:
    path}, None for one that is not wanted."""
    given = {name: path for name, path in outputs.items() if path is not None}
    refuse_equal(given, inputs)
    for path in given.values():
        if not os.path.isdir(parent := os.path.dirname(checked_output_path(path))):
            raise Fault(f"{path}: there is no folder {parent}")
    if os.path.exists(folder) and not os.path.isdir(folder):
        raise Fault(f"{folder}: exists and is no folder")


@contextlib.contextmanager
def whole_path(path: FilePath) -> Iterator[str]:
    """A path to write to. When the block ends, the file written there takes the place of the output `path`; after an
    exception nothing is left and the output is as it was. Fault where it cannot be written; an OSError of the block
    that names another file stays one."""
    real_path = checked_output_path(path)
    try:
        with half_file(real_path) as half:
            yield half
            with uninterrupted():
                os.replace(half, real_path)
                WRITTEN_PATHS.append(os.fspath(path))
    except OSError as fault:
        if fault.filename and not is_half(fault.filename):
            raise
        raise Fault(f"{path}: {fault.strerror or fault}") from None


@contextlib.contextmanager
def whole_file(path: FilePath) -> Iterator[TextFile]:
    """A text file to write (gzip where the name ends with .gz), which takes its name when the block ends; after an
    exception nothing of it is left. Fault where it cannot be written."""
    with whole_path(path) as half, open_text(half, "w") as file:
        yield file


def refuse_foreign(folder: FilePath, is_forced: bool = False, outputs: Iterable[FilePath | None] = ()) -> None:
    """Fault for a folder that is there, is not empty, and is not one that the tools made: it has no setting, or
    something that they do not write. Not so where it is forced. outputs: paths of other outputs of the command, which
    may lie in the folder."""
    also = [os.path.basename(path) for path in outputs if path is not None]
    foreign = "" if is_forced or not os.path.isdir(folder) else foreign_path(folder, also)
    if foreign != "":
        lacks = f"has no {SETTING} of a run of the tools"
        why = f"has {foreign}, which no run of the tools wrote" if foreign else lacks
        more = "or --force to write there, where files of the names of the tools' are replaced"
        raise Fault(f"{folder}: {why}: give --out another folder, {more}")


def write_setting(folder: str, setting: Json) -> None:
    """Writes setting.json to a folder of results. Fault where it cannot be written."""
    with whole_file(f"{folder}/{SETTING}") as file:
        json.dump(setting, file, indent=1)
        file.write("\n")


@contextlib.contextmanager
def whole_folder(path: FilePath, last_file: str, names: Collection[str] = NAMES) -> Iterator[str]:
    """A folder to write to, whose files come to the output folder `path` together, in the place of all that the tools
    wrote there before; after an exception of the block that folder is as it was. Whether it is one of the tools says
    refuse_foreign. Fault where it cannot be written, and for any OSError of the block.

    A file of the name `last_file` is away while the others take their places, so that a folder without it is not whole.
    names: of the files that the tool writes there, where another one's may stay beside; as a rule all of the tools.
    """
    is_new = not os.path.isdir(path)
    try:
        os.makedirs(path, exist_ok=True)
        with half_folder(path) as half:
            yield half
            with uninterrupted():
                move_files(half, path, last_file, names)
                if not is_half(os.fspath(path)):
                    note_kept(os.fspath(path))
        is_new = False
    except OSError as fault:
        named = fault.filename if fault.filename and not is_half(fault.filename) else path
        raise Fault(f"{named}: {fault.strerror or fault}") from None
    finally:
        if is_new:
            with contextlib.suppress(OSError):
                os.rmdir(path)


def move_files(source: str, target: FilePath, last_file: str, names: Collection[str] = NAMES) -> None:
    """Moves all files below the folder `source` to the same places below `target`; those of the name `last_file`
    go last of all. What the tools wrote to `target` before, as of remove_own, is removed first. Fault, before any is
    moved, where anything but a regular file is at a place, or a folder on the way is a link."""
    moved = [
        os.path.relpath(os.path.join(folder, name), source) for folder, _, files in os.walk(source) for name in files
    ]
    for name in moved:
        inside = os.path.dirname(name)
        directory = os.path.normpath(os.path.join(os.path.realpath(target), inside))
        if os.path.realpath(directory) != directory:
            raise Fault(f"{directory}: is a link to elsewhere")
        checked_output_path(os.path.join(directory, os.path.basename(name)))
    remove_own(target, last_file, names)
    for name in sorted(moved, key=lambda name: os.path.basename(name) == last_file):
        os.makedirs(os.path.dirname(os.path.join(target, name)), exist_ok=True)
        os.replace(os.path.join(source, name), os.path.join(target, name))


END_SIGNALS = (signal.SIGTERM, signal.SIGINT, signal.SIGHUP)
STATUSES = {128 + one: one.name for one in END_SIGNALS}  # of a tool that such a signal ended
AGAIN = 0.2  # seconds until a signal's exception that got lost is raised again


@contextlib.contextmanager
def uninterrupted() -> Iterator[None]:
    """Holds back, while the block runs, the signals that end a tool (END_SIGNALS); they come after it. They are held
    back from this thread alone, and from processes begun in the block for good."""
    before = signal.pthread_sigmask(signal.SIG_BLOCK, (*END_SIGNALS, signal.SIGALRM))
    try:
        yield
    finally:
        signal.pthread_sigmask(signal.SIG_SETMASK, before)


# the signals that asked for an end, where a library takes their exceptions for faults of its own
RECEIVED_SIGNALS: list[int] = []


def end_by_signal(number: int, _frame: FrameType | None) -> NoReturn:
    """Handles a signal: ends the tool by an exception, so that nothing half-written is left: KeyboardInterrupt for
    Ctrl-C, else SystemExit with status 128 + number."""
    RECEIVED_SIGNALS.append(number)
    signal.setitimer(signal.ITIMER_REAL, AGAIN, AGAIN)
    raise_end(number)


def raise_end(number: int) -> NoReturn:
    """Raises the exception by which a signal ends the tool."""
    if number == signal.SIGINT:
        raise KeyboardInterrupt
    sys.exit(128 + number)


def end_again(_number: int, _frame: FrameType | None) -> None:
    """Handles the timer that end_by_signal has set: raises the first signal's exception again where that got lost, as
    Python drops what is raised while it forgets an object; leaves it alone where it is on its way, through what cleans
    up."""
    fault = sys.exc_info()[1]
    while fault and not isinstance(fault, KeyboardInterrupt | SystemExit):
        fault = fault.__context__
    if not fault:
        raise_end(RECEIVED_SIGNALS[0])


@contextlib.contextmanager
def until_interrupted() -> Iterator[None]:
    """Runs the block until it is done or Ctrl-C ends it, and no more than it."""
    try:
        yield
    except KeyboardInterrupt:
        signal.setitimer(signal.ITIMER_REAL, 0)


def tell_dropped(dropped: "sys.UnraisableHookArgs") -> None:
    """Tells of an exception that Python drops, but for that of a signal, which end_again raises again."""
    if not (RECEIVED_SIGNALS and issubclass(dropped.exc_type, KeyboardInterrupt | SystemExit)):
        sys.__unraisablehook__(dropped)


KEPT_NOTES: list[str] = []  # what is kept, in words, of a tool that a signal ends, beside what was there before
WRITTEN_PATHS: list[str] = []  # of files that took their names; those of folders for a while are gone at the end


def note_kept(text: str) -> None:
    """Notes what is kept where a signal ends the tool from now on: files that are whole, a session that can go on."""
    if text not in KEPT_NOTES:
        KEPT_NOTES.append(text)


def print_signal_end(name: str) -> None:
    """Says on standard error which signal ended the tool, and what is kept of its work."""
    kept = dict.fromkeys([*KEPT_NOTES, *filter(os.path.exists, WRITTEN_PATHS)])
    with contextlib.suppress(OSError):
        print_fault(f"ended by {name}: {'kept: ' + ', '.join(kept) if kept else 'nothing was written'}")


def run_tool(main: Main) -> NoReturn:
    """Runs a tool's main function on the words of the command line and ends the process with its status, as status_of
    has it; SIGTERM and SIGHUP end it as end_by_signal says, where they are heard. Once all is done no signal counts."""
    for number in (signal.SIGTERM, signal.SIGHUP):
        if signal.getsignal(number) is not signal.SIG_IGN:
            signal.signal(number, end_by_signal)
    signal.signal(signal.SIGALRM, end_again)
    sys.unraisablehook = tell_dropped
    try:
        status = status_of(main)
    finally:
        for number in (signal.SIGALRM, *END_SIGNALS):  # SIGALRM first: the others set its timer
            signal.signal(number, signal.SIG_IGN)
    sys.exit(status)


def status_of(main: Main) -> int:
    """Runs a tool's main function on the words of the command line and gives the tool's status: what main gives, or
    that of what went wrong, which is told on standard error: 2 for a Fault or a file, 1 (untold) where nobody reads the
    output, 130 for Ctrl-C; other signals end it by SystemExit, and are told too."""
    try:
        try:
            return main(sys.argv[1:])
        finally:
            signal.setitimer(signal.ITIMER_REAL, 0)
            sys.stdout.flush()
    except KeyboardInterrupt:
        print_signal_end("Ctrl-C")
        return 128 + signal.SIGINT
    except SystemExit as ended:
        if isinstance(ended.code, int) and ended.code in STATUSES:
            print_signal_end(STATUSES[ended.code])
        raise
    except Exception as fault:
        if RECEIVED_SIGNALS:
            print_signal_end("Ctrl-C" if RECEIVED_SIGNALS[0] == signal.SIGINT else STATUSES[128 + RECEIVED_SIGNALS[0]])
            return 128 + RECEIVED_SIGNALS[0]
        return status_of_fault(fault)


def status_of_fault(fault: Exception) -> int:
    """Tells on standard error what went wrong with a tool, and gives its status, as status_of has it; raises what is
    none of the faults that are told."""
    if isinstance(fault, Fault):
        print_fault(fault)
        return 2
    if isinstance(fault, BrokenPipeError):
        drop_output()
        return 1
    if isinstance(fault, OSError):
        drop_output()
        print_fault(f"{fault.filename or 'standard output'}: {fault.strerror or fault}")
        return 2
    raise fault


def print_fault(text: object) -> None:
    """Prints what is wrong on standard error, after the tool's name."""
    print(f"{os.path.basename(sys.argv[0])}: {text}", file=sys.stderr)


def drop_output() -> None:
    """Sends standard output nowhere from now on, so that what it still holds fails no second time at the end."""
    os.dup2(os.open(os.devnull, os.O_WRONLY), sys.stdout.fileno())
