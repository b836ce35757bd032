"""Limits on what is read: of a packed file on what it unpacks to, of XML and JSON on what stands in one piece.

A file of 2 MB can unpack to 2 GB, and a text without an end costs memory or time; either is told before it does. The
limits lie far above files of real cities. LIFT in the environment, which the word --large-files sets, lifts them.
"""
from __future__ import annotations

import os
import zlib
from collections.abc import Iterable, Iterator
from typing import IO

LIFT = "STREETSIM_LARGE_FILES"  # in the environment, 1: no limits
UNPACKED_BASE = 1 << 24  # bytes that any packed file may unpack to
RATIO = 100  # how often its own size a larger one may unpack to; files of SUMO do so 5 to 20 times
STREAMED = 1_000  # the same of what stood on lanes, poll by poll, where polls may be equal; it is read one by one
LONGEST = 1 << 22  # bytes of XML without the begin or end of an element; letters of a line of a table
LINE = 1 << 26  # letters of a line of a run or a record
PIPE = 1 << 28  # letters of JSON of what is no regular file, as its size is not known
DEEPEST = 100  # elements of XML in one another
MOST_BELOW, MOST_KEPT = 1 << 20, 1 << 25  # elements in one element below the root, and its bytes
BRACKETS = 2_000_000  # objects and lists in one text of JSON, and a quarter of the bytes of its file more
CHUNK, MEGA = 1 << 16, 1 << 20  # bytes that are read, and unpacked, at once


class TooMuch(ValueError):
    """A limit is passed; the text says which, and goes behind the file's name."""

    def __init__(self, text: str) -> None:
        """text: what the file has or does."""
        super().__init__(f"{text}, which no file of a city does: --large-files reads it all the same")


def lifted() -> bool:
    """Whether the limits are lifted."""
    return os.environ.get(LIFT) == "1"


def lift() -> None:
    """Lifts the limits for this process and those that it starts from now on."""
    os.environ[LIFT] = "1"


def most_unpacked(size: int, ratio: int = RATIO) -> int:
    """The bytes to which a packed file of so many bytes may unpack."""
    return UNPACKED_BASE + ratio * size


def refuse_bomb(file: IO[bytes], size: int, ratio: int = RATIO) -> None:
    """TooMuch where a gzip file, open for its packed bytes at their begin, unpacks to more than most_unpacked of its
    size; reads it, to its end or to there, and keeps nothing. zlib.error for what is no gzip file; what is cut off is
    let be, as its reader tells that."""
    greatest_size = most_unpacked(size, ratio)
    if lifted() or 1032 * size <= greatest_size:  # no stream of zlib unpacks to more than 1,032 times its size
        return
    unpacked, member = 0, None
    while packed := file.read(CHUNK):
        while packed := packed if member else packed.lstrip(b"\0"):  # zeros may stand behind a member
            stream = member or zlib.decompressobj(31)
            unpacked += len(stream.decompress(packed, MEGA))
            if unpacked > greatest_size:
                raise TooMuch(f"unpacks to more than {greatest_size:,} bytes, and has {size:,}")
            member, packed = (None, stream.unused_data) if stream.eof else (stream, stream.unconsumed_tail)


def inflate(data: bytes, greatest_size: int) -> bytes:
    """What a whole stream of zlib unpacks to; TooMuch for more than `greatest_size` bytes, zlib.error where it is
    none, is cut off, or has something behind it."""
    stream = zlib.decompressobj()
    unpacked = stream.decompress(data, greatest_size + 1)
    if len(unpacked) > greatest_size:
        raise TooMuch(f"unpacks to more than {greatest_size:,} bytes")
    if not stream.eof or stream.unused_data:
        raise zlib.error("cut off, or with something behind its end")
    return unpacked


class Chunks:
    """The bytes of a file of XML, in chunks. Who reads them sets `stretch` to 0 where an element begins or ends, and
    `kept_bytes` where nothing is kept of those before. Chunks grow where no element does, as a parser begins anew with
    each chunk at the piece that has not ended."""

    def __init__(self, file: IO[bytes]) -> None:
        """file: open, at its begin."""
        self.file, self.stretch, self.kept_bytes = file, 0, 0
        self.begin = b""  # what stands before the root's end is known, where entities are declared

    def __iter__(self) -> Iterator[bytes]:
        """The chunks. TooMuch for a piece that does not end within LONGEST bytes, and for entities."""
        root_begun = False
        while chunk := self.file.read(max(CHUNK, min(self.stretch, LONGEST - self.stretch))):
            self.stretch += len(chunk)
            self.kept_bytes += len(chunk)
            if not root_begun:
                self.begin += chunk
                if b"<!ENTITY" in self.begin.replace(b"\0", b""):
                    raise ValueError("declares entities, which are not read")
            yield chunk
            root_begun = root_begun or self.stretch == 0
            if self.stretch > LONGEST and not lifted():
                raise TooMuch(f"has more than {LONGEST:,} bytes without the begin or end of an element")
            if self.kept_bytes > MOST_KEPT and not lifted():
                raise TooMuch(f"has an element of more than {MOST_KEPT:,} bytes")


class Nesting:
    """How deep and how much XML stands in one element below the root."""

    def __init__(self) -> None:
        """Before the root."""
        self.depth, self.count, self.tag_count = 0, 0, 0  # elements open; begun below the root; begun or ended in all

    def begin(self) -> None:
        """An element begins; TooMuch where it is too deep, or one too many."""
        self.depth, self.count, self.tag_count = self.depth + 1, self.count + 1, self.tag_count + 1
        if (self.depth > DEEPEST or self.count > MOST_BELOW) and not lifted():
            raise TooMuch(f"has an element with more than {DEEPEST} in one another, or {MOST_BELOW:,} in all, in it")

    def end(self) -> int:
        """An element ends; gives how many are open still."""
        self.depth = depth = self.depth - 1
        self.tag_count += 1
        if depth <= 1:
            self.count = 0
        return depth


def refuse_crowded(text: str, size: int = 0) -> None:
    """TooMuch for a text of JSON with more objects and lists than BRACKETS; size: bytes of its file."""
    limit = BRACKETS + size // 4
    if len(text) > limit and text.count("{") + text.count("[") > limit and not lifted():
        raise TooMuch(f"has more than {limit:,} objects and lists")


def lines_of(file: IO[str], most: int = LONGEST) -> Iterator[str]:
    """The lines of a file; TooMuch for one of more than so many letters."""
    limit = -1 if lifted() else most + 1
    while line := file.readline(limit):
        if limit == len(line):
            raise TooMuch(f"has a line of more than {most:,} letters")
        yield line
