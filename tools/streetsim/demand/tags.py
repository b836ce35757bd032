"""Reads XML files tag by tag, with the line of each, so that a fault can name it."""
from collections.abc import Callable, Collection, Iterator, Mapping
from dataclasses import dataclass
from itertools import chain
from typing import TypeVar
from xml.parsers import expat

from streetsim.base.files import Fault, FilePath, open_bytes, reading
from streetsim.base.unpacking import Chunks, Nesting

Converted = TypeVar("Converted")


@dataclass(frozen=True, slots=True)
class Tag:
    """The begin of an element. line: from 1; inside: the names of the elements around it, from the root."""

    path: FilePath
    line: int
    name: str
    attributes: Mapping[str, str]
    inside: tuple[str, ...]

    @property
    def location(self) -> str:
        """The file and its line, as faults name it."""
        return f"{self.path}: line {self.line}"

    def get(self, name: str, convert: Callable[[str], Converted]) -> Converted:
        """An attribute, converted; Fault where it is absent or where `convert` raises ValueError, whose words it
        tells."""
        text = self.attributes.get(name)
        if text is None:
            raise Fault(f"{self.location}: <{self.name}> has no attribute {name!r}")
        try:
            return convert(text)
        except ValueError as fault:
            raise Fault(f"{self.location}: {name}={text!r} {fault}") from None


def read_tags(path: FilePath, roots: Collection[str]) -> Iterator[Tag]:
    """All elements of a file below its root, in the order in which they begin; Fault where the file cannot be read or
    is no XML, or the root's name is none of `roots`."""
    tags: list[Tag] = []
    inside: list[str] = []
    nesting = Nesting()
    parser = expat.ParserCreate()

    def begin(name: str, attributes: dict[str, str]) -> None:
        """Notes the begin of an element; Fault for a root with another name."""
        if not inside and name not in roots:
            raise Fault(f"{path}: the root is <{name}>, expected <{'> or <'.join(roots)}>")
        if inside:
            tags.append(Tag(path, parser.CurrentLineNumber, name, attributes, tuple(inside)))
        inside.append(name)
        nesting.begin()

    def end(_name: str) -> None:
        """Notes the end of an element."""
        inside.pop()
        nesting.end()

    parser.StartElementHandler = begin
    parser.EndElementHandler = end
    with reading(path), open_bytes(path) as file:
        for chunk in chain(chunks := Chunks(file), (b"",)):
            before = nesting.tag_count
            try:
                parser.Parse(chunk, not chunk)
            except expat.ExpatError as fault:
                raise Fault(f"{path}: not XML: {fault}") from None
            chunks.stretch, chunks.kept_bytes = chunks.stretch if nesting.tag_count == before else 0, 0
            yield from tags
            tags.clear()
