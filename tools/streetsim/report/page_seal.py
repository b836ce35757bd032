"""The seal of a page: what made it (run files, maps, words, sums of all), packed as text of the page, or in a file
beside it."""
import base64
import hashlib
import json
import os
import re
import sys
import zipfile
import zlib
from collections.abc import Iterable, Iterator, Mapping
from dataclasses import dataclass, field
from html import escape, unescape
from pathlib import Path

from streetsim.base.files import Fault, Json, whole_path
from streetsim.base.unpacking import TooMuch, inflate, lifted, most_unpacked, refuse_crowded
from streetsim.model.folder import LIGHTS
from streetsim.report.page_markup import facts

LARGEST = 5_000_000  # bytes of a packed file in the page; larger ones are in the file beside it
MOST_BYTES = 1 << 28  # bytes to which all sealed files unpack
BESIDE_SUFFIX = ".sealed.zip"  # after the page's name
FORM = 3  # of the seal; that of streetsim 1.0.0 says nothing of it
# Earlier forms, and whose they are.
EARLIER = {2: "the tools up to commit da17d40c, in which vehicles gave way at lights by fixed seconds"}
SUM = re.compile("[0-9a-f]{64}")
# What a seal says, by name with its type; and of each of "plans".
CONTENT = {"form": int, "words": list, "plans": list, "tools": str, "files": dict, "beside": list}
PLAN = {
    "name": str, "run": str, "map": str, "words": list, "again": list, "seeds": list, "several": bool, "program": str,
}
BEGIN, END = '<script type="application/json" id="sealed">', "</script>"
PACK = re.compile(r'<script type="text/plain" class="sealed" title="([^"]*)">([^<]*)</script>')
NAMES = "names.csv"  # the sealed file of names of one's own
COUNTS = "counts-"  # the begin of the names of sealed files of counts, before their number
HOW_TO_CHECK = (
    "To check this page, save it, open a terminal on a computer with streetsim in the folder where it lies, and type "
    "streetsim-check and the file's name: one line says whether all numbers are those of the simulation."
)
WHAT_IT_SHOWS = (
    "The check runs the simulation again from what is sealed in here, makes the page anew and wants the same page, "
    "byte by byte. It shows that its numbers, words and pictures are the simulation's. It does not show that the "
    "street will do so, nor that the sealed files describe it well. Title, question, names of plans, files and road "
    "works, and the sums of the program and the tools, are those of whoever made the page."
)


@dataclass(frozen=True, slots=True)
class Seal:
    """What made a page. content, as CONTENT has it: "plans" as sealed_plan of sealing, "files": {name: SHA-256},
    "beside": names of those in the file beside it; texts: the files that are packed in the page itself."""

    content: Json
    texts: dict[str, str] = field(default_factory=dict)  # by name, as `packed` makes them
    beside_name: str = ""  # the name of the file beside the page, where some are too large

    def html(self) -> str:
        """The section at the page's end, with the packed files, as HTML."""
        content_text = canonical(self.content)
        rows = [("how to check", escape(HOW_TO_CHECK)), ("what that shows", escape(WHAT_IT_SHOWS))]
        for plan in self.content["plans"]:
            words = " ".join(plan["words"]) or "none"
            seeds = f"seeds {', '.join(map(str, plan['seeds']))}; options of streetsim-run: {words}"
            rows.append((escape(plan["name"]), escape(seeds)))
        rows.append(("options of the page", escape(" ".join(self.content["words"]) or "none")))
        for name, known in sorted(self.content["files"].items()):
            place = f" (in {self.beside_name})" if name in self.content["beside"] else ""
            rows.append((escape(name), f"SHA-256 {known}{escape(place)}"))
        rows.append(("tools", f"SHA-256 {self.content['tools']}"))
        rows.append(("all of this", f"SHA-256 {sum_of(content_text.encode())}"))
        inert = content_text.replace("<", "\\u003c")
        packs = "\n".join(
            f'<script type="text/plain" class="sealed" title="{escape(name)}">{text}</script>'
            for name, text in sorted(self.texts.items())
        )
        section = f'<section aria-labelledby="check"><h2 id="check">How to check this page</h2>{facts(rows)}</section>'
        return f"{section}\n{BEGIN}{inert}{END}\n{packs}"


def canonical(value: Json) -> str:
    """JSON text that is equal for equal values, whatever the order of their keys."""
    return json.dumps(value, separators=(",", ":"), sort_keys=True)


def sum_of(content: bytes) -> str:
    """The SHA-256 of bytes, as hexadecimal digits."""
    return hashlib.sha256(content).hexdigest()


def packed(content: bytes) -> str:
    """Bytes as text that may stand in a page: compressed by zlib, in base 64."""
    return base64.b64encode(zlib.compress(content, 9)).decode()


def unpacked(text: str, most_bytes: int = MOST_BYTES) -> bytes:
    """The bytes of a text that `packed` made; ValueError or zlib.error where it is none, or more than so many bytes."""
    data = base64.b64decode(text, validate=True)
    return inflate(data, most_bytes if lifted() else min(most_bytes, most_unpacked(len(data))))


def sealed(content: Json, files: Mapping[str, bytes], page: str) -> tuple[Seal, dict[str, bytes]]:
    """(the seal of a page, the files that are too large for it, content by name, for write_beside). content: what the
    seal says but for its form and files; files: content by name; page: its path. Writes nothing."""
    texts = {name: packed(one) for name, one in files.items()}
    large = {name: files[name] for name, text in texts.items() if len(text) > LARGEST}
    sums = {name: sum_of(one) for name, one in files.items()}
    content = {**content, "form": FORM, "files": sums, "beside": sorted(large)}
    kept = {name: text for name, text in texts.items() if name not in large}
    return Seal(content, kept, beside_of(page) if large else ""), large


def beside_of(page: str) -> str:
    """The name, without folder, of the file beside a page."""
    return Path(page).stem + BESIDE_SUFFIX


def write_beside(page: str, large: Mapping[str, bytes]) -> None:
    """Writes the file beside a page, equal for equal content; nothing where there is nothing for it. page: its path;
    large: what is too large for it, by name. Fault where it cannot be written."""
    if not large:
        return
    with whole_path(Path(page).parent / beside_of(page)) as half, zipfile.ZipFile(half, "w") as made:
        for name, content in sorted(large.items()):
            made.writestr(zipfile.ZipInfo(name), content, zipfile.ZIP_DEFLATED)


def seal_of(page: str, text: str) -> Seal:
    """The seal in a page's text; page: its path, for faults and the name of the file beside it. Fault where it has
    none, one of an earlier form, or one that cannot be read or names what no page does."""
    begin = text.find(BEGIN) + len(BEGIN)
    end = text.find(END, begin)
    if begin < len(BEGIN) or end < 0:
        raise Fault(f"{page}: not sealed: streetsim-report --sealed makes a page that can be checked")
    try:
        refuse_crowded(text[begin:end])
        content = json.loads(text[begin:end])
        if "form" not in content and "drawn_by" in content:
            raise Fault(f"{page}: sealed in the form of streetsim 1.0.0: that version checks it")
        if (form := content.get("form")) in EARLIER:
            raise Fault(f"{page}: sealed in form {form}, by {EARLIER[form]}: those check it")
        check_content(content)
    except (ValueError, KeyError, TypeError, AttributeError, RecursionError) as fault:
        raise Fault(f"{page}: what is sealed in it cannot be read ({fault}): the page was changed") from None
    texts = {unescape(name): pack for name, pack in PACK.findall(text, end)}
    return Seal(content, texts, beside_of(page) if content["beside"] else "")


def check_content(content: Json) -> None:
    """ValueError, KeyError or TypeError where what a seal says is not of the types of CONTENT and PLAN, or it names
    files that no page has. Each file has one place that its plan's number and its kind give, and a plain name."""
    check_types(content, CONTENT)
    if content["form"] != FORM:
        raise ValueError(f"it has the form {content['form']}, and these tools know {FORM}")
    known_names = {NAMES, *(f"{COUNTS}{number}" for number in range(1, 1 + len(content["files"])))}
    for number, plan in enumerate(content["plans"], 1):
        check_types(plan, PLAN)
        check_all([*plan["words"], *plan["again"]], str)
        check_all(plan["seeds"], int)
        name = os.path.basename(plan["run"])
        run, mapped = f"plan-{number}/{name}", f"plan-{number}/map.json"
        if (plan["run"], plan["map"]) != (run, mapped) or name in ("", ".", "..", "map.json", LIGHTS):
            raise ValueError(f"a run is called {plan['run']!r}, its map {plan['map']!r}")
        if {run, mapped} - {*content["files"]} or not plan["seeds"]:
            raise ValueError(f"{run!r} or its map is not sealed in it, or has no seeds")
        if plan["program"] and not SUM.fullmatch(plan["program"]):
            raise ValueError("the sum of a program is none")
        known_names |= {run, mapped, f"plan-{number}/{LIGHTS}"}
    check_all([*content["words"], *content["beside"], *content["files"].values()], str)
    if not all(map(SUM.fullmatch, (content["tools"], *content["files"].values()))):
        raise ValueError("a sum is none")
    if strange := [name for name in (*content["files"], *content["beside"]) if name not in known_names]:
        raise ValueError(f"a sealed file is called {strange[0]!r}")


def check_types(value: Json, kinds: Mapping[str, type]) -> None:
    """ValueError where an object has other names than `kinds`, or a value of another type than there."""
    if {name: type(one) for name, one in value.items()} != dict(kinds):
        raise ValueError("it says other things")


def check_all(values: Iterable[object], kind: type) -> None:
    """ValueError where one of some values is of another type."""
    if {*map(type, values)} - {kind}:
        raise ValueError("it says other things")


def sealed_files(seal: Seal, page: str) -> Iterator[tuple[str, bytes]]:
    """Each sealed file, (name, content), of a page at a path; Fault where one is missing, or is not what the seal says,
    or together they have more than MOST_BYTES."""
    large = read_beside(seal, page)
    bytes_left = sys.maxsize if lifted() else MOST_BYTES
    for name, sealed_sum in seal.content["files"].items():
        try:
            content = large[name] if name in seal.content["beside"] else unpacked(seal.texts[name], bytes_left)
        except TooMuch as fault:
            raise Fault(f"{page}: the sealed file {name}: {fault}") from None
        except (KeyError, ValueError, zlib.error):
            raise Fault(f"{page}: the sealed file {name} cannot be read: it was changed") from None
        bytes_left -= len(content)
        if (found := sum_of(content)) != sealed_sum:
            raise Fault(f"{page}: the sealed file {name} was changed: SHA-256 said to be {sealed_sum}, found {found}")
        yield name, content


def read_beside(seal: Seal, page: str) -> dict[str, bytes]:
    """The files in the file beside a page, by name; empty where the seal needs none. Fault where it cannot be read, has
    other files than the seal says, or what unpacks to more than MOST_BYTES."""
    if not seal.beside_name:
        return {}
    path = Path(page).parent / seal.beside_name
    try:
        with zipfile.ZipFile(path) as archive:
            names, entries = sorted(seal.content["beside"]), archive.infolist()
            kinds = {one.compress_type for one in entries} - {zipfile.ZIP_STORED, zipfile.ZIP_DEFLATED}
            if [one.filename for one in entries] != names or archive.comment or entries[0].header_offset or kinds:
                raise ValueError("it has other files than the page says")
            size = sum(one.file_size for one in entries)
            if size > min(MOST_BYTES, most_unpacked(path.stat().st_size)) and not lifted():
                raise TooMuch(f"unpacks to {size:,} bytes")
            return {name: archive.read(name) for name in names}
    except (OSError, EOFError, RuntimeError, ValueError, NotImplementedError, zipfile.BadZipFile, zlib.error) as fault:
        raise Fault(f"{path}: the file beside {page} cannot be read: {fault}") from None
