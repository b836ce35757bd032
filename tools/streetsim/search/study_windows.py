"""Which hours for works: variants of a study that have the same works at other hours. Fault where works are none."""
from collections.abc import Iterable, Mapping, Sequence

from streetsim.base.files import Fault, Json
from streetsim.base.words import names_in, time_of_day
from streetsim.control.works_asked import FORM, clock_of


def with_windows(variants: Mapping[str, Json], clocks: Sequence[int]) -> dict[str, Json]:
    """Variants with each that closes lanes in place of itself at each of some hours: the same works with the first of
    them beginning at a clock, called NAME 7:00, ..; without clocks those of its own close_at, where it has any."""
    tables: dict[str, Json] = {}
    for name, table in variants.items():
        own = {key: value for key, value in table.items() if key != "close_at"}
        hours = clocks or (clocks_of(table["close_at"]) if "close_at" in table else ())
        begins = hours if table.get("close") else ()
        tables |= {f"{name} {time_of_day(begin)}": {**own, "close": moved(own["close"], begin)} for begin in begins}
        if not begins:
            tables[name] = own
    return tables


def clocks_of(texts: object) -> list[int]:
    """The clocks of hours, 07:00 or seconds; Fault for others."""
    if not isinstance(texts, list) or not all(isinstance(text, str) for text in texts) or not texts:
        raise Fault(f"close_at = {texts!r} is no list of hours")
    clocks = {text: clock_of(text) for text in texts}
    if wrong := [text for text, clock in clocks.items() if clock is None]:
        raise Fault(f"close_at {wrong[0]!r}: expected S, HH:MM or HH:MM:SS")
    return [clock for clock in clocks.values() if clock is not None]


def moved(close: Iterable[str], begin: int) -> list[str]:
    """Works, as --close takes them, moved together so that the first begins at a clock; Fault where one has another
    form."""
    works = [one for text in close for one in names_in(text)]
    matches = [(match, clock_of(match[4]), clock_of(match[5])) for one in works if (match := FORM.fullmatch(one))]
    spans = [(match, first, last) for match, first, last in matches if first is not None and last is not None]
    if len(spans) < len(works) or not spans:
        raise Fault(f"close_at: {', '.join(works)!r} is no LANE:METRES-METRES:S-S")
    later = begin - min(first for _, first, _ in spans)
    return [f"{match[1]}:{match[2]}-{match[3]}:{first + later}-{last + later}" for match, first, last in spans]
