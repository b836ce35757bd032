"""What the definitions take for granted: values, the words of the kit's library, JSON, and the cipher of the draws.

A number is an int, a list of type `List` a list, a pair or a longer tuple a tuple, a text the list of its bytes, and a
statement True or False. A record is a Record; every other value is a Variant: its name and what it holds. Functions
that are handed on take one argument at a time.
"""
import functools
import json
import math
import re


class Variant:
    """A constructor and what it was applied to so far."""

    __slots__ = ("name", "parts")

    def __init__(self, name, parts=()):
        self.name, self.parts = name, parts

    def __call__(self, part):
        if self is NONE:
            raise TypeError("None holds nothing")
        return Variant(self.name, (*self.parts, part))

    def __eq__(self, other):
        return isinstance(other, Variant) and self.name == other.name and self.parts == other.parts

    def __repr__(self):
        return f"({' '.join([self.name, *map(repr, self.parts)])})" if self.parts else self.name


class Record:
    """Fields by name."""

    def __init__(self, fields):
        self.__dict__.update(fields)

    def updated(self, fields):
        """The same with some fields changed."""
        missing = fields.keys() - self.__dict__.keys()
        if missing:
            raise AttributeError(f"no field {min(missing)}")
        return Record({**self.__dict__, **fields})

    def __eq__(self, other):
        return isinstance(other, Record) and self.__dict__ == other.__dict__

    def __repr__(self):
        return "{" + "; ".join(f"{name} = {value}" for name, value in self.__dict__.items()) + "}"


NONE = Variant("None")


def some(x):
    return Variant("Some", (x,))


# ---- the library

def filter_map(f, xs):
    return [found.parts[0] for found in map(f, xs) if found is not NONE]


def position(test, xs):
    return next((some(at) for at, x in enumerate(xs) if test(x)), NONE)


def find(test, xs):
    return next((some(x) for x in xs if test(x)), NONE)


def remove_key(test, xs):
    at = next((at for at, x in enumerate(xs) if test(x)), len(xs))
    return xs[:at] + xs[at + 1:]


def slice_set(xs, at, x):
    return [*xs[:at], x, *xs[at + 1:]] if at < len(xs) else xs


def is_utf8(text):
    try:
        bytes(text).decode()
    except UnicodeDecodeError:
        return False
    return True


# ---- JSON, as RFC 8259 has it, with the limits of the kit's reader

MOST_LEVELS = 127
PARTS = re.compile(r'"(?:[^"\\]|\\.)*"|[\[{]|[\]}]', re.DOTALL)


def number_data(text):
    """A number below 2^64 that is written with digits alone; else a negative one or a float,
    of which nothing more is asked."""
    if text.isdigit() and len(text) <= 20 and int(text) < 2 ** 64:
        return Variant("number", (Variant("unsigned", (int(text),)),))
    if len(text) > 400 and re.fullmatch(r"-?\d+", text) or math.isinf(float(text)):
        raise ValueError("no float is so great")
    return Variant("number", (Variant("float", (text,)),))


def text_data(text):
    return list(text.encode())


def object_data(pairs):
    """The last value of a key stays, and keys stand in the order of their bytes."""
    members = Variant("no_members")
    for key, value in sorted(
        ((text_data(key), value) for key, value in dict(pairs).items()), reverse=True, key=lambda pair: pair[0]
    ):
        members = Variant("member", (key, data_of(value), members))
    return Variant("object", (members,))


def data_of(value):
    """A value of Python's reader as the definitions have it."""
    if isinstance(value, Variant):
        return value
    if isinstance(value, str):
        return Variant("string", (text_data(value),))
    if isinstance(value, list):
        items = Variant("no_items")
        for one in reversed(value):
            items = Variant("item", (data_of(one), items))
        return Variant("array", (items,))
    return Variant("null") if value is None else Variant("boolean", (value,))


def levels(text):
    """How deep lists and objects nest."""
    depth = most = 0
    for part in PARTS.finditer(text):
        depth += {"[": 1, "{": 1, "]": -1, "}": -1}.get(part[0], 0)
        most = max(most, depth)
    return most


def no_constant(name):
    raise ValueError(f"{name} is no JSON")


def read_json(line):
    """The value of a line of UTF-8; none if it is no JSON, has a lone half of a surrogate pair,
    a number too great for a float, or too many levels."""
    text = bytes(line).decode()
    if levels(text) > MOST_LEVELS:
        return NONE
    try:
        return some(
            data_of(
                json.loads(
                    text, parse_int=number_data, parse_float=number_data, parse_constant=no_constant,
                    object_pairs_hook=object_data,
                )
            )
        )
    except ValueError:
        return NONE


def get(key, data):
    """The value under a key of an object."""
    if data.name == "object":
        members = data.parts[0]
        while members.name == "member":
            if members.parts[0] == key:
                return some(members.parts[1])
            members = members.parts[2]
    return NONE


def part_of(name):
    """What a value holds, if it is of this kind."""
    return lambda data: some(data.parts[0]) if data.name == name else NONE


def compact_text(data):
    """The text of a value without floats, with no space."""
    return list(written(data).encode())


def written(data):
    if data.name == "number":
        return str(data.parts[0].parts[0])
    if data.name == "string":
        return json.dumps(bytes(data.parts[0]).decode(), ensure_ascii=False)
    if data.name == "boolean":
        return "true" if data.parts[0] else "false"
    found, rest = [], data.parts[0]
    while rest.parts:
        *key, value, rest = rest.parts
        found.append("".join(json.dumps(bytes(k).decode()) + ":" for k in key) + written(value))
    return ("[%s]" if data.name == "array" else "{%s}") % ",".join(found)


# ---- ChaCha20: the block function of RFC 8439, with a counter and a stream of 64 bits each

ROUNDS = [
    (0, 4, 8, 12), (1, 5, 9, 13), (2, 6, 10, 14), (3, 7, 11, 15), (0, 5, 10, 15), (1, 6, 11, 12), (2, 7, 8, 13),
    (3, 4, 9, 14),
]
WORD = 0xFFFFFFFF


def turned(x, bits):
    return (x << bits | x >> (32 - bits)) & WORD


def quarter_round(x, a, b, c, d):
    for first, second, third, bits in ((a, b, d, 16), (c, d, b, 12), (a, b, d, 8), (c, d, b, 7)):
        x[first] = x[first] + x[second] & WORD
        x[third] = turned(x[third] ^ x[first], bits)


@functools.lru_cache(65536)
def block(double_rounds, key, stream, counter):
    """The 16 words of a block."""
    words = [
        int.from_bytes(part, "little")
        for part in (b"expa", b"nd 3", b"2-by", b"te k", *(key[at : at + 4] for at in range(0, 32, 4)))
    ]
    start = [*words, counter & WORD, counter >> 32, stream & WORD, stream >> 32]
    mixed = start[:]
    for _ in range(double_rounds):
        for places in ROUNDS:
            quarter_round(mixed, *places)
    return [a + b & WORD for a, b in zip(mixed, start)]


def word_at(double_rounds, key, stream, place):
    return block(double_rounds, bytes(key), stream, place // 16)[place % 16]


# ---- each word: how many arguments it takes, and what it does with them

WORDS = {
    "nat_lt": (2, lambda a, b: a < b),
    "nat_le": (2, lambda a, b: a <= b),
    "suc": (1, lambda n: n + 1),
    "min": (2, min),
    "not": (1, lambda a: not a),
    "length": (1, len),
    "map": (2, lambda f, xs: [f(x) for x in xs]),
    "filter": (2, lambda test, xs: [x for x in xs if test(x)]),
    "filter_map": (2, filter_map),
    "flat_map": (2, lambda f, xs: [y for x in xs for y in f(x)]),
    "position": (2, position),
    "find": (2, find),
    "take": (2, lambda n, xs: xs[:n]),
    "drop": (2, lambda n, xs: xs[n:]),
    "reverse": (1, lambda xs: xs[::-1]),
    "replicate": (2, lambda n, x: [x] * n),
    "remove_key": (2, remove_key),
    "slice_set": (3, slice_set),
    "slice_get": (2, lambda xs, at: some(xs[at]) if at < len(xs) else NONE),
    "slice_index_or": (3, lambda xs, at, other: xs[at] if at < len(xs) else other),
    "sum_by": (2, lambda f, xs: sum(f(x) for x in xs)),
    "count_by": (2, lambda test, xs: sum(1 for x in xs if test(x))),
    "list_any": (2, lambda test, xs: any(test(x) for x in xs)),
    "list_all": (2, lambda test, xs: all(test(x) for x in xs)),
    "All": (2, lambda test, xs: all(test(x) for x in xs)),
    "enumerate_from": (2, lambda n, xs: list(enumerate(xs, n))),
    "range_with_len": (2, lambda low, n: list(range(low, low + n))),
    "unwrap_or": (2, lambda o, other: other if o is NONE else o.parts[0]),
    "is_some": (1, lambda o: o is not NONE),
    "is_none": (1, lambda o: o is NONE),
    "option_map": (2, lambda f, o: o if o is NONE else some(f(o.parts[0]))),
    "option_and_then": (2, lambda f, o: o if o is NONE else f(o.parts[0])),
    "option_map_or": (3, lambda f, o, other: other if o is NONE else f(o.parts[0])),
    "option_to_list": (1, lambda o: [] if o is NONE else [o.parts[0]]),
    "option_or": (2, lambda a, b: b if a is NONE else a),
    "codes": (1, lambda text: list(text.encode())),
    "bytes_eq": (2, lambda a, b: a == b),
    "is_utf8": (1, is_utf8),
    "to_le_bytes": (2, lambda width, n: list(n.to_bytes(width, "little"))),
    "key_of": (1, lambda key: key),
    "word_at": (4, word_at),
    "read": (1, read_json),
    "get": (2, get),
    "as_number": (1, part_of("number")),
    "as_u64": (1, part_of("unsigned")),
    "as_str": (1, part_of("string")),
    "as_array": (1, part_of("array")),
    "compact_text": (1, compact_text),
}
VALUES = {
    "true": "True", "false": "False", "zero": "0", "⊤": "True", "⊥": "False", "None": "NONE", "w32": "4", "w64": "8",
}
CONSTRUCTORS = {
    "Some", "Ok", "Err", "null", "boolean", "number", "string", "array", "object", "unsigned", "negative", "float",
    "no_items", "item", "no_members", "member",
}
