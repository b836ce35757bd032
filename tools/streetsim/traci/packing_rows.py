"""Rows of values as bytes of TraCI's protocol: what is told of many objects is packed at once."""
from __future__ import annotations

from collections.abc import Sequence
from functools import lru_cache
from itertools import groupby

from streetsim.base.arrays import Array, numpy as np
from streetsim.simulation.columns import Column
from streetsim.traci import constants as tc
from streetsim.traci.protocol import ENCODERS, TYPES

MOST_TEXTS = 1 << 16  # texts whose bytes are kept
FIXED_SIZE = {"d": [("x", ">f8")], "i": [("x", ">i4")], "o": [("x", ">f8"), ("y", ">f8")]}  # fields, by type of a value


@lru_cache(256)
def make_layout(variables: tuple[tuple[int, str], ...]) -> tuple[Array, bytes]:
    """(NumPy's layout of the values of variables of fixed size behind each other, each with number, state and mark of
    its type; the bytes of a row of zeros)."""
    fields: list[tuple[str, str]] = []
    for index, (_, letter) in enumerate(variables):
        fields += [(f"head{index}", "S3"), *((f"{name}{index}", kind) for name, kind in FIXED_SIZE[letter])]
    layout = np.dtype(fields)
    row = np.zeros(1, layout)
    for index, (variable, letter) in enumerate(variables):
        row[f"head{index}"] = bytes((variable, tc.RTYPE_OK, TYPES[letter]))
    return layout, row.tobytes()


def pack_fixed_rows(variables: tuple[tuple[int, str], ...], columns: Sequence[Column], count: int) -> list[bytes]:
    """By row the bytes of values of fixed size; variables: (number, type) of each column."""
    layout, row = make_layout(variables)
    table = np.frombuffer(bytearray(row * count), layout)
    for index, ((_, letter), column) in enumerate(zip(variables, columns, strict=True)):
        if letter == "o":
            points = np.asarray(column)
            table[f"x{index}"], table[f"y{index}"] = points[:, 0], points[:, 1]
        else:
            table[f"x{index}"] = column
    data, size = table.tobytes(), layout.itemsize
    return [data[begin : begin + size] for begin in range(0, size * count, size)]


def pack_other_rows(variable: int, kind: str, column: Column) -> list[bytes]:
    """By row the bytes of values of another size."""
    if kind == "s":
        return [text_row(variable, value) for value in column]
    head, encode = bytes((variable, tc.RTYPE_OK)), ENCODERS[kind]
    return [head + encode(value) for value in column]


@lru_cache(MOST_TEXTS)
def text_row(variable: int, value: str) -> bytes:
    """The bytes of a text."""
    return bytes((variable, tc.RTYPE_OK)) + ENCODERS["s"](value)


def pack_rows(kinds: Sequence[tuple[int, str]], columns: Sequence[Column], count: int) -> list[bytes]:
    """By row the bytes of all values; kinds: (number, type) of the variable of each column."""
    parts: list[list[bytes]] = []
    pairs = zip(kinds, columns, strict=True)
    for is_fixed, group in groupby(pairs, lambda pair: pair[0][1] in FIXED_SIZE):
        group_pairs = list(group)
        if is_fixed:
            group_kinds, group_columns = zip(*group_pairs)
            parts.append(pack_fixed_rows(group_kinds, group_columns, count))
        else:
            parts += [pack_other_rows(*kind, column) for kind, column in group_pairs]
    if len(parts) == 1:
        return parts[0]
    return [b"".join(row) for row in zip(*parts, strict=True)] if parts else count * [b""]
