"""Equal numbers in columns of NumPy: groups of those that stand one behind the other, and their texts."""
from __future__ import annotations

from collections.abc import Callable

from streetsim.base.arrays import Array
from streetsim.base.arrays import numpy as np


def groups_of(keys: Array) -> tuple[Array, Array]:
    """(where each group of equal keys begins, by entry the number of its group)."""
    begins = np.flatnonzero(np.append(True, keys[1:] != keys[:-1])[: len(keys)])
    number = np.zeros(len(keys), np.int64)
    number[begins[1:]] = 1
    return begins, np.cumsum(number)


def unbroken(holds: Array, begins: Array, group: Array) -> Array:
    """By entry whether it and all before it in its group hold; begins, group: as of groups_of."""
    broken = np.cumsum(~holds)
    return broken == (broken[begins] - ~holds[begins])[group]


def texts_by_number(numbers: Array, text_of: Callable[[int], str]) -> list[str]:
    """The texts of numbers, of equal ones made once."""
    values, places = np.unique(numbers, return_inverse=True)
    texts: list[str] = np.array([*map(text_of, values.tolist())], object)[places].tolist()
    return texts


def rounded(numbers: Array, digits: int) -> Array:
    """Numbers rounded as Python does, to so many decimals."""
    values, places = np.unique(numbers, return_inverse=True)
    return np.array([round(value, digits) for value in values.tolist()], float)[places]


def by_number(numbers: Array) -> Array:
    """The order that sorts small numbers, equal ones as they stand: by 16 bits, for which NumPy has a radix sort."""
    if not len(numbers):
        return np.zeros(0, np.int64)
    low = numbers - numbers.min()
    order = np.argsort(low.astype(np.uint16), kind="stable")
    if low.max() >= 1 << 16:
        order = order[np.argsort((low[order] >> 16).astype(np.uint16), kind="stable")]
    return order
