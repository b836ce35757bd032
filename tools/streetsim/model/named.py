"""Rows and values as a map's file has them: by the names of their fields, in version 1 as lists in their order."""
from collections.abc import Callable, Collection, Sequence
from dataclasses import fields
from typing import TypeVar

from streetsim.base.files import Json

Row = TypeVar("Row")


def columns(names: Sequence[str], rows: Sequence[Sequence[object]]) -> Json:
    """Rows as columns by name; names: of the values of each row."""
    return {name: [row[at] for row in rows] for at, name in enumerate(names)}


def columns_of(kind: type, rows: Collection[object]) -> Json:
    """Instances of a dataclass as columns by the names of its fields."""
    return {one.name: [getattr(row, one.name) for row in rows] for one in fields(kind)}


def rows_of(kind: Callable[..., Row], table: Json) -> list[Row]:
    """The rows of a table of columns by name, or of rows as lists. TypeError or ValueError for anything else."""
    if isinstance(table, dict):
        return [kind(**dict(zip(table, row, strict=True))) for row in zip(*table.values(), strict=True)]
    return [kind(*row) for row in table]


def one_of(kind: Callable[..., Row], entry: object) -> Row:
    """What has its values by name, or in a list. TypeError for anything else."""
    if isinstance(entry, dict):
        return kind(**entry)
    if isinstance(entry, list):
        return kind(*entry)
    raise TypeError(f"{entry!r} has no fields")
