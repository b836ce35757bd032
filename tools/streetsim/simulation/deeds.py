"""Notes what a script does to a session (@deed), so that a saved state can do it again."""
from collections.abc import Callable
from functools import wraps
from typing import Concatenate, ParamSpec, TypeVar

Arguments = ParamSpec("Arguments")
Returned = TypeVar("Returned")
NAMES: set[str] = set()  # of the methods that are deeds


class Doer:
    """Something whose deeds are noted."""

    part = ""  # how notes name it
    deeds: "Deeds"

    @property
    def clock(self) -> int:
        """The clock of the run."""
        raise NotImplementedError


class Deeds:
    """The deeds of a script, in their order: (clock, part, name, words), as JSON has them."""

    def __init__(self) -> None:
        """None is done."""
        self.entries: list[tuple[int, str, str, tuple]] = []
        self.under_way = False


DoerKind = TypeVar("DoerKind", bound=Doer)


def deed(
    method: Callable[Concatenate[DoerKind, Arguments], Returned],
) -> Callable[Concatenate[DoerKind, Arguments], Returned]:
    """A method by which a script changes a run: calls are noted that raise nothing and that no other deed makes."""
    NAMES.add(method.__name__)

    @wraps(method)
    def noted_call(doer: DoerKind, *args: Arguments.args, **kwargs: Arguments.kwargs) -> Returned:
        """Calls the method."""
        deeds, clock = doer.deeds, doer.clock
        if deeds.under_way:
            return method(doer, *args, **kwargs)
        deeds.under_way = True
        try:
            result = method(doer, *args, **kwargs)
        finally:
            deeds.under_way = False
        deeds.entries.append((clock, doer.part, method.__name__, args))
        return result

    return noted_call
