"""What a case is, and what comes of it.

A part is a module with two functions. `drawn(number)` gives the case of a number: the same number draws the same case.
`tried(case, program)` runs it and tells what comes of it. A case is texts alone, so that a shrinker can shorten them and
a folder can keep them. `soaking.parts` has a line for each part.
"""
from collections import Counter
from collections.abc import Callable, Iterable
from dataclasses import dataclass, field
from typing import NamedTuple, Protocol

from soaking.program import Program


class Case(NamedTuple):
    """The words that start the program, or what else is done with it, and the texts of the case by the names of the
    files in which they are left. One that is costly takes the proved program a second or more, and is not tried on an
    unproved one."""

    words: tuple[str, ...]
    texts: dict[str, bytes]
    is_costly: bool = False

    def with_text(self, name: str, text: bytes) -> "Case":
        """The case with another text of this name."""
        return self._replace(texts={**self.texts, name: text})


@dataclass
class Tried:
    """What came of a case. `way` says shortly in which way it differs, `told` what differs; both are empty where nothing
    does. `met` counts what was met of the forms in `soaking.forms`. `is_judged` is not set where a second program could
    not judge it. `extra` is kept beside the case: what the program said, and what it should have said."""

    met: Counter[str] = field(default_factory=Counter)
    way: str = ""
    told: str = ""
    is_judged: bool = True
    extra: dict[str, bytes] = field(default_factory=dict)

    def differs(self, way: str, told: str, **extra: bytes) -> "Tried":
        """It differs in this way, unless it was said already that it does in another."""
        if not self.way:
            self.way, self.told = way, told
            self.extra |= extra
        return self

    def compare(self, way: str, found: object, wanted: object) -> None:
        """What was found is what was wanted."""
        if found != wanted:
            both = f"{str(found)[:400]!r}, wanted {str(wanted)[:400]!r}"
            self.differs(way, both, found=as_bytes(found), wanted=as_bytes(wanted))

    def meet(self, forms: Iterable[str]) -> None:
        """These forms were met."""
        self.met.update(forms)


def as_bytes(value: object) -> bytes:
    """A value as a text that is kept."""
    if isinstance(value, bytes):
        return value
    return (value if isinstance(value, str) else repr(value)).encode(errors="replace")


class Part(Protocol):
    """A module that is a part. It may have `FORMS`, which it alone meets, and `SHARE`, how much time it has beside others
    that have 1."""

    __doc__: str | None
    drawn: Callable[[int], Case]
    tried: Callable[[Case, Program], Tried]
