"""Makes a case that differs as small as it can: lines go first, then entries of lines, then numbers get shorter. A case
is taken where it still differs in the same way."""
import re
import time
from collections.abc import Callable

from soaking.cases import Case, Tried

# so many seconds one case may take to be made smaller, and so many entries of a text are tried
SECONDS = 90.0
MOST_ENTRIES = 3000
ENTRY = re.compile(rb"(,\s*|\s+)")
NUMBER = re.compile(rb"0x[0-9a-fA-F]+|[0-9]+")


class Over(Exception):
    """The time is over."""


class Shrinker:
    """The smallest case so far that differs in a way."""

    def __init__(self, case: Case, way: str, judge: Callable[[Case], Tried], seconds: float = SECONDS) -> None:
        self.case = case
        self.way = way
        self.judge = judge
        self.end = time.monotonic() + seconds
        self.tries = 0

    def takes(self, name: str, text: bytes) -> bool:
        """Whether the case with this text differs in the same way; then it is the smallest so far."""
        if time.monotonic() > self.end:
            raise Over
        self.tries += 1
        case = self.case.with_text(name, text)
        try:
            is_same = self.judge(case).way == self.way
        except Exception:  # no part can say what a text is that a shrinker makes
            is_same = False
        if is_same:
            self.case = case
        return is_same

    def fewer(self, name: str, items: list[bytes]) -> list[bytes]:
        """Leaves items out, many at once and then one by one."""
        size = max(1, len(items) // 2)
        while size:
            at = 0
            while at < len(items):
                rest = items[:at] + items[at + size :]
                if self.takes(name, b"".join(rest)):
                    items = rest
                else:
                    at += size
            size //= 2
        return items

    def entries(self, name: str) -> None:
        """Leaves out what stands between spaces and commas."""
        items = ENTRY.split(self.case.texts[name])
        if len(items) <= MOST_ENTRIES:
            self.fewer(name, items)

    def numbers(self, name: str) -> None:
        """Puts shorter numbers in the place of long ones."""
        at = 0
        while found := NUMBER.search(self.case.texts[name], at):
            text = self.case.texts[name]
            for shorter in (b"0", b"1", found[0][: len(found[0]) // 2], found[0][:-1]):
                is_shorter = len(shorter) < len(found[0]) and NUMBER.fullmatch(shorter)
                if is_shorter and self.takes(name, text[: found.start()] + shorter + text[found.end() :]):
                    at = found.start() + len(shorter)
                    break
            else:
                at = found.end()

    def shrink(self) -> Case:
        """The smallest case that the time allows to find."""
        try:
            before = None
            while before != self.case.texts:
                before = self.case.texts
                for name in self.case.texts:
                    self.fewer(name, self.case.texts[name].splitlines(keepends=True))
                for name in self.case.texts:
                    self.entries(name)
                    self.numbers(name)
        except Over:
            pass
        return self.case


def shrunk(case: Case, way: str, judge: Callable[[Case], Tried], seconds: float = SECONDS) -> Case:
    """The smallest case found that differs in the same way."""
    return Shrinker(case, way, judge, seconds).shrink()
