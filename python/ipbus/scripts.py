"""The lines of scripts, asked of a hub: `read b0:ctrl.gain`, `write b0:count 5` and so on, as `docs/SESSIONS.md` has
them."""

from __future__ import annotations

import contextlib
import re
from collections.abc import Iterable
from typing import NamedTuple

from ipbus.errors import BadLine, IpbusError
from ipbus.hub import Hub
from ipbus.nodes import Node
from ipbus.registers import number_of
from ipbus.values import Result

_NUMBER = re.compile("0x[0-9a-fA-F]{1,8}|[0-9]{1,10}")
# how many numbers follow the register of a line; None is one or more
_NUMBERS = {"read": 0, "write": 1, "readblock": 1, "writeblock": None, "rmwbits": 2, "rmwsum": 1}


class Line(NamedTuple):
    """A line that asks something: its verb, its register as scripts write it, and the numbers after that."""

    verb: str
    path: str
    numbers: list[int]

    def ask(self, hub: Hub) -> Result:
        """Queues what the line says. The result is filled by the dispatch."""
        return self._call(hub.node(self.path))

    def _call(self, node: Node) -> Result:
        calls = {"read": node.read, "write": node.write, "readblock": node.readBlock}
        calls.update({"rmwbits": node.rmw_bits, "rmwsum": node.rmw_sum})
        return node.writeBlock(self.numbers) if self.verb == "writeblock" else calls[self.verb](*self.numbers)


def is_dispatch(text: str) -> bool:
    """Whether a line is `dispatch`."""
    return text.split() == ["dispatch"]


def read_line(text: str) -> Line | None:
    """What a line asks, or None if it asks nothing: an empty one, one that begins with #, or `dispatch`."""
    words = text.split()
    if not words or words[0].startswith("#") or is_dispatch(text):
        return None
    verb, *rest = words
    if verb not in _NUMBERS:
        raise BadLine(f"{text!r}: {verb} is none of {', '.join(_NUMBERS)} and dispatch")
    count = _NUMBERS[verb]
    is_right = len(rest) > 1 if count is None else len(rest) == count + 1
    if not is_right or not all(_NUMBER.fullmatch(word) for word in rest[1:]):
        raise BadLine(f"{text!r} is no line of a script")
    return Line(verb, rest[0], [number_of(word) for word in rest[1:]])


def run_lines(hub: Hub, lines: Iterable[str]) -> list[tuple[str, Result]]:
    """Does what the lines say, and gives each that asks something beside its result. If one of them is refused, that
    is raised, and nothing is sent."""
    lines = [*lines, "dispatch"]
    try:
        for line in filter(None, map(read_line, lines)):
            line.ask(hub)
    finally:
        hub.forget()
    results: list[tuple[str, Result]] = []
    for text in lines:
        line = read_line(text)
        if line is not None:
            results.append((text, line.ask(hub)))
        elif is_dispatch(text):
            with contextlib.suppress(IpbusError):  # the results tell
                hub.dispatch()
    return results


def shown(result: Result) -> str:
    """What is printed of a result: its words, `done` of a write, or the reason why there is none."""
    error = result.error
    if error is not None:
        return f"{type(error).__name__}: {error}"
    value = result.value()
    if value is None:
        return "done"
    return " ".join(f"0x{word:08x}" for word in (value if isinstance(value, list) else [value]))
