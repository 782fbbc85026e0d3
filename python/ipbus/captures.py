"""Captures: what a hub sent to one board and heard from it, datagram by datagram, as `docs/FORMATS.md` has them."""

from __future__ import annotations

import re
from typing import NamedTuple

from ipbus.errors import IpbusError
from ipbus.packets import LAST_IDENTIFIER, control_in, status_in

# the most bytes of a text, and of a datagram
MOST_BYTES = 134_217_728
LONGEST = 9000
# line 1 of the text is no datagram
FIRST_LINE = 2

_FIRST = re.compile(rb"first ([1-9][0-9]{0,4})\n")
_LINE = re.compile(rb"([<>]) (-|(?:[0-9a-f]{2})+)\n")


class BadCapture(IpbusError):
    """A text that is no capture, by its first line that is none."""

    advice = "`ipbus describe` says the same, and docs/CAPTURES.md what to look for"


class Caught(NamedTuple):
    """A datagram: whether the hub sent it, and its bytes."""

    is_sent: bool
    data: bytes


class Capture(NamedTuple):
    """The identifier of place 1, and the datagrams in their order."""

    first: int
    items: list[Caught]


def read_capture(text: bytes) -> Capture:
    """The capture that has this text."""
    if len(text) > MOST_BYTES:
        raise BadCapture(f"the capture has more than {MOST_BYTES} bytes")
    head, *lines = text.splitlines(keepends=True) or [b""]
    found = _FIRST.fullmatch(head)
    if not found or int(found[1]) > LAST_IDENTIFIER:
        raise BadCapture("line 1 is not `first` and an identifier from 1 to 65535")
    items = []
    for number, line in enumerate(lines, FIRST_LINE):
        told = _LINE.fullmatch(line)
        if not told:
            raise BadCapture(f"line {number} is not > or <, a space, and two digits for each byte")
        data = b"" if told[2] == b"-" else bytes.fromhex(told[2].decode())
        if len(data) > LONGEST:
            raise BadCapture(f"line {number} has a datagram of more than {LONGEST} bytes")
        items.append(Caught(told[1] == b">", data))
    return Capture(int(found[1]), items)


def write_capture(capture: Capture) -> bytes:
    """The text of a capture."""
    lines = [f"{'>' if item.is_sent else '<'} {item.data.hex() or '-'}\n" for item in capture.items]
    return f"first {capture.first}\n{''.join(lines)}".encode()


class Order:
    """The places of packets, datagram by datagram: how many were sent for the first time, and up to which place the
    board has shown that it executed. Of several places with one identifier the last one is meant."""

    def __init__(self, first: int) -> None:
        self.sent = 0
        self.shown = 0
        self._next = first
        self._place_of: dict[int, int] = {}

    def place_of(self, identifier: int) -> int:
        """The place of the packet with this identifier, or 0."""
        return self._place_of.get(identifier, 0)

    def add(self, item: Caught) -> None:
        """Goes on by a datagram."""
        packet = control_in(item.data)
        if item.is_sent:
            if packet and not packet.is_little and packet.identifier == self._next:
                self.sent += 1
                self._place_of[self._next] = self.sent
                self._next = self._next % LAST_IDENTIFIER + 1
            return
        status = status_in(item.data)
        if packet:
            self.shown = max(self.shown, self.place_of(packet.identifier))
        elif status:
            below = self.sent if status.expected == self._next else self.place_of(status.expected) - 1
            self.shown = max(self.shown, below)
